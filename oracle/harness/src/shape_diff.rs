//! The differential test of the shape test: the same runs through plain Rust and through the library, as a whole and block
//! by block.

use oracle::format::Layout;
use oracle::print::hex;
use oracle::rng::Rng;
use oracle::shape::shape_ok;
use oracle::strips::{random_bytes, random_strip};

use crate::ffi;
use crate::runs::{
    Make, NO_LAYOUT, damaged, last_damaged, near_miss_of, of_any_values, of_both_layouts, of_the_other_layout,
    translated, turn,
};
use crate::shape_blocks::ByBlocks;

/// Differences that are printed in full.
const SHOWN: u64 = 20;

/// Which verdicts a class ought to contain.
#[derive(Clone, Copy, PartialEq, Eq)]
enum Ought {
    Accept,
    Refuse,
    Both,
}

struct Class {
    name: &'static str,
    ought: Ought,
    make: Make,
}

const CLASSES: [Class; 9] = [
    Class { name: "translated", ought: Ought::Accept, make: translated },
    Class { name: "made at random", ought: Ought::Accept, make: of_any_values },
    Class { name: "near miss", ought: Ought::Both, make: |rng, layout| near_miss_of(rng, layout, random_strip) },
    Class { name: "translated, damaged", ought: Ought::Both, make: |rng, layout| damaged(rng, layout, translated) },
    Class { name: "made, damaged", ought: Ought::Both, make: |rng, layout| damaged(rng, layout, of_any_values) },
    Class { name: "last strip damaged", ought: Ought::Both, make: last_damaged },
    Class { name: "of both layouts", ought: Ought::Accept, make: of_both_layouts },
    Class { name: "of the other layout", ought: Ought::Both, make: of_the_other_layout },
    Class { name: "random bytes", ought: Ought::Both, make: |rng, _| random_bytes(rng) },
];

/// Counts of one class.
#[derive(Default)]
struct Tally {
    accepted: u64,
    refused: u64,
    different: u64,
}

/// Compares and shows what differs.
struct Comparison {
    by_blocks: ByBlocks,
    shown: u64,
}

impl Comparison {
    /// Whether the run is well-formed, and whether something differs. The layout is given by its number, which may name
    /// none.
    fn compare(&mut self, name: &str, run: &[u8], layout: u32) -> (bool, bool) {
        let well_formed = Layout::from_number(layout).is_some_and(|layout| shape_ok(run, layout));
        let plain = if well_formed { 0 } else { 7 };
        let library = ffi::shape(run, layout);
        let difference = if library == plain {
            self.by_blocks.compare(run, layout, library)
        } else {
            Some(format!("plain {plain}, library {library}"))
        };
        if let Some(difference) = &difference {
            self.shown += 1;
            if self.shown <= SHOWN {
                println!("difference ({name}): {difference}; layout {layout}, run {}", hex(run));
            }
        }
        (well_formed, difference.is_some())
    }
}

impl Tally {
    fn compare(&mut self, name: &str, run: &[u8], layout: u32, comparison: &mut Comparison) {
        let (well_formed, different) = comparison.compare(name, run, layout);
        if well_formed {
            self.accepted += 1;
        } else {
            self.refused += 1;
        }
        self.different += u64::from(different);
    }

    /// Prints the counts, and says whether they are as they ought to be.
    fn report(&self, name: &str, ought: Ought) -> bool {
        let Tally { accepted, refused, different } = self;
        let complaint = match ought {
            Ought::Accept if *refused > 0 => "  <- holds refused runs",
            Ought::Refuse if *accepted > 0 => "  <- holds accepted runs",
            Ought::Accept | Ought::Refuse if *accepted + *refused == 0 => "  <- empty",
            Ought::Both if *accepted == 0 || *refused == 0 => "  <- lacks a verdict",
            _ => "",
        };
        println!("{name:<30} {accepted:>10} accepted {refused:>10} refused {different:>8} different{complaint}");
        complaint.is_empty() && *different == 0
    }
}

/// Every byte string of up to three bytes.
fn exhaustive(tally: &mut Tally, name: &str, layout: u32, comparison: &mut Comparison) {
    tally.compare(name, &[], layout, comparison);
    for number in 0..1u32 << 24 {
        let [a, b, c, _] = number.to_le_bytes();
        tally.compare(name, &[a, b, c], layout, comparison);
        if number < 1 << 16 {
            tally.compare(name, &[a, b], layout, comparison);
        }
        if number < 1 << 8 {
            tally.compare(name, &[a], layout, comparison);
        }
    }
}

/// Compares on `count` random runs, shared out among the classes, in each layout and in none, and on all short ones.
/// True if there is no difference, every class has the verdicts that it ought to have, and the blocks met all that they
/// ought to meet.
pub fn run(count: u64, seed: u64) -> bool {
    let mut rng = Rng::new(seed);
    let mut comparison = Comparison { by_blocks: ByBlocks::new(!seed), shown: 0 };
    let mut tallies: [[Tally; CLASSES.len()]; Layout::ALL.len()] = Default::default();
    let mut short: [Tally; Layout::ALL.len()] = Default::default();
    let mut no_layout = Tally::default();
    let (short_name, no_layout_name) = ("all of up to 3 bytes", "no such layout");
    for number in NO_LAYOUT {
        no_layout.compare(no_layout_name, &[], number, &mut comparison);
    }
    for index in 0..count {
        let (layout, at) = turn(index, CLASSES.len());
        let run = (CLASSES[at].make)(&mut rng, layout);
        tallies[layout as usize][at].compare(CLASSES[at].name, &run, layout.number(), &mut comparison);
        no_layout.compare(no_layout_name, &run, rng.pick(&NO_LAYOUT), &mut comparison);
    }
    // What the short ones meet is not counted: the random ones must meet it.
    let met = std::mem::take(&mut comparison.by_blocks.met);
    for layout in Layout::ALL {
        exhaustive(&mut short[layout as usize], short_name, layout.number(), &mut comparison);
    }

    if comparison.shown > SHOWN {
        println!("{} more differences", comparison.shown - SHOWN);
    }
    let mut fine = true;
    for layout in Layout::ALL {
        let report = |tally: &Tally, name, ought| tally.report(&format!("{} {name}", layout.name()), ought);
        for (class, tally) in CLASSES.iter().zip(&tallies[layout as usize]) {
            fine &= report(tally, class.name, class.ought);
        }
        fine &= report(&short[layout as usize], short_name, Ought::Both);
    }
    fine &= no_layout.report(no_layout_name, Ought::Refuse);
    fine &= met.report(count);
    println!("{}", if fine { "no difference" } else { "FAILED" });
    fine
}
