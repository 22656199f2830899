//! The differential test of evaluation: the same runs, states and constants through plain Rust and through the library.

use oracle::cases::{cases, constants, start};
use oracle::convert::convert;
use oracle::evaluate::{Refusal, State, evaluate};
use oracle::format::{Layout, encode};
use oracle::print::hex;
use oracle::rng::Rng;
use oracle::starts::{ALL_WORDS, random_list_len, random_state, random_words};
use oracle::strips::{damage, evaluation_strip, random_bytes};

use crate::answers::complaint;
use crate::ffi::{self, Cells, Evaluated, Fault};
use crate::runs::{
    Make, NO_LAYOUT, damaged, long_translated, made, near_miss_of, of_any_values, of_both_layouts, of_the_other_layout,
    translated, translated_strip, turn,
};

/// Differences that are printed in full.
const SHOWN: u64 = 20;

/// The answers: 0 for a run that is evaluated, and the refusals.
const ANSWERS: [u32; 4] = [0, 7, 8, 9];

struct Class {
    name: &'static str,
    /// The answers that must occur.
    must: &'static [u32],
    /// Further answers that may occur.
    may: &'static [u32],
    /// Whether every constant word is lent.
    all_lent: bool,
    make: Make,
}

const CLASSES: [Class; 11] = [
    Class { name: "translated, all lent", must: &[0], may: &[], all_lent: true, make: long_translated },
    Class { name: "translated", must: &[0, 9], may: &[], all_lent: false, make: translated },
    Class { name: "hand-made", must: &[0, 8, 9], may: &[], all_lent: false, make: made },
    Class { name: "of any values", must: &[0, 8, 9], may: &[], all_lent: false, make: of_any_values },
    Class { name: "near miss", must: &ANSWERS, may: &[], all_lent: false, make: near_misses },
    Class {
        name: "translated, damaged",
        must: &ANSWERS,
        may: &[],
        all_lent: false,
        make: |rng, layout| damaged(rng, layout, translated),
    },
    Class {
        name: "hand-made, damaged",
        must: &ANSWERS,
        may: &[],
        all_lent: false,
        make: |rng, layout| damaged(rng, layout, made),
    },
    Class { name: "mixed", must: &ANSWERS, may: &[], all_lent: false, make: mixed },
    Class { name: "of both layouts", must: &[0], may: &[8], all_lent: false, make: of_both_layouts },
    Class { name: "of the other layout", must: &[0, 7], may: &[8, 9], all_lent: false, make: of_the_other_layout },
    Class { name: "random bytes", must: &[0, 7], may: &[8, 9], all_lent: false, make: |rng, _| random_bytes(rng) },
];

fn near_misses(rng: &mut Rng, layout: Layout) -> Vec<u8> {
    near_miss_of(rng, layout, evaluation_strip)
}

/// Strips of all sorts; one run in eight has a last strip that may be damaged.
fn mixed(rng: &mut Rng, layout: Layout) -> Vec<u8> {
    let mut run = Vec::new();
    for _ in 0..1 + rng.below(8) {
        match rng.below(8) {
            0 => run.extend(of_any_values(rng, layout)),
            1..=3 => run.extend(encode(&evaluation_strip(rng), layout)),
            _ => run.extend(translated_strip(rng, layout)),
        }
    }
    if rng.one_in(8) {
        let mut last = if rng.one_in(2) { translated_strip(rng, layout) } else { near_misses(rng, layout) };
        damage(rng, &mut last);
        run.extend(last);
    }
    run
}

/// A hand-made case in the narrow layout, if it is a run in the wide one.
fn narrow(run: &[u8]) -> Option<Vec<u8>> {
    let mut room = run.to_vec();
    let len = convert(run, Layout::Wide, &mut room).ok()?;
    room.truncate(len);
    Some(room)
}

/// What one evaluation is given: a run in the layout of a number, which may name none, the start, and what stands in
/// slot, vec and comp.
#[derive(Clone, Copy)]
struct Start<'a> {
    run: &'a [u8],
    layout: u32,
    state: &'a State,
    constants: &'a [u32],
    fault: Fault,
}

/// Counts of one class.
#[derive(Default)]
struct Tally {
    answers: [u64; ANSWERS.len()],
    different: u64,
}

impl Tally {
    fn compare(&mut self, name: &str, start: Start) -> Option<String> {
        let Start { run, layout, state, constants, fault } = start;
        let answer = Layout::from_number(layout)
            .ok_or(Refusal::Shape)
            .and_then(|layout| evaluate(run, layout, state, constants));
        // A refusal leaves the start.
        let plain = Evaluated {
            number: answer.as_ref().err().map_or(0, |refusal| refusal.number()),
            fault: Fault::of(&answer).unwrap_or(fault),
            cells: Cells::from(answer.as_ref().unwrap_or(state)),
        };
        let place = ANSWERS.iter().position(|number| *number == plain.number).expect("there are no other answers");
        self.answers[place] += 1;
        let library = ffi::evaluated(run, layout, Cells::from(state), constants, fault);
        let difference = plain.first_difference(&library)?;
        self.different += 1;
        Some(format!("({name}): {difference}; {} words, layout {layout}, run {}", constants.len(), hex(run)))
    }

    /// Prints the counts, and says whether they are as they ought to be.
    fn report(&self, name: &str, must: &[u32], may: &[u32]) -> bool {
        let complaint = complaint(ANSWERS.into_iter().zip(self.answers), must, may);
        let [done, shape, undefined, constant] = self.answers;
        let different = self.different;
        println!("{name:<28} {done:>9} {shape:>9} {undefined:>9} {constant:>9} {different:>10}{complaint}");
        complaint.is_empty() && different == 0
    }
}

fn random_fault(rng: &mut Rng) -> Fault {
    let [slot, vec, comp] = std::array::from_fn(|_| rng.next_u64() as u32);
    Fault { slot, vec, comp }
}

/// Compares on the hand-made cases and on `count` random runs, shared out among the classes, in each layout and in none.
/// True if there is no difference and every class has the answers that it ought to have.
pub fn run(count: u64, seed: u64) -> bool {
    let mut rng = Rng::new(seed);
    let words = random_words(&mut rng);
    let mut shown = 0;
    let mut show = |index: u64, difference: Option<String>| {
        if let Some(difference) = difference {
            shown += 1;
            if shown <= SHOWN {
                println!("difference at run {index} {difference}");
            }
        }
    };
    let mut by_hand: [Tally; Layout::ALL.len()] = Default::default();
    let mut no_layout = Tally::default();
    let no_layout_name = "no such layout";
    let (start, case_words) = (start(), constants());
    for (index, case) in (0..).zip(cases()) {
        let constants = &case_words[..case.lent];
        for (layout, run) in Layout::ALL.into_iter().zip([Some(case.run.clone()), narrow(&case.run)]) {
            let Some(run) = run else { continue };
            let fault = random_fault(&mut rng);
            let given = Start { run: &run, layout: layout.number(), state: &start, constants, fault };
            show(index, by_hand[layout as usize].compare(&case.name, given));
            let given = Start { layout: rng.pick(&NO_LAYOUT), ..given };
            show(index, no_layout.compare(no_layout_name, given));
        }
    }
    let mut tallies: [[Tally; CLASSES.len()]; Layout::ALL.len()] = Default::default();
    for index in 0..count {
        let (layout, at) = turn(index, CLASSES.len());
        let class = &CLASSES[at];
        let run = (class.make)(&mut rng, layout);
        let state = random_state(&mut rng);
        let len = if class.all_lent { ALL_WORDS } else { random_list_len(&mut rng, &run, layout, &state, &words) };
        let fault = random_fault(&mut rng);
        let given = Start { run: &run, layout: layout.number(), state: &state, constants: &words[..len], fault };
        show(index, tallies[layout as usize][at].compare(class.name, given));
        show(index, no_layout.compare(no_layout_name, Start { layout: rng.pick(&NO_LAYOUT), ..given }));
    }

    if shown > SHOWN {
        println!("{} more differences", shown - SHOWN);
    }
    println!("{:<28} {:>9} {:>9} {:>9} {:>9} {:>10}", "", "evaluated", "7", "8", "9", "different");
    let mut fine = true;
    for layout in Layout::ALL {
        let report = |tally: &Tally, name, must: &[u32], may: &[u32]| {
            tally.report(&format!("{} {name}", layout.name()), must, may)
        };
        // The narrow cases are made of wide ones that are well-formed.
        let must: &[u32] = if layout == Layout::Wide { &ANSWERS } else { &[0, 8, 9] };
        fine &= report(&by_hand[layout as usize], "cases", must, &[]);
        for (class, tally) in CLASSES.iter().zip(&tallies[layout as usize]) {
            fine &= report(tally, class.name, class.must, class.may);
        }
    }
    fine &= no_layout.report(no_layout_name, &[7], &[]);
    println!("{}", if fine { "no difference" } else { "FAILED" });
    fine
}
