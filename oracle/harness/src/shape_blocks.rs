//! The shape test block by block: the same runs, cut in the same blocks, through plain Rust and through the library.

use std::ops::Range;

use oracle::format::{ENTRY_LENS, Layout, MAX_ENTRIES, kind, signature};
use oracle::print::hex;
use oracle::rng::Rng;
use oracle::shape::{Blocks, Fed};

use crate::ffi::{self, SHAPE_STATE};
use crate::lent::Lent;

/// Runs of up to so many bytes are cut in blocks of every size.
const SHORT: usize = 12;

/// A longer run is cut in blocks of one size up to this, which is the length of the longest entry.
const SIZES: usize = 9;

/// What stands in the two numbers before a call.
const NO_NUMBER: usize = 0x5a5a_5a5a_5a5a_5a5a;

/// So many runs must meet every case.
const ENOUGH: u64 = 100_000;

/// How a run is cut.
#[derive(Clone, Copy)]
enum Cut {
    /// In blocks of this size; the last one may be shorter.
    Every(usize),
    /// In blocks of any size below this one, some of no bytes.
    Below(usize),
}

impl Cut {
    /// The length of the next block, where so many bytes are left.
    fn next(self, rng: &mut Rng, left: usize) -> Option<usize> {
        match self {
            Cut::Every(_) if left == 0 => None,
            Cut::Every(size) => Some(size.min(left)),
            Cut::Below(_) if left == 0 && !rng.one_in(4) => None,
            Cut::Below(limit) => Some(rng.below(limit).min(left)),
        }
    }
}

/// What a call for a block answers: the number, the bytes passed, the strips ended.
type Answer = (u32, usize, usize);

fn answer(fed: Fed) -> Answer {
    (if fed.refused { 7 } else { 0 }, fed.passed, fed.strips)
}

/// What the blocks of a run led to in all, and the state that the library has left.
type Led = (Fed, [u8; SHAPE_STATE]);

fn shown((fed, state): Led) -> String {
    format!("{fed:?} with the state {}", hex(&state))
}

/// What blocks can meet, but for cut entries.
#[derive(Clone, Copy)]
enum Case {
    EndFirst,
    EmptyAfterCut,
    RefusedFirst,
    RefusedLast,
    RefusedBegun,
    UnknownLast,
    FullStrip,
    OverfullStrip,
    NoEnd,
    CutLast,
}

const CASES: [(Case, &str); 10] = [
    (Case::EndFirst, "end in a block's first byte"),
    (Case::EmptyAfterCut, "no bytes after a cut entry"),
    (Case::RefusedFirst, "refused in a block's first byte"),
    (Case::RefusedLast, "refused in a block's last byte"),
    (Case::RefusedBegun, "refused, begun in a block before"),
    (Case::UnknownLast, "unknown kind in the last byte"),
    (Case::FullStrip, "strip of 64 entries"),
    (Case::OverfullStrip, "64th entry is not the end"),
    (Case::NoEnd, "last strip has no end"),
    (Case::CutLast, "last entry is cut"),
];

/// How often the blocks met each case, in each layout.
#[derive(Default)]
pub struct Met {
    cases: [[u64; Layout::ALL.len()]; CASES.len()],
    /// Blocks that end after so many bytes of an entry, less one, and not with it.
    cuts: [[u64; Layout::ALL.len()]; SIZES - 1],
}

impl Met {
    fn count(&mut self, case: Case, layout: Layout) {
        self.cases[case as usize][layout as usize] += 1;
    }

    /// A block of a run, and how many bytes are passed before and after it.
    fn block(&mut self, run: &[u8], layout: Layout, block: Range<usize>, passed: [usize; 2], refused: bool) {
        let [was_passed, passed] = passed;
        if block.is_empty() {
            if was_passed < block.start {
                self.count(Case::EmptyAfterCut, layout);
            }
            return;
        }
        if was_passed == block.start && run[block.start] == kind::END && was_passed < passed {
            self.count(Case::EndFirst, layout);
        }
        if !refused {
            if passed < block.end {
                self.cuts[block.end - passed - 1][layout as usize] += 1;
            }
            return;
        }
        // An entry is refused at its last byte; an unknown kind has one.
        let kind = run[passed];
        let last = passed + usize::from(ENTRY_LENS[layout as usize][usize::from(kind)]) - 1;
        if last == block.start {
            self.count(Case::RefusedFirst, layout);
        }
        if last + 1 == block.end {
            self.count(if signature(kind).is_some() { Case::RefusedLast } else { Case::UnknownLast }, layout);
        }
        if passed < block.start {
            self.count(Case::RefusedBegun, layout);
        }
    }

    /// A run, what its blocks led to in all, and whether it ends after them.
    fn run(&mut self, run: &[u8], layout: Layout, all: Fed, ends: bool) {
        let mut entries = 0;
        let mut rest = &run[..all.passed];
        while let Some(&kind) = rest.first() {
            entries += 1;
            if kind == kind::END {
                if entries == MAX_ENTRIES {
                    self.count(Case::FullStrip, layout);
                }
                entries = 0;
            }
            rest = &rest[usize::from(ENTRY_LENS[layout as usize][usize::from(kind)])..];
        }
        if all.refused {
            if entries + 1 == MAX_ENTRIES {
                self.count(Case::OverfullStrip, layout);
            }
        } else if all.passed < run.len() {
            self.count(Case::CutLast, layout);
        } else if !ends {
            self.count(Case::NoEnd, layout);
        }
    }

    /// Prints the counts after so many runs, and says whether they are as they ought to be.
    pub fn report(&self, runs: u64) -> bool {
        let longest = Layout::ALL.map(|layout| ENTRY_LENS[layout as usize].into_iter().max().expect("256 kinds"));
        let line = |name: &str, counts: [u64; Layout::ALL.len()], can: [bool; Layout::ALL.len()]| {
            let [wide, narrow] = counts;
            let lacks = runs >= ENOUGH && counts.iter().zip(can).any(|(times, can)| can && *times == 0);
            println!("{name:<34} {wide:>9} {narrow:>9}{}", if lacks { "  <- lacks" } else { "" });
            !lacks
        };
        println!("{:<34} {:>9} {:>9}", "blocks", Layout::Wide.name(), Layout::Narrow.name());
        let mut fine = true;
        for (bytes, counts) in (1..).zip(self.cuts) {
            fine &= line(&format!("entry cut after byte {bytes}"), counts, longest.map(|len| bytes < len));
        }
        for (case, name) in CASES {
            fine &= line(name, self.cases[case as usize], [true; Layout::ALL.len()]);
        }
        fine
    }
}

/// Makes the calls.
pub struct ByBlocks {
    rng: Rng,
    state: Lent<u8>,
    passed: Lent<usize>,
    strips: Lent<usize>,
    /// The lengths of the blocks of the last cut.
    lens: Vec<usize>,
    pub met: Met,
}

impl ByBlocks {
    pub fn new(seed: u64) -> ByBlocks {
        ByBlocks {
            rng: Rng::new(seed),
            state: Lent::default(),
            passed: Lent::default(),
            strips: Lent::default(),
            lens: Vec::new(),
            met: Met::default(),
        }
    }

    /// Hands a run over in blocks, cut in several ways; the layout is given by its number, which may name none. What is
    /// not as in plain Rust, or not as the library's number for the whole run says.
    pub fn compare(&mut self, run: &[u8], layout: u32, whole: u32) -> Option<String> {
        let any = self.rng.next_u64();
        self.state.fill(&mut self.rng, any as u8, std::iter::repeat_n((any >> 8) as u8, SHAPE_STATE));
        self.passed.fill(&mut self.rng, any as usize, [0]);
        self.strips.fill(&mut self.rng, !any as usize, [0]);
        let difference = match Layout::from_number(layout) {
            Some(layout) => self.compare_cuts(run, layout, whole),
            None => {
                let number = ffi::shape_begin(self.state.list(), layout);
                (number != 7 || !self.state.is_kept()).then(|| format!("begin answers {number}, or writes"))
            }
        };
        let kept =
            self.state.is_kept_around(SHAPE_STATE) && self.passed.is_kept_around(1) && self.strips.is_kept_around(1);
        difference.or_else(|| (!kept).then(|| "a write beside the state or the numbers".to_owned()))
    }

    fn compare_cuts(&mut self, run: &[u8], layout: Layout, whole: u32) -> Option<String> {
        let (sizes, more) = if run.len() <= SHORT {
            (1..=run.len().max(1), None)
        } else {
            let size = 1 + self.rng.below(SIZES);
            (size..=size, Some(Cut::Every(run.len())))
        };
        let any = Cut::Below(self.rng.pick(&[2, 4, SIZES + 2, 64, 400]));
        let mut first: Option<Led> = None;
        for cut in sizes.map(Cut::Every).chain(more).chain([any]) {
            self.lens.clear();
            let told = match (self.compare_cut(run, layout, whole, cut), first) {
                (Ok(led), None) => {
                    first = Some(led);
                    self.met.run(run, layout, led.0, whole == 0);
                    continue;
                }
                (Ok(led), Some(right)) if led == right => continue,
                (Ok(led), Some(right)) => format!("{}, cut in another way {}", shown(led), shown(right)),
                (Err(difference), _) => difference,
            };
            return Some(format!("{told}; blocks of {:?}", self.lens));
        }
        None
    }

    /// What the blocks of a cut lead to, or what differs.
    fn compare_cut(&mut self, run: &[u8], layout: Layout, whole: u32, cut: Cut) -> Result<Led, String> {
        let number = ffi::shape_begin(self.state.list(), layout.number());
        if number != 0 {
            return Err(format!("begin answers {number}"));
        }
        let mut plain = Blocks::new(layout);
        let mut all = Fed::default();
        let mut at = 0;
        while let Some(len) = cut.next(&mut self.rng, run.len() - at) {
            let block = at..at + len;
            at = block.end;
            self.lens.push(len);
            let fed = plain.feed(&run[block.clone()]);
            let (right, library) = (answer(fed), self.block(&run[block.clone()]));
            if library != right {
                return Err(format!("{right:?}, in the library {library:?}"));
            }
            let before = all;
            all = Fed { passed: all.passed + fed.passed, strips: all.strips + fed.strips, refused: fed.refused };
            if !before.refused {
                self.met.block(run, layout, block, [before.passed, all.passed], all.refused);
            }
        }
        let state = self.state();
        if all.refused {
            let library = self.block(&[kind::END]);
            if library != (7, 0, 0) || self.state() != state {
                return Err(format!("after a refusal {library:?}, or another state"));
            }
        }
        let end = ffi::shape_end(self.state.list());
        let ends = plain.ends();
        if (end == 0) != ends || end != whole || ends && all.passed != run.len() {
            return Err(format!("at the end {ends}, in the library {end}, for the whole run {whole}; {all:?}"));
        }
        Ok((all, state))
    }

    fn state(&mut self) -> [u8; SHAPE_STATE] {
        (&*self.state.list()).try_into().expect("a list of this length")
    }

    fn block(&mut self, block: &[u8]) -> Answer {
        let (passed, strips) = (&mut self.passed.list()[0], &mut self.strips.list()[0]);
        (*passed, *strips) = (NO_NUMBER, NO_NUMBER);
        let number = ffi::shape_block(self.state.list(), block, passed, strips);
        (number, *passed, *strips)
    }
}
