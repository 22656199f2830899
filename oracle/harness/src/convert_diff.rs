//! The differential test of the converter: the same runs, layouts and rooms through plain Rust and through the library.
//! What it makes of a run is also converted back, tested, and evaluated beside the run.

use oracle::convert::convert;
use oracle::format::Layout;
use oracle::print::hex;
use oracle::rng::Rng;
use oracle::starts::{random_list_len, random_state, random_words};
use oracle::strips::{random_bytes, random_strip};

use crate::answers::complaint;
use crate::ffi::{self, Cells, Fault};
use crate::rooms::{Room, Rooms};
use crate::runs::{
    Make, NO_LAYOUT, damaged, last_damaged, long_translated, made, near_miss_of, of_any_values, of_both_layouts,
    of_the_other_layout, translated, turn,
};

/// Differences that are printed in full.
const SHOWN: u64 = 20;

/// The answers: 0 for a run that is converted, and the refusals.
const ANSWERS: [u32; 3] = [0, 6, 7];

/// The answers of the evaluation of a run that is converted.
const EVALUATED: [u32; 3] = [0, 8, 9];

/// The room lies in a longer buffer, which is compared too.
const MARGIN: usize = 64;

/// What stands in `written` before a call, and must stand there after a refusal.
const NO_LENGTH: usize = 0x5a5a_5a5a_5a5a_5a5a;

struct Class {
    name: &'static str,
    /// The answers that must occur.
    must: &'static [u32],
    /// Further answers that may occur.
    may: &'static [u32],
    /// Whether the layout that is named is none.
    no_layout: bool,
    make: Make,
}

impl Class {
    /// Runs that are well-formed.
    const fn good(name: &'static str, make: Make) -> Class {
        Class { name, must: &[0, 6], may: &[], no_layout: false, make }
    }

    /// Runs of which some are not well-formed.
    const fn mixed(name: &'static str, make: Make) -> Class {
        Class { must: &ANSWERS, ..Class::good(name, make) }
    }
}

const CLASSES: [Class; 13] = [
    Class::good("translated", translated),
    Class::good("translated, long", long_translated),
    Class::good("hand-made", made),
    Class::good("of any values", of_any_values),
    Class::good("of both layouts", of_both_layouts),
    Class::mixed("near miss", |rng, layout| near_miss_of(rng, layout, random_strip)),
    Class::mixed("translated, damaged", |rng, layout| damaged(rng, layout, translated)),
    Class::mixed("hand-made, damaged", |rng, layout| damaged(rng, layout, made)),
    Class::mixed("last strip damaged", last_damaged),
    Class::mixed("of the other layout", of_the_other_layout),
    // Most that are a run have no bytes, and fit into any room.
    Class { must: &[0, 7], may: &[6], ..Class::mixed("random bytes", |rng, _| random_bytes(rng)) },
    Class { must: &[0], ..Class::good("of no bytes", |_, _| Vec::new()) },
    Class { must: &[7], no_layout: true, ..Class::good("no such layout", translated_or_none) },
];

/// One run in four has no bytes.
fn translated_or_none(rng: &mut Rng, layout: Layout) -> Vec<u8> {
    if rng.one_in(4) { Vec::new() } else { translated(rng, layout) }
}

/// What a call answers, and what the number and the room that it was lent hold then.
#[derive(PartialEq, Eq)]
struct Answer {
    number: u32,
    written: usize,
    /// The room between its margins.
    buffer: Vec<u8>,
}

impl Answer {
    /// Calls with a room that lies in the buffer.
    fn of(mut buffer: Vec<u8>, call: impl FnOnce(&mut [u8], &mut usize) -> u32) -> Answer {
        let mut written = NO_LENGTH;
        let room = MARGIN..buffer.len() - MARGIN;
        let number = call(&mut buffer[room], &mut written);
        Answer { number, written, buffer }
    }

    /// The first thing in which the library's answer is another, if one is.
    fn first_difference(&self, library: &Answer) -> Option<String> {
        if self.number != library.number {
            return Some(format!("number {}, in the library {}", self.number, library.number));
        }
        if self.written != library.written {
            return Some(format!("length {}, in the library {}", self.written, library.written));
        }
        let (ours, theirs) = (&self.buffer, &library.buffer);
        let at = (0..ours.len()).find(|&at| ours[at] != theirs[at])?;
        let place = at as isize - MARGIN as isize;
        Some(format!("room byte {place} is {:02x}, in the library {:02x}", ours[at], theirs[at]))
    }
}

/// Counts of one class.
#[derive(Default)]
struct Tally {
    answers: [u64; ANSWERS.len()],
    different: u64,
}

impl Tally {
    /// Prints the counts, and says whether they are as they ought to be.
    fn report(&self, name: &str, must: &[u32], may: &[u32]) -> bool {
        let complaint = complaint(ANSWERS.into_iter().zip(self.answers), must, may);
        let [done, no_room, shape] = self.answers;
        println!("{name:<28} {done:>9} {no_room:>9} {shape:>9} {:>10}{complaint}", self.different);
        complaint.is_empty() && self.different == 0
    }
}

/// Makes the calls.
struct Bench {
    rng: Rng,
    words: Vec<u32>,
    /// Random bytes for rooms, so that a write shows.
    pattern: Vec<u8>,
    rooms: Rooms,
    /// How often the runs that are converted gave each answer of an evaluation.
    evaluated: [u64; EVALUATED.len()],
}

impl Bench {
    fn new(seed: u64) -> Bench {
        let mut rng = Rng::new(seed);
        let words = random_words(&mut rng);
        let pattern = (0..1 << 16).map(|_| rng.next_u64() as u8).collect();
        Bench { rng, words, pattern, rooms: Rooms::new(6), evaluated: [0; EVALUATED.len()] }
    }

    /// A room of so many bytes between its margins.
    fn buffer(&mut self, room_len: usize) -> Vec<u8> {
        let len = MARGIN + room_len + MARGIN;
        let at = self.rng.below(self.pattern.len() - len);
        self.pattern[at..at + len].to_vec()
    }

    /// Both convert the run; the layout is given by its number, which may name none. The number, and what differs.
    fn compare(&mut self, run: &[u8], number: u32) -> (u32, Option<String>) {
        let layout = Layout::from_number(number);
        // No run is longer in the other layout than twice.
        let most = 2 * run.len() + 16;
        let mut right = vec![0; most];
        let len = layout.ok_or(7).and_then(|layout| convert(run, layout, &mut right));
        // Rooms as for the run itself where there is none to write: 7 comes before 6.
        let room = Room::random(&mut self.rng, len.unwrap_or(run.len()), most);
        let buffer = self.buffer(room.len);
        let plain = Answer::of(buffer.clone(), |room, written| {
            match layout.ok_or(7).and_then(|layout| convert(run, layout, room)) {
                Ok(len) => {
                    *written = len;
                    0
                }
                Err(number) => number.into(),
            }
        });
        let library = Answer::of(buffer, |room, written| ffi::convert(run, number, room, written));
        if !run.is_empty() {
            self.rooms.count(room, plain.number);
        }
        let difference = plain.first_difference(&library).or_else(|| {
            let (0, Some(layout)) = (plain.number, layout) else { return None };
            let other = &library.buffer[MARGIN..][..library.written];
            self.second_look(run, layout, other)
        });
        let told = |difference| format!("{difference}; room of {}, layout {number}, run {}", room.len, hex(run));
        (plain.number, difference.map(told))
    }

    /// What is wrong with the other run that the library made of a run, if something is.
    fn second_look(&mut self, run: &[u8], layout: Layout, other: &[u8]) -> Option<String> {
        let (here, there) = (layout.number(), layout.other().number());
        if ffi::shape(other, there) != 0 {
            return Some(format!("what is written is not well-formed: {}", hex(other)));
        }
        let buffer = self.buffer(run.len());
        let back = Answer::of(buffer, |room, written| ffi::convert(other, there, room, written));
        if (back.number, back.written, &back.buffer[MARGIN..][..run.len()]) != (0, run.len(), run) {
            return Some(format!("converted back it is {}, {}, {}", back.number, back.written, hex(&back.buffer)));
        }
        let state = random_state(&mut self.rng);
        let len = random_list_len(&mut self.rng, run, layout, &state, &self.words);
        let evaluated = |run, layout| {
            ffi::evaluated(run, layout, Cells::from(&state), &self.words[..len], Fault { slot: 1, vec: 2, comp: 3 })
        };
        let (first, second) = (evaluated(run, here), evaluated(other, there));
        let Some(place) = EVALUATED.iter().position(|number| *number == first.number) else {
            return Some(format!("evaluated with {}", first.number));
        };
        self.evaluated[place] += 1;
        first.first_difference(&second).map(|difference| format!("evaluated beside what is written: {difference}"))
    }

    /// Prints the counts that are not those of a class, and says whether they are as they ought to be.
    fn report(&self) -> bool {
        let rooms = self.rooms.report();
        let [done, undefined, constant] = self.evaluated;
        println!("both evaluated: {done} accepted, {undefined} with 8, {constant} with 9");
        rooms && self.evaluated.iter().all(|times| *times > 0)
    }
}

/// Compares on `count` random runs, shared out among the classes, in each layout. True if there is no difference and
/// every class and room has the answers that it ought to have.
pub fn run(count: u64, seed: u64) -> bool {
    let mut bench = Bench::new(seed);
    let mut shown = 0;
    let mut tallies: [[Tally; CLASSES.len()]; Layout::ALL.len()] = Default::default();
    for index in 0..count {
        let (layout, at) = turn(index, CLASSES.len());
        let class = &CLASSES[at];
        let run = (class.make)(&mut bench.rng, layout);
        let layout_number = if class.no_layout { bench.rng.pick(&NO_LAYOUT) } else { layout.number() };
        let (number, difference) = bench.compare(&run, layout_number);
        let tally = &mut tallies[layout as usize][at];
        let place = ANSWERS.iter().position(|answer| *answer == number).expect("there are no other answers");
        tally.answers[place] += 1;
        if let Some(difference) = difference {
            tally.different += 1;
            shown += 1;
            if shown <= SHOWN {
                println!("difference at run {index} ({}): {difference}", class.name);
            }
        }
    }

    if shown > SHOWN {
        println!("{} more differences", shown - SHOWN);
    }
    println!("{:<28} {:>9} {:>9} {:>9} {:>10}", "", "converted", "6", "7", "different");
    let mut fine = true;
    for layout in Layout::ALL {
        for (class, tally) in CLASSES.iter().zip(&tallies[layout as usize]) {
            fine &= tally.report(&format!("{} {}", layout.name(), class.name), class.must, class.may);
        }
    }
    fine &= bench.report();
    println!("{}", if fine { "no difference" } else { "FAILED" });
    fine
}
