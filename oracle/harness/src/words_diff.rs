//! The differential test of the writer of SPIR-V words: the same strips, bounds, tables and rooms through plain Rust and
//! through the library.

use oracle::format::{ENTRY_LENS, Entry, Layout, encode, kind, signature};
use oracle::print::hex;
use oracle::rng::Rng;
use oracle::strips::{evaluation_strip, random_bytes, random_strip, words_strip};
use oracle::words::{MAX_WORDS, Written, table, to_spirv};

use crate::answers::complaint;
use crate::ffi;
use crate::rooms::{Room, Rooms};
use crate::runs::{damaged, near_miss_of, of_the_other_layout, translated_strip};
use crate::tables::{Lending, Tables};

/// Differences that are printed in full.
const SHOWN: u64 = 20;

/// The answers: 0 for a strip that is written, and the refusals in the order in which they are decided.
const ANSWERS: [u32; 5] = [0, 7, 17, 10, 11];

/// From so many strips on every kind of entry must be met.
const ENOUGH: u64 = 100_000;

/// The room lies in a longer buffer, which is compared too.
const MARGIN: usize = 64;

/// The longest room that is lent.
const ROOM: usize = MAX_WORDS + 64;

/// What stands in the three numbers before a call, and must stand there after a refusal.
const UNTOLD: Written = Written { words: 0x5a5a_5a5a_5a5a_5a5a, constants: 0x3c3c_3c3c_3c3c_3c3c, next: 0x6969_6969 };

struct Class {
    name: &'static str,
    /// The answers that must occur.
    must: &'static [u32],
    /// Further answers that may occur.
    may: &'static [u32],
    make: fn(&mut Rng) -> Vec<u8>,
}

impl Class {
    /// Single strips that are well-formed.
    const fn good(name: &'static str, make: fn(&mut Rng) -> Vec<u8>) -> Class {
        Class { name, must: &[0, 17, 10, 11], may: &[], make }
    }

    /// Bytes of which some are no strip.
    const fn mixed(name: &'static str, make: fn(&mut Rng) -> Vec<u8>) -> Class {
        Class { must: &ANSWERS, ..Class::good(name, make) }
    }
}

const CLASSES: [Class; 12] = [
    // Never 17.
    Class { must: &[0, 10, 11], ..Class::good("translated", |rng| translated_strip(rng, Layout::Wide)) },
    Class::good("of both signs", |rng| wide(&words_strip(rng))),
    Class::good("hand-made", |rng| wide(&evaluation_strip(rng))),
    Class::good("of any values", |rng| wide(&random_strip(rng))),
    // No words, which fit into any room.
    Class { must: &[0, 10], ..Class::good("without ids", |rng| wide(&without_ids(rng))) },
    Class::mixed("near miss", |rng| near_miss_of(rng, Layout::Wide, words_strip)),
    Class::mixed("of both signs, damaged", |rng| damaged(rng, Layout::Wide, |rng, _| wide(&words_strip(rng)))),
    Class {
        may: &[17],
        must: &[0, 7, 10, 11],
        ..Class::good("translated, damaged", |rng| damaged(rng, Layout::Wide, translated_strip))
    },
    Class { must: &[0, 7], may: &[10, 11, 17], ..Class::good("random bytes", random_bytes) },
    Class { must: &[7], ..Class::good("of no bytes", |_| Vec::new()) },
    Class { must: &[7], ..Class::good("several strips", several) },
    // Some mean the same in both layouts: those without references.
    Class { must: &[0, 7], may: &[10, 11, 17], ..Class::good("narrow", |rng| of_the_other_layout(rng, Layout::Wide)) },
];

fn wide(entries: &[Entry]) -> Vec<u8> {
    encode(entries, Layout::Wide)
}

/// Slots and notes, which take no id.
fn without_ids(rng: &mut Rng) -> Vec<Entry> {
    let mut entries: Vec<Entry> = (0..rng.below(4))
        .map(|_| match rng.one_in(2) {
            true => Entry::new(kind::SLOT, rng.below(32) as u32, &[]),
            false => Entry::new(kind::NOTE, 1 + rng.below(5) as u32, &[]),
        })
        .collect();
    entries.push(Entry::new(kind::END, 0, &[]));
    entries
}

/// Two strips or more, the last one often the end alone.
fn several(rng: &mut Rng) -> Vec<u8> {
    let mut run: Vec<u8> = (0..1 + rng.below(3)).flat_map(|_| one(rng)).collect();
    run.extend(if rng.one_in(2) { vec![kind::END] } else { one(rng) });
    run
}

fn one(rng: &mut Rng) -> Vec<u8> {
    if rng.one_in(2) { translated_strip(rng, Layout::Wide) } else { wide(&words_strip(rng)) }
}

/// What a call answers, and what the numbers and the room that it was lent hold then.
#[derive(PartialEq, Eq)]
struct Answer {
    number: u32,
    told: Written,
    /// The room between its margins.
    buffer: Vec<u32>,
}

impl Answer {
    /// Calls with a room that lies in the buffer.
    fn of(mut buffer: Vec<u32>, call: impl FnOnce(&mut [u32], &mut Written) -> u32) -> Answer {
        let mut told = UNTOLD;
        let room = MARGIN..buffer.len() - MARGIN;
        let number = call(&mut buffer[room], &mut told);
        Answer { number, told, buffer }
    }

    /// The first thing in which the library's answer is another, if one is.
    fn first_difference(&self, library: &Answer) -> Option<String> {
        if self.number != library.number {
            return Some(format!("number {}, in the library {}", self.number, library.number));
        }
        if self.told != library.told {
            return Some(format!("{:x?}, in the library {:x?}", self.told, library.told));
        }
        let (ours, theirs) = (&self.buffer, &library.buffer);
        let at = (0..ours.len()).find(|&at| ours[at] != theirs[at])?;
        let place = at as isize - MARGIN as isize;
        Some(format!("word {place} is {:08x}, in the library {:08x}", ours[at], theirs[at]))
    }
}

/// What the strips held that were written.
struct Met {
    /// Entries of each kind.
    kinds: [u64; 256],
    /// Casts that left no word.
    casts: u64,
    /// Constants whose value stood there before.
    again: u64,
}

impl Met {
    fn count(&mut self, strip: &[u8], words: &[u32], constants: usize) {
        let (list, mut body) = words.split_at(constants);
        let (mut casts, mut values) = (0, 0);
        let mut rest = strip;
        while let Some(&kind) = rest.first() {
            self.kinds[usize::from(kind)] += 1;
            casts += u64::from(matches!(kind, kind::CAST_I | kind::CAST_U));
            values += u64::from(matches!(kind, kind::WORD | kind::TRUE | kind::FALSE));
            rest = &rest[usize::from(ENTRY_LENS[Layout::Wide as usize][usize::from(kind)])..];
        }
        const BITCAST: u32 = 4 << 16 | 124;
        while let Some(&head) = body.first() {
            casts -= u64::from(head == BITCAST);
            body = &body[(head >> 16) as usize..];
        }
        let mut list = list;
        while let Some(&head) = list.first() {
            values -= 1;
            list = &list[(head >> 16) as usize..];
        }
        self.casts += casts;
        self.again += values;
    }

    /// Prints the counts, and says whether everything was met.
    fn report(&self) -> bool {
        println!("met: {} casts that left no word, {} constants again", self.casts, self.again);
        let lacking: Vec<u8> =
            (0..=255).filter(|&kind| signature(kind).is_some() && self.kinds[usize::from(kind)] == 0).collect();
        if !lacking.is_empty() {
            println!("no strip was written with an entry of kind {lacking:?}  <- wrong");
        }
        lacking.is_empty() && self.casts > 0 && self.again > 0
    }
}

/// Counts of one class.
#[derive(Default)]
struct Tally {
    answers: [u64; ANSWERS.len()],
    different: u64,
}

impl Tally {
    /// Prints the counts, and says whether they are as they ought to be.
    fn report(&self, class: &Class) -> bool {
        let complaint = complaint(ANSWERS.into_iter().zip(self.answers), class.must, class.may);
        print!("{:<24}", class.name);
        for times in self.answers {
            print!(" {times:>9}");
        }
        println!(" {:>10}{complaint}", self.different);
        complaint.is_empty() && self.different == 0
    }
}

/// Makes the calls.
struct Bench {
    rng: Rng,
    /// Random words for rooms, so that a write shows.
    pattern: Vec<u32>,
    /// Ids that fit every strip, to see what it becomes.
    fitting: Vec<u32>,
    rooms: Rooms,
    tables: Tables,
    met: Met,
}

impl Bench {
    fn new(seed: u64) -> Bench {
        let mut rng = Rng::new(seed);
        let pattern = (0..1 << 14).map(|_| rng.next_u64() as u32).collect();
        Bench {
            rng,
            pattern,
            fitting: (1..=table::LEN as u32).collect(),
            rooms: Rooms::new(11),
            tables: Tables::default(),
            met: Met { kinds: [0; 256], casts: 0, again: 0 },
        }
    }

    /// Both write the strip. The number, and what differs.
    fn compare(&mut self, strip: &[u8]) -> (u32, Option<String>) {
        let bound = table::LEN as u32 + 1;
        let (needed, new) = match to_spirv(strip, bound, &self.fitting, &mut [0; MAX_WORDS]) {
            Ok(written) => (written.words, written.next - bound),
            // Any, since 7 and 17 come before the refusals for ids and room.
            Err(_) => (self.rng.below(MAX_WORDS), self.rng.below(64) as u32),
        };
        let lending = Lending::random(&mut self.rng, new);
        let room = Room::random(&mut self.rng, needed, ROOM);
        let from = self.rng.below(self.pattern.len() - room.len - 2 * MARGIN);
        let buffer = self.pattern[from..][..room.len + 2 * MARGIN].to_vec();
        let Lending { bound, table, .. } = &lending;
        let plain = Answer::of(buffer.clone(), |room, told| match to_spirv(strip, *bound, table, room) {
            Ok(written) => {
                *told = written;
                0
            }
            Err(number) => number.into(),
        });
        let library = Answer::of(buffer, |room, told| ffi::to_spirv(strip, *bound, table, room, told));
        self.tables.count(&lending, plain.number);
        if needed > 0 {
            self.rooms.count(room, plain.number);
        }
        if plain.number == 0 {
            self.met.count(strip, &plain.buffer[MARGIN..][..needed], plain.told.constants);
        }
        let told = |difference| {
            format!("{difference}; room of {}, bound {bound}, table {table:?}, strip {}", room.len, hex(strip))
        };
        (plain.number, plain.first_difference(&library).map(told))
    }
}

/// Compares on `count` random strips, shared out among the classes. True if there is no difference, and every class,
/// room and table has the answers that it ought to have.
pub fn run(count: u64, seed: u64) -> bool {
    let mut bench = Bench::new(seed);
    let mut shown = 0;
    let mut tallies: [Tally; CLASSES.len()] = Default::default();
    for index in 0..count {
        let at = (index % CLASSES.len() as u64) as usize;
        let class = &CLASSES[at];
        let strip = (class.make)(&mut bench.rng);
        let (number, difference) = bench.compare(&strip);
        let place = ANSWERS.iter().position(|answer| *answer == number).expect("there are no other answers");
        tallies[at].answers[place] += 1;
        if let Some(difference) = difference {
            tallies[at].different += 1;
            shown += 1;
            if shown <= SHOWN {
                println!("difference at strip {index} ({}): {difference}", class.name);
            }
        }
    }

    if shown > SHOWN {
        println!("{} more differences", shown - SHOWN);
    }
    print!("{:<24} {:>9}", "", "written");
    for number in &ANSWERS[1..] {
        print!(" {number:>9}");
    }
    println!(" {:>10}", "different");
    let mut fine = true;
    for (class, tally) in CLASSES.iter().zip(&tallies) {
        fine &= tally.report(class);
    }
    fine &= bench.rooms.report();
    fine &= bench.tables.report();
    fine &= bench.met.report() || count < ENOUGH;
    println!("{}", if fine { "no difference" } else { "FAILED" });
    fine
}
