//! The speed of the port and of the Rust, on the same work with the same driver: one table for all.

use std::time::Duration;

use oracle::evaluate::State;
use oracle::format::{Entry, Layout, encode};
use oracle::generate::{random_admitted, with_field};
use oracle::record::Record;
use oracle::rng::Rng;
use oracle::starts::{random_state, random_words};
use oracle::{Form, SLOTS, translate_entries};

use crate::{convert_bench, evaluate_bench, reach_bench, shape_bench, translate_bench, words_bench};

/// Strips, or records, of a row. A round takes a few milliseconds, so that some are not interrupted on a busy machine.
pub const STRIPS: usize = 10_000;
/// Strips, or records, of a work that is repeated.
pub const SHORT: usize = 20;
const ROUNDS: usize = 101;
const SEED: u64 = 1;

/// Makes the rows of one part.
type Rows = for<'a> fn(&'a Works) -> Vec<Row<'a>>;

/// The parts by name.
const PARTS: [(&str, Rows); 6] = [
    ("shape", shape_bench::rows),
    ("evaluation", evaluate_bench::rows),
    ("translation", translate_bench::rows),
    ("reach", reach_bench::rows),
    ("convert", convert_bench::rows),
    ("spirv", words_bench::rows),
];

/// What one round over the work gives: its time and what it leaves. `None` if something was refused.
pub type Round<A> = Option<(Duration, A)>;

/// The times of port and Rust in one round, or what went wrong.
type Times = Result<[Duration; 2], &'static str>;

/// One row of the table.
pub struct Row<'a> {
    name: String,
    strips: usize,
    /// One round of both, given whether the port goes first.
    round: Box<dyn FnMut(bool) -> Times + 'a>,
    best: Times,
}

impl<'a> Row<'a> {
    /// Both go over the same runs or records. A row fails if one of them refuses something or they leave different
    /// things.
    pub fn new<T: 'a, A: PartialEq>(
        name: String,
        strips: usize,
        work: Vec<T>,
        mut port: impl FnMut(&[T]) -> Round<A> + 'a,
        mut rust: impl FnMut(&[T]) -> Round<A> + 'a,
    ) -> Row<'a> {
        let round = move |port_first: bool| {
            let (of_port, of_rust);
            if port_first {
                of_port = port(&work);
                of_rust = rust(&work);
            } else {
                of_rust = rust(&work);
                of_port = port(&work);
            }
            let (Some((port, port_leaves)), Some((rust, rust_leaves))) = (of_port, of_rust) else {
                return Err("something was refused");
            };
            if port_leaves == rust_leaves { Ok([port, rust]) } else { Err("the answers differ") }
        };
        Row { name, strips, round: Box::new(round), best: Ok([Duration::MAX; 2]) }
    }

    fn measure(&mut self, port_first: bool) {
        if let Ok(best) = self.best {
            self.best = (self.round)(port_first).map(|times| [best[0].min(times[0]), best[1].min(times[1])]);
        }
    }

    /// Prints the row, and says whether it was measured.
    fn report(&self) -> bool {
        let name = &self.name;
        match self.best {
            Ok(best) => {
                let [port, rust] = best.map(|time| time.as_secs_f64() * 1e9 / self.strips as f64);
                println!("{name:<50} {port:>9.1} {rust:>9.1} {:>8.2}", port / rust);
            }
            Err(cause) => println!("{name:<50} {cause}"),
        }
        self.best.is_ok()
    }
}

/// The strips of random records.
fn translated(rng: &mut Rng, strips: usize) -> Vec<Vec<Entry>> {
    let mut strip = || {
        let record = with_near_constant(random_admitted(rng));
        translate_entries(&record.to_bytes(), &mut [0; SLOTS]).expect("an admitted record")
    };
    (0..strips).map(|_| strip()).collect()
}

/// Strips one after another.
pub struct Work {
    pub layout: Layout,
    bytes: Vec<u8>,
    entries: usize,
    /// Where each strip ends.
    ends: Vec<usize>,
}

impl Work {
    fn new(strips: &[Vec<Entry>], layout: Layout) -> Work {
        let mut work = Work { layout, bytes: Vec::new(), entries: 0, ends: Vec::with_capacity(strips.len()) };
        for strip in strips {
            work.entries += strip.len();
            work.bytes.extend(encode(strip, layout));
            work.ends.push(work.bytes.len());
        }
        work
    }

    fn repeated(&self, times: usize) -> Work {
        let starts = (0..times).map(|time| time * self.bytes.len());
        Work {
            layout: self.layout,
            bytes: self.bytes.repeat(times),
            entries: self.entries * times,
            ends: starts.flat_map(|start| self.ends.iter().map(move |end| start + end)).collect(),
        }
    }

    pub fn strips(&self) -> usize {
        self.ends.len()
    }

    /// The work in runs of so many strips. The last one may have fewer.
    pub fn runs(&self, strips: usize) -> Vec<&[u8]> {
        let mut start = 0;
        let run = |ends: &[usize]| {
            let end = *ends.last().expect("a chunk is not empty");
            &self.bytes[std::mem::replace(&mut start, end)..end]
        };
        self.ends.chunks(strips).map(run).collect()
    }
}

/// The record with its constant among a few hundred words. Constants all over the list would make both evaluations wait
/// for memory and hide their difference.
fn with_near_constant(mut record: Record) -> Record {
    if record.form == Form::Cbuf as u8 {
        let (slot, offset) = (record.word >> 34 & 3, record.word >> 20 & 63);
        record.word = with_field(record.word, 34, 5, slot);
        record.word = with_field(record.word, 20, 14, offset);
    }
    record
}

/// What the parts work on.
pub struct Works {
    /// Strips of random records.
    pub long: Work,
    /// The same strips in the narrow layout.
    pub narrow: Work,
    /// The same strips twice: shows whether the time for each strip stays the same.
    pub twice: Work,
    /// A few strips again and again: the processor learns their branches.
    pub repeated: Work,
    /// Where evaluations start, and the words that they are lent.
    pub start: State,
    pub words: Vec<u32>,
}

impl Works {
    fn new() -> Works {
        let mut rng = Rng::new(SEED);
        let strips = translated(&mut rng, STRIPS);
        let long = Work::new(&strips, Layout::Wide);
        Works {
            twice: long.repeated(2),
            long,
            narrow: Work::new(&strips, Layout::Narrow),
            repeated: Work::new(&translated(&mut rng, SHORT), Layout::Wide).repeated(STRIPS / SHORT),
            start: random_state(&mut rng),
            words: random_words(&mut rng),
        }
    }
}

/// Measures and prints the table, or one part of it. False if something was refused or answers differ. `None` if there
/// is no such part.
pub fn run(part: Option<&str>) -> Option<bool> {
    let works = Works::new();
    let parts = PARTS.iter().filter(|(name, _)| part.is_none_or(|part| part == *name));
    let mut rows: Vec<Row> = parts.flat_map(|(_, rows)| rows(&works)).collect();
    if rows.is_empty() {
        return None;
    }
    // All rows in each round, so that a row does not depend on what else the machine does at one time.
    for round in 0..ROUNDS {
        rows.iter_mut().for_each(|row| row.measure(round % 2 == 0));
    }

    let entries = works.long.entries as f64 / STRIPS as f64;
    let bytes = works.long.bytes.len() as f64 / STRIPS as f64;
    println!("ns for each strip; a record gives one, with {entries:.1} entries in {bytes:.1} bytes on average");
    println!("best of {ROUNDS} rounds, port and Rust in turn; ratio: port to Rust, so below 1 the port is faster");
    println!("{:<50} {:>9} {:>9} {:>8}", "", "port", "Rust", "ratio");
    let measured = rows.iter().filter(|row| row.report()).count();
    Some(measured == rows.len())
}
