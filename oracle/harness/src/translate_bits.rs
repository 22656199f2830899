//! Every setting of the bits that hold the modes, for each kind, form and telling opcode value, through the oracle and
//! through the library.

use std::sync::atomic::{AtomicUsize, Ordering};
use std::thread;

use oracle::generate::{TELLING_VALUES, with_field};
use oracle::record::{I2I, MOV, NAMES, Record};
use oracle::rng::Rng;

use crate::dead::Dead;
use crate::pair::{Pair, ROOM};

/// The mode bits: 39 to 56.
const FIRST_BIT: u32 = 39;
const BITS: u32 = 18;
const SETTINGS: u64 = 1 << BITS;

const FORMS: usize = 3;
/// The telling values, and one that tells nothing.
const VALUES: usize = TELLING_VALUES.len() + 1;
const JOBS: usize = NAMES.len() * FORMS * VALUES;

/// Marks start anew about once in so many records.
const MARKS_LAST: usize = 200;

/// Differences that are printed for each kind, form and value.
const SHOWN: u64 = 2;

/// Counts of one kind, or of one job of it.
#[derive(Clone, Copy, Default)]
struct Tally {
    records: u64,
    /// By number, 0 for accepted.
    answers: [u64; 7],
    dead: Dead,
    different: u64,
}

impl Tally {
    fn add(&mut self, other: &Tally) {
        self.records += other.records;
        self.different += other.different;
        self.dead.add(&other.dead);
        for (to, from) in self.answers.iter_mut().zip(other.answers) {
            *to += from;
        }
    }

    /// Whether a kind has the answers that it ought to have: 4 for mov and 5 for i2i, under guards that may run, else only
    /// accepted records.
    fn right(&self, kind: u8) -> bool {
        let refused = |number: usize, of: u8| (self.answers[number] > 0) == (kind == of);
        let others = [1, 2, 3, 6].iter().all(|&number| self.answers[number] == 0);
        self.answers[0] > 0 && refused(4, MOV) && refused(5, I2I) && others && self.different == 0
    }
}

/// A job is one kind, form and value, by number.
fn record_of(job: usize) -> Record {
    let (rest, value) = (job / VALUES, job % VALUES);
    Record {
        kind: 1 + (rest / FORMS) as u8,
        form: (rest % FORMS) as u8,
        value: TELLING_VALUES.get(value).copied().unwrap_or(0),
        word: 0,
    }
}

/// The bits outside the modes: random, under a guard that mostly holds always.
fn other_bits(rng: &mut Rng) -> u64 {
    let word = rng.next_u64();
    match rng.below(16) {
        0..=12 => with_field(word, 16, 4, 7),
        13 => with_field(word, 16, 4, 15),
        _ => word,
    }
}

fn run_job(job: usize, step: u64, seed: u64) -> Tally {
    let mut rng = Rng::new(seed ^ (job as u64) << 32);
    let mut pair = Pair::new(&mut rng);
    let mut record = record_of(job);
    let mut tally = Tally::default();
    let mut setting = rng.next_u64() % step;
    while setting < SETTINGS {
        record.word = with_field(other_bits(&mut rng), FIRST_BIT, BITS, setting);
        if rng.one_in(MARKS_LAST) {
            pair.restart(&mut rng);
        }
        let (number, difference) = pair.translate(&record.to_bytes(), ROOM);
        tally.records += 1;
        tally.answers[number as usize] += 1;
        if number == 0 {
            tally.dead.count(&record);
        }
        if let Some(difference) = difference {
            tally.different += 1;
            if tally.different <= SHOWN {
                println!("difference at setting {setting:#x}: {difference}");
            }
        }
        setting += step;
    }
    tally
}

/// Compares on every `step`th setting, from a random one on. True if there is no difference, every kind has the answers
/// that it ought to have, and dead words of every sort were accepted. `None` if the step is 0 or passes the settings.
pub fn run(step: u64, seed: u64) -> Option<bool> {
    if !(1..=SETTINGS).contains(&step) {
        return None;
    }
    let next = AtomicUsize::new(0);
    let work = || {
        let mut kinds = [Tally::default(); NAMES.len()];
        loop {
            let job = next.fetch_add(1, Ordering::Relaxed);
            if job >= JOBS {
                return kinds;
            }
            kinds[usize::from(record_of(job).kind) - 1].add(&run_job(job, step, seed));
        }
    };
    let threads = thread::available_parallelism().map_or(1, usize::from);
    let mut kinds = [Tally::default(); NAMES.len()];
    thread::scope(|scope| {
        let running: Vec<_> = (0..threads).map(|_| scope.spawn(work)).collect();
        for thread in running {
            let part = thread.join().expect("a thread that ends");
            kinds.iter_mut().zip(&part).for_each(|(kind, part)| kind.add(part));
        }
    });

    println!("{:<12} {:>12} {:>12} {:>10} {:>10} {:>10}", "", "records", "accepted", "4", "5", "different");
    let mut all = Tally::default();
    let mut fine = true;
    for (at, (name, tally)) in NAMES.iter().zip(&kinds).enumerate() {
        let right = tally.right(at as u8 + 1);
        print_row(name, tally, if right { "" } else { "  <- wrong" });
        all.add(tally);
        fine &= right;
    }
    print_row("all", &all, "");
    fine &= all.dead.report();
    let share = if step == 1 { "every setting".to_owned() } else { format!("one setting in {step}") };
    println!("{JOBS} of kind, form and value, {share} of bits 39 to 56");
    println!("{}", if fine { "no difference" } else { "FAILED" });
    Some(fine)
}

fn print_row(name: &str, tally: &Tally, complaint: &str) {
    let Tally { records, answers, different, .. } = tally;
    let (accepted, lane, byte) = (answers[0], answers[4], answers[5]);
    println!("{name:<12} {records:>12} {accepted:>12} {lane:>10} {byte:>10} {different:>10}{complaint}");
}
