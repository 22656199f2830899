//! The differential test of the meanings: records through translation and evaluation of the library, one after
//! another, against what 01 says that each does to a state.

use std::sync::atomic::{AtomicU64, AtomicUsize, Ordering};
use std::thread;

use oracle::format::Layout;
use oracle::generate::{TELLING_VALUES, random_admitted, with_field};
use oracle::meaning::{State, element_named, element_read, guard_holds, lacking_word, meaning};
use oracle::print::hex;
use oracle::record::{I2I, MOV, NAMES, Record};
use oracle::rng::Rng;
use oracle::starts::ALL_WORDS;

use crate::ffi::{self, Cells, Evaluated, Fault};
use crate::pair::{MarkBytes, ROOM};

/// Pairs of a record and a state in one job. The answers of a job depend on its number and the seed alone.
const JOB_PAIRS: u64 = 50_000;
/// The longest run, in records.
const LONGEST_RUN: usize = 24;
/// The library's number for a constant that is not lent.
const NOT_LENT: u32 = 9;
/// What stands in slot, vec and comp before a call. It must stand there after every answer but 9.
const NO_FAULT: Fault = Fault { slot: 0x5a5a_5a5a, vec: 0xa5a5_a5a5, comp: 0x5aa5_a55a };
/// Differences that are printed in full.
const SHOWN: u64 = 20;

const FORMS: usize = 3;
const CBUF: u8 = 1;
const LEA: u8 = 30;

/// First bits of the register fields rd, ra, rb and rc.
const REGISTERS: [u32; 4] = [0, 8, 20, 39];

// Words.

/// A byte at a limit, or a small one: it may be a shift count, a position or a length.
fn corner_byte(rng: &mut Rng) -> u32 {
    match rng.below(4) {
        0 => rng.pick(&[0, 1, 0x7e, 0x7f, 0x80, 0x81, 0xfe, 0xff]),
        1 | 2 => rng.below(34) as u32,
        _ => rng.below(256) as u32,
    }
}

fn corner_half(rng: &mut Rng) -> u32 {
    match rng.below(3) {
        0 => rng.pick(&[0, 1, 0x7ffe, 0x7fff, 0x8000, 0x8001, 0xfffe, 0xffff]),
        1 => corner_byte(rng) << 8 | corner_byte(rng),
        _ => rng.below(0x1_0000) as u32,
    }
}

fn corner_word(rng: &mut Rng) -> u32 {
    match rng.below(10) {
        0 => rng.pick(&[0, 1, 0x7fff_ffff, 0x8000_0000, 0xffff_ffff]),
        1 => rng.pick(&[0x7fff_fffe, 0x8000_0001, 0xffff_fffe, 0x7fff_ffff, 0x8000_0000]),
        2 => rng.below(70) as u32,
        3 => (rng.below(70) as u32).wrapping_neg(),
        4 => 1 << rng.below(32),
        5 => !(1 << rng.below(32)),
        // Ones from a place on, or below it.
        6 => u32::MAX << rng.below(32) ^ rng.pick(&[0, u32::MAX]),
        7 => corner_half(rng) << 16 | corner_half(rng),
        8 => corner_byte(rng) << 24 | corner_byte(rng) << 16 | corner_byte(rng) << 8 | corner_byte(rng),
        _ => rng.next_u64() as u32,
    }
}

/// A word that meets another one at a limit: the same, negated, complemented, or one beside.
fn near_word(rng: &mut Rng, other: u32) -> u32 {
    match rng.below(5) {
        0 => other,
        1 => other.wrapping_neg(),
        2 => !other,
        3 => other.wrapping_add(1),
        _ => other.wrapping_sub(1),
    }
}

// Records.

/// An admitted record of the kind and the form. At times its fields are corners, its opcode value is a telling one, its
/// registers are the same or among the first few, and both predicates are the same.
fn random_of(rng: &mut Rng, kind: u8, form: u8) -> Record {
    loop {
        let mut record = Record { kind, form, ..random_admitted(rng) };
        if rng.one_in(3) {
            record.word = with_field(record.word, 20, 32, corner_word(rng).into());
            record.word = with_field(record.word, 56, 1, rng.below(2) as u64);
        }
        if rng.one_in(4) {
            record.word = with_field(record.word, 39, 18, rng.next_u64());
        }
        if rng.one_in(4) {
            // Slot and word at their limits.
            record.word = with_field(record.word, 34, 5, rng.pick(&[0, 1, 30, 31]));
            record.word = with_field(record.word, 20, 14, rng.pick(&[0, 1, 3, 4, 16_380, 16_383]));
        }
        if rng.one_in(6) {
            // Shift counts of iscadd and lea.
            let lo = rng.pick(&[28, 39, 51]);
            record.word = with_field(record.word, lo, 5, rng.pick(&[0, 1, 16, 30, 31]));
        }
        if rng.one_in(3) {
            record.value = rng.pick(&TELLING_VALUES);
        }
        for lo in REGISTERS {
            if rng.one_in(8) {
                record.word = with_field(record.word, lo, 8, rng.pick(&[0, 1, 2, 3, 254, 255]));
            }
        }
        if rng.one_in(8) {
            record.word = with_field(record.word, 0, 8, record.word >> 8);
        }
        if rng.one_in(8) {
            record.word = with_field(record.word, 20, 8, record.word >> 8);
        }
        if rng.one_in(4) {
            record.word = with_field(record.word, 0, 3, record.word >> 3);
        }
        // The guard: always, never, or one of the seven predicates.
        let guard = match rng.below(16) {
            0..=8 => 7,
            9 => 15,
            _ => rng.below(7) as u64 | (rng.below(2) as u64) << 3,
        };
        record.word = with_field(record.word, 16, 4, guard);
        if record.admit().is_ok() {
            return record;
        }
    }
}

/// The record with its registers among a few, so that in a run one reads what another has written.
fn with_few_registers(rng: &mut Rng, mut record: Record) -> Record {
    for lo in [0, 8] {
        record.word = with_field(record.word, lo, 8, rng.below(6) as u64);
    }
    for lo in [20, 39] {
        if rng.one_in(2) {
            record.word = with_field(record.word, lo, 8, rng.below(6) as u64);
        }
    }
    record
}

/// An admitted record: as the generator makes it, or any kind with any form.
fn random_one(rng: &mut Rng, few_registers: bool) -> Record {
    loop {
        let mut record = if rng.one_in(4) {
            random_admitted(rng)
        } else {
            let (kind, form) = (1 + rng.below(NAMES.len()) as u8, rng.below(FORMS) as u8);
            random_of(rng, kind, form)
        };
        if few_registers {
            record = with_few_registers(rng, record);
        }
        // The fields that refusal 5 looks at overlap with those of registers.
        if record.admit().is_ok() {
            return record;
        }
    }
}

// States and lists.

/// Fresh truths, and fresh words in the registers that the record can name.
fn renew(rng: &mut Rng, state: &mut State, record: &Record) {
    let mut last = corner_word(rng);
    for lo in REGISTERS {
        if let Some(register) = state.registers.get_mut((record.word >> lo & 0xff) as usize) {
            *register = if rng.one_in(4) { near_word(rng, last) } else { corner_word(rng) };
            last = *register;
        }
    }
    let truths = rng.next_u64();
    let truth = |at: usize| truths >> at & 1 == 1;
    state.predicates = std::array::from_fn(truth);
    state.flags = std::array::from_fn(|at| truth(7 + at));
}

fn random_state(rng: &mut Rng) -> State {
    let registers = std::array::from_fn(|_| corner_word(rng));
    State { registers, predicates: [false; 7], flags: [false; 4] }
}

/// How many of the words to lend if the last one that is named is this: one in four lists lacks it.
fn list_len(rng: &mut Rng, element: usize, all: usize) -> usize {
    match rng.below(16) {
        0 => 0,
        1 => rng.below(element + 1),
        2 | 3 => element,
        4..=8 => element + 1,
        9 => all,
        _ => ALL_WORDS,
    }
}

// Counts.

/// What the guard of a record says.
#[derive(Clone, Copy)]
enum Guard {
    Always,
    Holds,
    Fails,
    Never,
}

const GUARDS: [(&str, Guard); 4] =
    [("always", Guard::Always), ("holds", Guard::Holds), ("fails", Guard::Fails), ("never", Guard::Never)];

impl Guard {
    fn of(record: &Record, state: &State) -> Guard {
        match (record.word >> 16 & 15, guard_holds(record, state)) {
            (7, _) => Guard::Always,
            (15, _) => Guard::Never,
            (_, true) => Guard::Holds,
            (_, false) => Guard::Fails,
        }
    }

    fn runs(self) -> bool {
        matches!(self, Guard::Always | Guard::Holds)
    }
}

/// What was seen of one kind and form.
#[derive(Clone, Copy, Default)]
struct Seen {
    guards: [u64; GUARDS.len()],
    /// Telling opcode values.
    values: [u64; TELLING_VALUES.len()],
    /// Guard holds, a constant is read: lent, not lent.
    read: [u64; 2],
    /// Guard does not hold, and the constant that would be read is not lent.
    spared: u64,
    /// Dead words that are refused under any other guard, with the constant that they name lent, not lent.
    dead: [u64; 2],
    /// Answers that leave the state as it was although the guard holds, and answers that change it.
    changed: [u64; 2],
}

impl Seen {
    fn pairs(&self) -> u64 {
        self.guards.iter().sum()
    }

    fn add(&mut self, other: &Seen) {
        let add = |to: &mut [u64], from: &[u64]| to.iter_mut().zip(from).for_each(|(to, from)| *to += from);
        add(&mut self.guards, &other.guards);
        add(&mut self.values, &other.values);
        add(&mut self.read, &other.read);
        add(&mut self.changed, &other.changed);
        add(&mut self.dead, &other.dead);
        self.spared += other.spared;
    }

    /// What is missing or too much, by what 01 says of kind and form.
    fn complaint(&self, kind: u8, form: u8) -> String {
        let mut complaint = String::new();
        for ((name, _), times) in GUARDS.iter().zip(self.guards) {
            if times == 0 {
                complaint += &format!("  <- no guard that {name}");
            }
        }
        for (value, times) in TELLING_VALUES.iter().zip(self.values) {
            if times == 0 {
                complaint += &format!("  <- none of value {value:#x}");
            }
        }
        // mov32i, csetp, psetp, pset, iadd32i, lop32i, vmnmx, r2p and p2r read none; lea may in any form.
        let reads = kind == LEA || form == CBUF && !matches!(kind, 2 | 4 | 7 | 8 | 10 | 17 | 23 | 27 | 28);
        for (what, times) in [("lent", self.read[0]), ("not lent", self.read[1]), ("spared", self.spared)] {
            if (times > 0) != reads {
                complaint += &format!("  <- {times} constants {what}");
            }
        }
        for (what, times) in [("lent", self.dead[0]), ("not lent", self.dead[1])] {
            if (times > 0) != matches!(kind, MOV | I2I) {
                complaint += &format!("  <- {times} dead words, their constant {what}");
            }
        }
        for (what, times) in [("as it was", self.changed[0]), ("changed", self.changed[1])] {
            if times == 0 {
                complaint += &format!("  <- no state {what}");
            }
        }
        complaint
    }
}

struct Tally {
    seen: [[Seen; FORMS]; NAMES.len()],
    runs: u64,
    /// Runs of more than one record that are evaluated, and that lack a constant.
    long_runs: [u64; 2],
    different: u64,
}

impl Tally {
    fn new() -> Tally {
        Tally { seen: [[Seen::default(); FORMS]; NAMES.len()], runs: 0, long_runs: [0; 2], different: 0 }
    }

    fn add(&mut self, other: &Tally) {
        for (to, from) in self.seen.iter_mut().flatten().zip(other.seen.iter().flatten()) {
            to.add(from);
        }
        self.runs += other.runs;
        self.different += other.different;
        for (to, from) in self.long_runs.iter_mut().zip(other.long_runs) {
            *to += from;
        }
    }

    /// Counts a record of a run; `next` is the state after it, or `None` if it lacks its constant.
    fn count(&mut self, record: &Record, state: &State, constants: &[u32], next: Option<&State>) {
        let seen = &mut self.seen[usize::from(record.kind) - 1][usize::from(record.form)];
        let guard = Guard::of(record, state);
        seen.guards[guard as usize] += 1;
        if let Some(at) = TELLING_VALUES.iter().position(|value| *value == record.value) {
            seen.values[at] += 1;
        }
        // These are admitted as dead words alone.
        if record.is_system_value_mov() || record.is_half_at_byte_3() {
            seen.dead[usize::from(element_named(record) >= constants.len())] += 1;
        }
        if let Some(element) = element_read(record) {
            let lent = element < constants.len();
            match guard.runs() {
                true => seen.read[usize::from(!lent)] += 1,
                false => seen.spared += u64::from(!lent),
            }
        }
        if let (true, Some(next)) = (guard.runs(), next) {
            seen.changed[usize::from(next != state)] += 1;
        }
    }
}

// Comparing.

/// Records that are translated into one room, each after the strip before it, and evaluated as one run.
struct Bench {
    room: Vec<u8>,
    marks: MarkBytes,
}

impl Bench {
    fn new() -> Bench {
        Bench { room: vec![0; ROOM * LONGEST_RUN], marks: [0; 128] }
    }

    /// The length of the run, or what went wrong.
    fn translate(&mut self, records: &[Record]) -> Result<usize, String> {
        let mut len = 0;
        for record in records {
            let mut written = 0;
            match ffi::translate(&record.to_bytes(), &mut self.marks, &mut self.room[len..], &mut written) {
                0 => len += written,
                number => return Err(format!("an admitted record is refused with {number}")),
            }
        }
        Ok(len)
    }

    /// What the library does with the run, against the meanings one after another. Gives the state after the run, and
    /// what differs.
    fn compare(
        &mut self,
        tally: &mut Tally,
        records: &[Record],
        start: &State,
        constants: &[u32],
    ) -> (State, Option<String>) {
        let mut state = start.clone();
        let mut number = 0;
        let mut fault = NO_FAULT;
        for record in records {
            if let Some(word) = lacking_word(record, &state, constants) {
                tally.count(record, &state, constants, None);
                // A refused evaluation returns the state at the run's start.
                state = start.clone();
                number = NOT_LENT;
                fault = Fault { slot: word.slot, vec: word.vec, comp: word.comp };
                break;
            }
            let next = meaning(record, &state, constants);
            tally.count(record, &state, constants, Some(&next));
            state = next;
        }
        tally.runs += 1;
        if records.len() > 1 {
            tally.long_runs[usize::from(number != 0)] += 1;
        }

        let difference = match self.translate(records) {
            Ok(len) => {
                let library =
                    ffi::evaluated(&self.room[..len], Layout::Wide.number(), Cells::from(start), constants, NO_FAULT);
                Evaluated { number, fault, cells: Cells::from(&state) }.first_difference(&library)
            }
            Err(refused) => Some(refused),
        };
        if difference.is_some() {
            tally.different += 1;
        }
        (state, difference)
    }
}

/// What is needed to see a difference again: the record, and what it may read.
fn described(record: &Record, state: &State, constants: &[u32]) -> String {
    let register = |lo: u32| {
        let at = (record.word >> lo & 0xff) as usize;
        state.registers.get(at).map_or_else(|| "RZ".to_owned(), |word| format!("R{at} {word:#010x}"))
    };
    let truths: String = state.predicates.iter().chain(&state.flags).map(|t| if *t { '1' } else { '0' }).collect();
    let constant = constants.get(element_named(record));
    format!(
        "{} form {} record {}; rd {}, ra {}, rb {}, rc {}; truths {truths}; constant {constant:x?}",
        NAMES[usize::from(record.kind) - 1],
        record.form,
        hex(&record.to_bytes()),
        register(0),
        register(8),
        register(20),
        register(39)
    )
}

/// The pairs of one job.
fn run_job(job: u64, pairs: u64, seed: u64, words: &mut [u32], shown: &AtomicU64) -> Tally {
    let mut rng = Rng::new(seed ^ job << 32);
    let mut tally = Tally::new();
    let mut bench = Bench::new();
    let mut state = random_state(&mut rng);
    let mut left = pairs as usize;
    while left > 0 {
        let len = if rng.one_in(12) { (2 + rng.below(LONGEST_RUN - 1)).min(left) } else { 1 };
        let few_registers = len > 1 && rng.one_in(2);
        let records: Vec<Record> = (0..len).map(|_| random_one(&mut rng, few_registers)).collect();
        left -= records.len();
        for record in &records {
            renew(&mut rng, &mut state, record);
            words[element_named(record)] = corner_word(&mut rng);
        }
        let last = records.iter().map(element_named).max().unwrap_or(0);
        let all = words.len();
        let constants = &words[..list_len(&mut rng, last, all)];

        let (after, difference) = bench.compare(&mut tally, &records, &state, constants);
        if let Some(difference) = difference
            && shown.fetch_add(1, Ordering::Relaxed) < SHOWN
        {
            println!("difference in a run of {} ({} words lent): {difference}", records.len(), constants.len());
            let mut state = state.clone();
            for record in &records {
                println!("    {}", described(record, &state, constants));
                state = meaning(record, &state, constants);
            }
        }
        state = after;
    }
    tally
}

/// Compares on `count` pairs of a record and a state. True if there is no difference and every kind and form was seen
/// under every guard, with every telling value and with what it can do with a constant, and dead words in place of the
/// refusals 4 and 5.
pub fn run(count: u64, seed: u64) -> bool {
    let jobs = count.div_ceil(JOB_PAIRS);
    let next = AtomicUsize::new(0);
    let shown = AtomicU64::new(0);
    let work = || {
        let mut words = vec![0; ALL_WORDS + 8];
        let mut tally = Tally::new();
        loop {
            let job = next.fetch_add(1, Ordering::Relaxed) as u64;
            if job >= jobs {
                return tally;
            }
            let pairs = JOB_PAIRS.min(count - job * JOB_PAIRS);
            tally.add(&run_job(job, pairs, seed, &mut words, &shown));
        }
    };
    let threads = thread::available_parallelism().map_or(1, usize::from);
    let mut tally = Tally::new();
    thread::scope(|scope| {
        let running: Vec<_> = (0..threads).map(|_| scope.spawn(work)).collect();
        for thread in running {
            tally.add(&thread.join().expect("a thread that ends"));
        }
    });
    report(&tally)
}

/// Prints the counts, and says whether they are as they ought to be.
fn report(tally: &Tally) -> bool {
    print!("{:<10} {:>11}", "", "pairs");
    GUARDS.iter().for_each(|(name, _)| print!(" {name:>11}"));
    println!(" {:>11} {:>11} {:>11} {:>11} {:>11}", "lent", "9", "spared", "changed", "dead");
    let mut fine = tally.different == 0;
    let mut all = Seen::default();
    for (at, name) in NAMES.iter().enumerate() {
        let mut kind = Seen::default();
        let mut complaints = String::new();
        for (form, seen) in tally.seen[at].iter().enumerate() {
            let complaint = seen.complaint(at as u8 + 1, form as u8);
            if !complaint.is_empty() {
                complaints += &format!("\n    form {form}{complaint}");
            }
            kind.add(seen);
        }
        print_row(name, &kind, &complaints);
        all.add(&kind);
        fine &= complaints.is_empty();
    }
    print_row("all", &all, "");
    let [evaluated, lacking] = tally.long_runs;
    println!(
        "{} runs, {evaluated} of several records evaluated, {lacking} with a constant not lent; {} different",
        tally.runs, tally.different
    );
    fine &= evaluated > 0 && lacking > 0;
    println!("{}", if fine { "no difference" } else { "FAILED" });
    fine
}

fn print_row(name: &str, seen: &Seen, complaint: &str) {
    print!("{name:<10} {:>11}", seen.pairs());
    seen.guards.iter().for_each(|times| print!(" {times:>11}"));
    let Seen { read, spared, changed, dead, .. } = seen;
    let dead: u64 = dead.iter().sum();
    println!(" {:>11} {:>11} {spared:>11} {:>11} {dead:>11}{complaint}", read[0], read[1], changed[1]);
}
