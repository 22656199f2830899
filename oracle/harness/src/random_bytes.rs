//! Bytes of all sorts into each function of the library. Whatever they are, a function must come back with one of its
//! numbers, write nowhere but where it was lent room, and leave everything as it was where it refuses. A shape test in
//! blocks that refuses must go on refusing.

use std::sync::atomic::{AtomicU64, Ordering};
use std::thread;

use oracle::evaluate::{State, evaluate};
use oracle::format::{Layout, encode};
use oracle::generate::random_record;
use oracle::print::hex;
use oracle::reach::CELLS;
use oracle::record::RECORD_LEN;
use oracle::rng::Rng;
use oracle::starts::{ALL_WORDS, random_words};
use oracle::strips::{TELLING_BYTES, damage, evaluation_strip, random_strip};
use oracle::words::{MAX_WORDS, Written};

use crate::ffi::{self, Fault, SHAPE_STATE};
use crate::lent::Lent;
use crate::pair::{MarkBytes, ROOM};
use crate::runs::{NO_LAYOUT, translated_near, translated_strip};
use crate::tables::Lending;

/// Wrong answers that are printed by a thread for each function.
const SHOWN: u64 = 5;

/// Calls of one job. Each job has its own random numbers, so that threads do not change them.
const BATCH: u64 = 10_000;

/// Strips to take and change.
const STOCK: usize = 4096;

/// The numbers that there are: 0, 01's refusals, and those of the writer of SPIR-V words.
const NUMBERS: [u32; 13] = [0, 1, 2, 3, 4, 5, 6, 7, 8, 9, 10, 11, 17];

const MARKS: usize = size_of::<MarkBytes>();
const REGISTERS: usize = 255;
const TRUTHS: usize = 11;

/// A function of the library.
struct Function {
    name: &'static str,
    /// The numbers that it can answer. Each must be seen.
    numbers: &'static [u32],
    /// Makes one random call. The number, or what is wrong.
    call: fn(&mut Caller) -> Result<u32, String>,
}

const FUNCTIONS: [Function; 9] = [
    Function { name: "translate", numbers: &[0, 1, 2, 3, 4, 5, 6], call: |caller| caller.translate() },
    Function { name: "shape", numbers: &[0, 7], call: |caller| caller.shape() },
    Function { name: "shape_begin", numbers: &[0, 7], call: |caller| caller.shape_begin() },
    Function { name: "shape_block", numbers: &[0, 7], call: |caller| caller.shape_block() },
    Function { name: "shape_end", numbers: &[0, 7], call: |caller| caller.shape_end() },
    Function { name: "evaluate", numbers: &[0, 7, 8, 9], call: |caller| caller.evaluate() },
    Function { name: "reach", numbers: &[0, 7], call: |caller| caller.reach() },
    Function { name: "convert", numbers: &[0, 6, 7], call: |caller| caller.convert() },
    Function { name: "to_spirv", numbers: &[0, 7, 10, 11, 17], call: |caller| caller.write_words() },
];

/// What is made once, and only read.
struct Stock {
    /// Well-formed strips of all sorts in each layout.
    strips: [Vec<Vec<u8>>; Layout::ALL.len()],
    /// Constant words to lend.
    words: Vec<u32>,
}

impl Stock {
    fn new(seed: u64) -> Stock {
        let mut rng = Rng::new(seed);
        let mut strip = |layout| match rng.below(4) {
            0 => translated_strip(&mut rng, layout),
            1 => translated_near(&mut rng, layout),
            2 => encode(&random_strip(&mut rng), layout),
            _ => encode(&evaluation_strip(&mut rng), layout),
        };
        let strips = Layout::ALL.map(|layout| (0..STOCK).map(|_| strip(layout)).collect());
        Stock { strips, words: random_words(&mut rng) }
    }
}

/// Makes random calls.
struct Caller<'a> {
    rng: Rng,
    stock: &'a Stock,
    /// A record, a run or a block of one.
    input: Lent<u8>,
    /// Marks, truths, cells or the state of a shape test.
    bytes: Lent<u8>,
    room: Lent<u8>,
    /// A length, or how many bytes are passed.
    written: Lent<usize>,
    strips: Lent<usize>,
    /// Registers, or a table of ids.
    registers: Lent<u32>,
    fault: Lent<Fault>,
    words: Lent<u32>,
    told: Lent<Written>,
}

impl<'a> Caller<'a> {
    fn new(seed: u64, stock: &'a Stock) -> Caller<'a> {
        Caller {
            rng: Rng::new(seed),
            stock,
            input: Lent::default(),
            bytes: Lent::default(),
            room: Lent::default(),
            written: Lent::default(),
            strips: Lent::default(),
            registers: Lent::default(),
            fault: Lent::default(),
            words: Lent::default(),
            told: Lent::default(),
        }
    }

    /// A length: mostly the right one, else a neighbour, 0, or any up to `most`.
    fn len(&mut self, right: usize, most: usize) -> usize {
        match self.rng.below(64) {
            0 => right + 1,
            1 => right.saturating_sub(1),
            2 => 0,
            3 | 4 => self.rng.below(most + 1),
            _ => right,
        }
    }

    /// Bytes without any meaning: of every value, of those at the limits of the format, or of both.
    fn plain_bytes(&mut self, len: usize) -> Vec<u8> {
        let sort = self.rng.below(3);
        let rng = &mut self.rng;
        let mut byte = || match sort {
            0 => rng.next_u64() as u8,
            1 => rng.pick(&TELLING_BYTES),
            _ if rng.one_in(2) => rng.next_u64() as u8,
            _ => rng.pick(&TELLING_BYTES),
        };
        (0..len).map(|_| byte()).collect()
    }

    /// Bytes in place of a run: without meaning, or some strips of the stock, mostly with a few bytes changed. Gives the
    /// number of their layout, or now and then another number.
    fn fill_run(&mut self) -> u32 {
        let layout = self.rng.pick(&Layout::ALL);
        let mut run = Vec::new();
        if self.rng.one_in(4) {
            let most = self.rng.pick(&[4, 16, 64, 400]);
            let len = self.rng.below(most);
            run = self.plain_bytes(len);
        } else {
            for _ in 0..self.rng.pick(&[0, 1, 1, 1, 1, 2, 3, 8]) {
                run.extend_from_slice(&self.stock.strips[layout as usize][self.rng.below(STOCK)]);
            }
            for _ in 0..self.rng.below(4) {
                damage(&mut self.rng, &mut run);
            }
        }
        let margin = self.rng.next_u64() as u8;
        self.input.fill(&mut self.rng, margin, run);
        match self.rng.below(16) {
            0 => self.rng.next_u64() as u32,
            1 => self.rng.pick(&NO_LAYOUT),
            2 | 3 => layout.other().number(),
            _ => layout.number(),
        }
    }

    /// Bytes in place of a record: without meaning, or a record, at times with a few bytes changed.
    fn fill_record(&mut self) {
        let mut record;
        if self.rng.one_in(3) {
            let len = self.len(RECORD_LEN, 2 * RECORD_LEN);
            record = self.plain_bytes(len);
            // Few bytes are a kind and a form: at times the first two are small.
            if self.rng.one_in(2) {
                record.iter_mut().zip([32, 4]).for_each(|(byte, limit)| *byte %= limit);
            }
        } else {
            record = random_record(&mut self.rng).to_bytes().to_vec();
            if self.rng.one_in(4) {
                damage(&mut self.rng, &mut record);
            }
        }
        let margin = self.rng.next_u64() as u8;
        self.input.fill(&mut self.rng, margin, record);
    }

    fn fill_bytes(&mut self, right: usize) {
        let len = self.len(right, 3 * right);
        let bytes = self.plain_bytes(len);
        let margin = self.rng.next_u64() as u8;
        self.bytes.fill(&mut self.rng, margin, bytes);
    }

    /// A room that is mostly as long as is enough, and the number for a length.
    fn fill_room(&mut self, enough: usize) {
        let len = if self.rng.one_in(4) { self.rng.below(enough + 1) } else { self.len(enough, 2 * enough) };
        let any = self.rng.next_u64();
        self.room.fill(&mut self.rng, any as u8, std::iter::repeat_n((any >> 8) as u8, len));
        self.written.fill(&mut self.rng, any as usize, [!any as usize]);
    }

    /// Bytes in place of a block and of the state before it. The state is without meaning, or that of a test of some
    /// bytes, at times with a few changes; the block goes on with the same run, or is of another one.
    fn fill_block(&mut self) {
        let layout = self.fill_run();
        let run = self.input.list_before().to_vec();
        let (first, second) = run.split_at(self.rng.below(run.len() + 1));
        self.fill_bytes(SHAPE_STATE);
        if !self.rng.one_in(4) {
            let mut state = self.bytes.list_before().to_vec();
            // A state of another length stays as it is.
            ffi::shape_begin(&mut state, layout);
            ffi::shape_block(&mut state, first, &mut 0, &mut 0);
            if !state.is_empty() && self.rng.one_in(3) {
                for _ in 0..1 + self.rng.below(3) {
                    let at = self.rng.below(state.len());
                    state[at] = self.plain_bytes(1)[0];
                }
            }
            let margin = self.rng.next_u64() as u8;
            self.bytes.fill(&mut self.rng, margin, state);
        }
        if self.rng.one_in(2) {
            self.fill_run();
        } else {
            let margin = self.rng.next_u64() as u8;
            self.input.fill(&mut self.rng, margin, second.iter().copied());
        }
    }

    fn translate(&mut self) -> Result<u32, String> {
        self.fill_record();
        self.fill_bytes(MARKS);
        self.fill_room(ROOM);

        let written = &mut self.written.list()[0];
        let number = ffi::translate(self.input.list(), self.bytes.list(), self.room.list(), written);
        let len = *written;
        let untouched = self.input.is_kept()
            && self.is_room_kept(number, len)
            && if number == 0 { self.bytes.is_kept_around(MARKS) } else { self.bytes.is_kept() };
        self.verdict(number, untouched)
    }

    fn shape(&mut self) -> Result<u32, String> {
        let layout = self.fill_run();
        let number = ffi::shape(self.input.list(), layout);
        self.verdict(number, self.input.is_kept())
    }

    fn shape_begin(&mut self) -> Result<u32, String> {
        let layout = self.fill_run();
        self.fill_bytes(SHAPE_STATE);
        let number = ffi::shape_begin(self.bytes.list(), layout);
        let untouched = if number == 0 { self.bytes.is_kept_around(SHAPE_STATE) } else { self.bytes.is_kept() };
        self.verdict(number, untouched)
    }

    fn shape_block(&mut self) -> Result<u32, String> {
        self.fill_block();
        let any = self.rng.next_u64() as usize;
        self.written.fill(&mut self.rng, any, [!any]);
        self.strips.fill(&mut self.rng, !any, [any]);

        let (passed, strips) = (&mut self.written.list()[0], &mut self.strips.list()[0]);
        let number = ffi::shape_block(self.bytes.list(), self.input.list(), passed, strips);
        let (passed, strips) = (*passed, *strips);
        let untouched = self.input.is_kept()
            && if self.bytes.len == SHAPE_STATE {
                self.bytes.is_kept_around(SHAPE_STATE)
                    && self.written.is_kept_around(1)
                    && self.strips.is_kept_around(1)
                    // An entry that was cut has eight bytes at most, and a strip has its end.
                    && passed <= self.input.len + 8
                    && strips <= passed
                    && (number == 0 || self.goes_on_refusing())
            } else {
                number == 7 && self.bytes.is_kept() && self.written.is_kept() && self.strips.is_kept()
            };
        self.verdict(number, untouched)
    }

    /// Whether nothing is passed from the state of the last call on, and the state stays.
    fn goes_on_refusing(&mut self) -> bool {
        let mut state = self.bytes.list().to_vec();
        let before = state.clone();
        let (mut passed, mut strips) = (1, 1);
        let number = ffi::shape_block(&mut state, self.input.list(), &mut passed, &mut strips);
        (number, passed, strips) == (7, 0, 0) && state == before && ffi::shape_end(&state) == 7
    }

    fn shape_end(&mut self) -> Result<u32, String> {
        self.fill_block();
        let number = ffi::shape_end(self.bytes.list());
        let untouched = self.bytes.is_kept() && (number == 7 || self.bytes.len == SHAPE_STATE);
        self.verdict(number, untouched)
    }

    fn evaluate(&mut self) -> Result<u32, String> {
        let layout = self.fill_run();
        self.fill_bytes(TRUTHS);
        let len = self.len(REGISTERS, 2 * REGISTERS);
        let any = self.rng.next_u64() as u32;
        let at = self.rng.below(ALL_WORDS - len);
        self.registers.fill(&mut self.rng, any, self.stock.words[at..at + len].iter().copied());
        let some = self.rng.below(ALL_WORDS + 1);
        let lent = self.rng.pick(&[0, 1, some, some, ALL_WORDS, ALL_WORDS, self.stock.words.len()]);

        let margin = Fault { slot: any, vec: !any, comp: any.rotate_left(7) };
        self.fault.fill(&mut self.rng, margin, [Fault { slot: !any, vec: any, comp: any.rotate_left(9) }]);

        let constants = &self.stock.words[..lent];
        let fault = &mut self.fault.list()[0];
        let (run, registers, truths) = (self.input.list(), self.registers.list(), self.bytes.list());
        let number = ffi::evaluate_lists(run, layout, registers, truths, constants, fault);
        let fault = *fault;
        let untouched = self.input.is_kept()
            && if number == 0 {
                self.registers.is_kept_around(REGISTERS)
                    && self.bytes.is_kept_around(TRUTHS)
                    && self.bytes.list().iter().all(|&truth| truth <= 1)
            } else {
                self.registers.is_kept() && self.bytes.is_kept()
            }
            && if number == 9 {
                self.fault.is_kept_around(1) && self.asks_for(fault, layout, constants)
            } else {
                self.fault.is_kept()
            };
        self.verdict(number, untouched)
    }

    /// Whether plain Rust refuses the run of the last call at the same constant word.
    fn asks_for(&self, fault: Fault, layout: u32, constants: &[u32]) -> bool {
        let Some(layout) = Layout::from_number(layout) else { return false };
        let Ok(registers) = self.registers.list_before().try_into() else { return false };
        let [predicates @ .., z, s, c, o] = self.bytes.list_before() else { return false };
        let Ok(predicates) = <[u8; 7]>::try_from(predicates) else { return false };
        let truth = |byte: u8| byte != 0;
        let state = State { registers, predicates: predicates.map(truth), flags: [*z, *s, *c, *o].map(truth) };
        Fault::of(&evaluate(self.input.list_before(), layout, &state, constants)) == Some(fault)
    }

    fn reach(&mut self) -> Result<u32, String> {
        self.fill_run();
        self.fill_bytes(CELLS);
        let number = ffi::reach(self.input.list(), self.bytes.list());
        let untouched = self.input.is_kept()
            && if number == 0 {
                self.bytes.is_kept_around(CELLS) && self.bytes.list().iter().all(|&cell| cell <= 1)
            } else {
                self.bytes.is_kept()
            };
        self.verdict(number, untouched)
    }

    fn convert(&mut self) -> Result<u32, String> {
        let layout = self.fill_run();
        // No run is longer in the other layout than twice.
        self.fill_room(2 * self.input.len);

        let written = &mut self.written.list()[0];
        let number = ffi::convert(self.input.list(), layout, self.room.list(), written);
        let len = *written;
        let untouched = self.input.is_kept() && self.is_room_kept(number, len);
        self.verdict(number, untouched)
    }

    fn write_words(&mut self) -> Result<u32, String> {
        self.fill_run();
        // Right ids, or not, of a right length mostly, and at times any numbers.
        let new = self.rng.below(64) as u32;
        let Lending { mut bound, mut table, .. } = Lending::random(&mut self.rng, new);
        if self.rng.one_in(8) {
            bound = self.rng.next_u64() as u32;
        }
        if self.rng.one_in(8) {
            let len = self.len(table.len(), 2 * table.len());
            table = (0..len).map(|_| self.rng.next_u64() as u32).collect();
        }
        let any = self.rng.next_u64();
        let (some, other) = (any as u32, (any >> 32) as u32);
        self.registers.fill(&mut self.rng, some, table);
        let len = self.len(MAX_WORDS, 2 * MAX_WORDS);
        let len = if self.rng.one_in(4) { self.rng.below(64) } else { len };
        self.words.fill(&mut self.rng, other, std::iter::repeat_n(some, len));
        let margin = Written { words: any as usize, constants: !any as usize, next: some };
        self.told.fill(&mut self.rng, margin, [Written { words: !any as usize, constants: any as usize, next: other }]);

        let told = &mut self.told.list()[0];
        let number = ffi::to_spirv(self.input.list(), bound, self.registers.list(), self.words.list(), told);
        let told = *told;
        let untouched = self.input.is_kept()
            && self.registers.is_kept()
            && if number == 0 {
                self.words.is_kept_beside(told.words)
                    && self.told.is_kept_around(1)
                    && told.constants <= told.words
                    && told.words <= MAX_WORDS
                    && told.next >= bound
            } else {
                self.words.is_kept() && self.told.is_kept()
            };
        self.verdict(number, untouched)
    }

    /// Whether nothing is written beside the bytes that were asked for, and nothing at all where the call is refused.
    fn is_room_kept(&self, number: u32, len: usize) -> bool {
        if number == 0 {
            self.room.is_kept_beside(len) && self.written.is_kept_around(1)
        } else {
            self.room.is_kept() && self.written.is_kept()
        }
    }

    /// The number, if nothing was written that should not be.
    fn verdict(&self, number: u32, untouched: bool) -> Result<u32, String> {
        if untouched {
            return Ok(number);
        }
        Err(format!("{number}, with a wrong length or a wrong write; {}", hex(self.input.list_before())))
    }
}

/// Counts of one function.
#[derive(Clone, Copy, Default)]
struct Tally {
    numbers: [u64; NUMBERS.len()],
    wrong: u64,
}

impl Tally {
    fn add(&mut self, other: &Tally) {
        self.wrong += other.wrong;
        for (to, from) in self.numbers.iter_mut().zip(other.numbers) {
            *to += from;
        }
    }

    fn call(&mut self, function: &Function, caller: &mut Caller) {
        let answer = (function.call)(caller).and_then(|number| {
            let known = function.numbers.contains(&number);
            known.then_some(number).ok_or_else(|| format!("{number}; {}", hex(caller.input.list_before())))
        });
        match answer {
            Ok(number) => {
                let place = NUMBERS.iter().position(|known| *known == number).expect("known");
                self.numbers[place] += 1;
            }
            Err(wrong) => {
                self.wrong += 1;
                if self.wrong <= SHOWN {
                    println!("{} answers {wrong}", function.name);
                }
            }
        }
    }

    /// Prints the counts, and says whether they are as they ought to be.
    fn report(&self, function: &Function) -> bool {
        let mut complaint = String::new();
        print!("{:<11}", function.name);
        for (number, times) in NUMBERS.into_iter().zip(self.numbers) {
            if function.numbers.contains(&number) {
                print!(" {times:>9}");
                if times == 0 {
                    complaint += &format!("  <- lacks {number}");
                }
            } else {
                print!(" {:>9}", "");
            }
        }
        println!(" {:>7}{complaint}", self.wrong);
        complaint.is_empty() && self.wrong == 0
    }
}

/// Makes `count` calls of each function. True if no answer is wrong and each number was seen.
pub fn run(count: u64, seed: u64) -> bool {
    let stock = Stock::new(seed);
    let batches = count.div_ceil(BATCH);
    let jobs = batches * FUNCTIONS.len() as u64;
    let next = AtomicU64::new(0);
    let work = || {
        let mut tallies = [Tally::default(); FUNCTIONS.len()];
        loop {
            let job = next.fetch_add(1, Ordering::Relaxed);
            if job >= jobs {
                return tallies;
            }
            let (batch, at) = (job / FUNCTIONS.len() as u64, (job % FUNCTIONS.len() as u64) as usize);
            let mut caller = Caller::new(seed ^ (job + 1) << 32, &stock);
            for _ in 0..BATCH.min(count - batch * BATCH) {
                tallies[at].call(&FUNCTIONS[at], &mut caller);
            }
        }
    };
    let threads = thread::available_parallelism().map_or(1, usize::from);
    let mut tallies = [Tally::default(); FUNCTIONS.len()];
    thread::scope(|scope| {
        let running: Vec<_> = (0..threads).map(|_| scope.spawn(work)).collect();
        for thread in running {
            let part = thread.join().expect("a thread that ends");
            tallies.iter_mut().zip(&part).for_each(|(tally, part)| tally.add(part));
        }
    });

    print!("{:<11}", "");
    for number in NUMBERS {
        print!(" {number:>9}");
    }
    println!(" {:>7}", "wrong");
    let mut fine = true;
    for (function, tally) in FUNCTIONS.iter().zip(&tallies) {
        fine &= tally.report(function);
    }
    // The constants are too many to be compared after each call.
    if stock.words != Stock::new(seed).words {
        println!("the list of constants was written to");
        fine = false;
    }
    println!("{count} calls of each function");
    println!("{}", if fine { "no wrong answer" } else { "FAILED" });
    fine
}
