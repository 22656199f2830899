//! Hand-made runs for the program `crates/evaluation_cases`: every operation with its corners, an undefined value into
//! each consumer, every cause of the refusals 7, 8 and 9 on both sides of its limit, and their order.
//!
//! A case and its answer are a line each; the answer is that of [`mod@crate::evaluate`]. In the hex of strips a space
//! stands between kind, immediate and references; `|` is for the eye.

use std::collections::BTreeSet;

use crate::evaluate::{Refusal, State, evaluate};
use crate::format::{Immediate, Layout, MAX_ENTRIES, Value, signature};
use crate::starts::ALL_WORDS;

const MIN: u32 = 0x8000_0000;
const MAX: u32 = 0x7fff_ffff;
const ONES: u32 = 0xffff_ffff;
/// A word without symmetry, and one with its highest bit set.
const PLAIN: u32 = 0x1234_5678;
const HIGH: u32 = 0x9abc_def8;
/// A base for fields, and a word to insert: each inserted field that has bits changes.
const BASE: u32 = 0x6abc_dee8;
const INSERT: u32 = 0x1234_5677;

/// The names of the entry kinds.
const NAMES: [(u8, &str); 55] = [
    (1, "word constant"),
    (2, "true"),
    (3, "false"),
    (4, "load register"),
    (5, "load predicate"),
    (6, "load flag"),
    (7, "store register"),
    (8, "store predicate"),
    (9, "store flag"),
    (10, "slot"),
    (11, "address"),
    (12, "load at address"),
    (20, "not"),
    (21, "reverse"),
    (22, "bit count"),
    (23, "cast_i"),
    (24, "cast_u"),
    (25, "SABS"),
    (26, "FIND_S_MSB"),
    (27, "FIND_U_MSB"),
    (40, "add"),
    (41, "subtract"),
    (42, "multiply"),
    (43, "shift left"),
    (44, "shift right logical"),
    (45, "shift right arithmetic"),
    (46, "and"),
    (47, "or"),
    (48, "xor"),
    (49, "UMIN"),
    (50, "SMIN"),
    (51, "UMAX"),
    (52, "SMAX"),
    (60, "equal"),
    (61, "not equal"),
    (62, "unsigned <"),
    (63, "unsigned <="),
    (64, "unsigned >"),
    (65, "unsigned >="),
    (66, "signed <"),
    (67, "signed <="),
    (68, "signed >"),
    (69, "signed >="),
    (80, "truth not"),
    (81, "truth and"),
    (82, "truth or"),
    (83, "truth not equal"),
    (90, "select"),
    (91, "extract unsigned"),
    (92, "extract signed"),
    (93, "insert"),
    (100, "open"),
    (101, "close"),
    (110, "note"),
    (255, "end"),
];

/// The name of an entry kind.
pub fn name(kind: u8) -> &'static str {
    NAMES.iter().find(|(number, _)| *number == kind).expect("each kind has a name").1
}

/// A run that starts from [`start`].
pub struct Case {
    pub name: String,
    pub run: Vec<u8>,
    /// How many words of [`constants`] are lent.
    pub lent: usize,
}

impl Case {
    /// The line of input: the lent words in hex, the run in hex or `-`, the name.
    pub fn line(&self) -> String {
        let hex: String = self.run.iter().map(|byte| format!("{byte:02x}")).collect();
        format!("{:x} {} {}\n", self.lent, if hex.is_empty() { "-" } else { &hex }, self.name)
    }

    /// The line of output: 0 or the refusal's number, with 9 the word that the address asked for, each cell that
    /// changed, the name.
    pub fn answer(&self, constants: &[u32]) -> String {
        let before = start();
        let (number, after) = match evaluate(&self.run, Layout::Wide, &before, &constants[..self.lent]) {
            Ok(after) => ("0".to_owned(), after),
            Err(refusal) => (told(refusal), before.clone()),
        };
        let changed = cells_of(&before).into_iter().zip(cells_of(&after)).filter(|(before, after)| before != after);
        let changed: String = changed.map(|(_, after)| format!(" {after}")).collect();
        format!("{number}{changed} {}\n", self.name)
    }
}

/// The refusal's number and what it carries, as in `8` and `9 slot=03 vec=00000011 comp=00000002`.
fn told(refusal: Refusal) -> String {
    match refusal {
        Refusal::Constant { slot, vec, comp } => format!("9 slot={slot:02x} vec={vec:08x} comp={comp:08x}"),
        _ => refusal.number().to_string(),
    }
}

/// Each cell with what it holds, as in `R05=0000002a`, `P3=1`, `C=0`. A register's number is hex.
fn cells_of(state: &State) -> Vec<String> {
    let registers = state.registers.iter().enumerate().map(|(cell, word)| format!("R{cell:02x}={word:08x}"));
    let predicates = state.predicates.iter().enumerate().map(|(cell, truth)| format!("P{cell}={}", u8::from(*truth)));
    let flags = ["Z", "S", "C", "O"].iter().zip(state.flags).map(|(flag, truth)| format!("{flag}={}", u8::from(truth)));
    registers.chain(predicates).chain(flags).collect()
}

/// The state that every case starts from: register n holds n in each of its four bytes; predicates 1, 3, 5 and the flags
/// S and O are true.
pub fn start() -> State {
    State {
        registers: std::array::from_fn(|cell| cell as u32 * 0x0101_0101),
        predicates: [false, true, false, true, false, true, false],
        flags: [false, true, false, true],
    }
}

/// The constant words of all slots.
pub fn constants() -> Vec<u32> {
    (0..ALL_WORDS as u32).map(|place| place.wrapping_mul(0x9e37_79b1)).collect()
}

/// All cases.
pub fn cases() -> Vec<Case> {
    let mut list = List(Vec::new());
    cells(&mut list);
    one_word(&mut list);
    two_words(&mut list);
    shifts(&mut list);
    comparisons(&mut list);
    truths(&mut list);
    fields(&mut list);
    selects(&mut list);
    undefined_operands(&mut list);
    undefined_consumers(&mut list);
    addresses(&mut list);
    blocks(&mut list);
    runs(&mut list);
    order(&mut list);
    shape_kinds(&mut list);
    shape_references(&mut list);
    shape_limits(&mut list);
    shape_blocks(&mut list);
    list.0
}

/// The lines of input.
pub fn lines() -> String {
    cases().iter().map(Case::line).collect()
}

/// The lines of output.
pub fn answers() -> String {
    let constants = constants();
    cases().iter().map(|case| case.answer(&constants)).collect()
}

struct List(Vec<Case>);

impl List {
    /// A run without constants.
    fn add(&mut self, name: impl Into<String>, hex: &str) {
        self.lend(0, name, hex);
    }

    fn lend(&mut self, lent: usize, name: impl Into<String>, hex: &str) {
        let digits: Vec<u8> = hex.chars().filter_map(|c| c.to_digit(16)).map(|digit| digit as u8).collect();
        assert!(digits.len().is_multiple_of(2), "{hex}");
        let run = digits.chunks(2).map(|pair| pair[0] << 4 | pair[1]).collect();
        self.0.push(Case { name: name.into(), run, lent });
    }
}

/// The hex of a word constant.
fn word(word: u32) -> String {
    format!("01 {:08x} |", word.swap_bytes())
}

/// The hex of references.
fn refs(numbers: impl IntoIterator<Item = u16>) -> String {
    numbers.into_iter().map(|number| format!(" {:04x}", number.swap_bytes())).collect()
}

fn truth(truth: bool) -> &'static str {
    if truth { "02 |" } else { "03 |" }
}

/// A count, offset or length in a name.
fn count(number: u32) -> String {
    if number < 100 { number.to_string() } else { format!("{number:#x}") }
}

/// A strip with an operation on word constants; the result goes to register 5.
fn operation(kind: u8, operands: &[u32]) -> String {
    let constants: String = operands.iter().map(|operand| word(*operand)).collect();
    let result = operands.len() as u16;
    format!("{constants} {kind:02x} {} | 07 05 {} | ff", refs(0..result), refs([result]))
}

/// Stores a truth in predicate 0, which is false at the start, and in predicate 1, which is true: one of them changes.
fn store_truth(value: u16) -> String {
    format!("08 00 {value} | 08 01 {value} |", value = refs([value]))
}

// Cells.

fn cells(list: &mut List) {
    list.add("word constant into register 0", "01 78563412 | 07 00 0000 | ff");
    list.add("word constant into register 254", "01 78563412 | 07 fe 0000 | ff");
    list.add("register 0 into register 254", "04 00 | 07 fe 0000 | ff");
    list.add("register 254 into register 0", "04 fe | 07 00 0000 | ff");
    list.add("register 128 into register 127", "04 80 | 07 7f 0000 | ff");
    list.add("register 5 into itself", "04 05 | 07 05 0000 | ff");
    for cell in 0..7 {
        list.add(format!("true into predicate {cell}"), &format!("02 | 08 {cell:02x} 0000 | ff"));
        list.add(format!("false into predicate {cell}"), &format!("03 | 08 {cell:02x} 0000 | ff"));
        list.add(format!("predicate {cell} loaded"), &format!("05 {cell:02x} | {} ff", store_truth(0)));
    }
    for cell in 0..4 {
        list.add(format!("true into flag {cell}"), &format!("02 | 09 {cell:02x} 0000 | ff"));
        list.add(format!("false into flag {cell}"), &format!("03 | 09 {cell:02x} 0000 | ff"));
        list.add(format!("flag {cell} loaded"), &format!("06 {cell:02x} | {} ff", store_truth(0)));
    }
    let loads = "04 05 | 01 09000000 | 07 05 0100 | 04 05 | 07 01 0000 | 07 02 0200 | ff";
    list.add("a load sees the register's store before it", loads);
    let loads = "05 00 | 02 | 08 00 0100 | 05 00 | 08 01 0000 | 08 02 0200 | ff";
    list.add("a load sees the predicate's store before it", loads);
    let loads = "06 00 | 02 | 09 00 0100 | 06 00 | 09 01 0000 | 09 02 0200 | ff";
    list.add("a load sees the flag's store before it", loads);
    list.add("the last store stays", "01 01000000 | 01 02000000 | 07 05 0100 | 07 05 0000 | ff");
    list.add("one value into two registers", "01 01000000 | 07 05 0000 | 07 06 0000 | ff");
    list.add("notes change nothing", "6e 01 | 6e 02 | 6e 03 | 6e 04 | 6e 05 | ff");
    list.add("notes between entries", "6e 01 | 04 01 | 6e 02 | 04 02 | 6e 03 | 28 0000 0100 | 6e 04 | 07 05 0200 | ff");
    list.add("values that nobody uses", "01 78563412 | 02 | 03 | 04 fe | 05 06 | 06 03 | 0a 1f | 14 0000 | ff");
}

// Operations.

fn one_word(list: &mut List) {
    for kind in 20..=27 {
        for operand in [0, 1, ONES, 0xffff_fffe, MIN, MAX, 0xc000_0000, PLAIN, HIGH] {
            list.add(format!("{} {operand:08x}", name(kind)), &operation(kind, &[operand]));
        }
    }
}

fn two_words(list: &mut List) {
    for kind in (40..=42).chain(46..=52) {
        for (a, b) in [
            (0, 0),
            (1, 2),
            (ONES, 1),
            (1, ONES),
            (MAX, 1),
            (0, MIN),
            (MIN, MIN),
            (MAX, MIN),
            (ONES, ONES),
            (PLAIN, HIGH),
        ] {
            list.add(format!("{} {a:08x} {b:08x}", name(kind)), &operation(kind, &[a, b]));
        }
    }
}

fn shifts(list: &mut List) {
    for kind in 43..=45 {
        let counts = [0, 1, 4, 31, 32, 33, MIN, ONES].map(|by| (0x8000_0001, by));
        for (base, by) in counts.into_iter().chain([(PLAIN, 4), (MAX, 31)]) {
            list.add(format!("{} {base:08x} by {}", name(kind), count(by)), &operation(kind, &[base, by]));
        }
    }
}

fn comparisons(list: &mut List) {
    for kind in 60..=69 {
        for (a, b) in [(0, 0), (1, 2), (2, 1), (0, ONES), (ONES, 0), (MAX, MIN), (MIN, MAX), (MIN, MIN)] {
            let strip = format!("{} {} {kind:02x} 0000 0100 | {} ff", word(a), word(b), store_truth(2));
            list.add(format!("{a:08x} {} {b:08x}", name(kind)), &strip);
        }
    }
}

fn truths(list: &mut List) {
    for a in [false, true] {
        list.add(format!("{} {a}", name(80)), &format!("{} 50 0000 | {} ff", truth(a), store_truth(1)));
    }
    for kind in 81..=83 {
        for (a, b) in [(false, false), (false, true), (true, false), (true, true)] {
            let strip = format!("{} {} {kind:02x} 0000 0100 | {} ff", truth(a), truth(b), store_truth(2));
            list.add(format!("{} {a} {b}", name(kind)), &strip);
        }
    }
}

fn fields(list: &mut List) {
    let grid = [0, 4, 31, 32, 33, ONES].into_iter().flat_map(|offset| {
        let lengths = [0, 1, 4, 28, 32, 33, ONES];
        lengths.into_iter().map(move |length| (offset, length))
    });
    // Sums that are small if they wrap, and fields just within or past the word.
    let more = [(0xffff_fff0, 0x20), (0x20, 0xffff_ffe0), (1, ONES), (MIN, MIN), (28, 4), (28, 5), (1, 31), (1, 32)];
    for (offset, length) in grid.chain(more) {
        let place = format!("at {} for {}", count(offset), count(length));
        for kind in [91, 92] {
            list.add(format!("{} {HIGH:08x} {place}", name(kind)), &operation(kind, &[HIGH, offset, length]));
        }
        let insert = format!("insert {INSERT:08x} into {BASE:08x} {place}");
        list.add(insert, &operation(93, &[BASE, INSERT, offset, length]));
    }
    for (offset, length) in [(0, 32), (32, 0), (33, 0), (0, 8), (8, 8), (24, 8), (0, 16), (16, 16), (2, 3)] {
        let place = format!("at {} for {}", count(offset), count(length));
        for kind in [91, 92] {
            list.add(format!("{} {PLAIN:08x} {place}", name(kind)), &operation(kind, &[PLAIN, offset, length]));
        }
    }
    list.add("insert 00000000 into ffffffff at 4 for 3", &operation(93, &[ONES, 0, 4, 3]));
    list.add("insert ffffffff into 00000000 at 1 for 31", &operation(93, &[0, ONES, 1, 31]));
    list.add("insert ffffffff into 00000000 at 0 for 0", &operation(93, &[0, ONES, 0, 0]));
}

// Undefined values.

/// Values of a strip: 0 word 0, 1 word 32, 2 an undefined word, 3 true, 4 an undefined truth, 5 a slot, 6 an address.
/// One constant has to be lent.
const UNDEFINED: &str =
    "01 00000000 | 01 20000000 | 2b 0000 0100 | 02 | 3c 0200 0200 | 0a 00 | 0b 0500 0000 0000 0000 |";

impl List {
    /// Entries after those of [`UNDEFINED`].
    fn undefined(&mut self, name: impl Into<String>, entries: &str) {
        self.lend(1, name, &format!("{UNDEFINED} {entries} | ff"));
    }
}

fn selects(list: &mut List) {
    list.add("select true", &format!("02 | {} {} 5a 0000 0100 0200 | 07 05 0300 | ff", word(0x11), word(0x22)));
    list.add("select false", &format!("03 | {} {} 5a 0000 0100 0200 | 07 05 0300 | ff", word(0x11), word(0x22)));
    // Value 7 is false.
    for (name, entry) in [
        ("select true, undefined the word not chosen", "5a 0300 0000 0200"),
        ("select true, undefined the chosen word", "5a 0300 0200 0000"),
        ("select true, undefined both words", "5a 0300 0200 0200"),
        ("select false, undefined the word not chosen", "5a 0700 0200 0000"),
        ("select false, undefined the chosen word", "5a 0700 0000 0200"),
        ("select false, undefined both words", "5a 0700 0200 0200"),
        ("undefined into the condition of a select", "5a 0400 0000 0100"),
        ("undefined into the condition of a select of one word twice", "5a 0400 0000 0000"),
    ] {
        list.undefined(name, &format!("03 | {entry} | 07 05 0800"));
    }
}

fn undefined_operands(list: &mut List) {
    for kind in (20..=93).filter(|kind| *kind != 90) {
        let Some(signature) = signature(kind) else { continue };
        let store = if signature.result == Some(Value::Word) { "07 05 0700" } else { "08 00 0700" };
        // Operands 0 and true are fine for every kind.
        let defined = signature.operands.iter().map(|sort| if *sort == Value::Word { 0 } else { 3 });
        for place in 0..signature.operands.len() {
            let mut operands: Vec<u16> = defined.clone().collect();
            operands[place] += if operands[place] == 0 { 2 } else { 1 };
            let title = format!("undefined into operand {} of {}", place + 1, name(kind));
            list.undefined(title, &format!("{kind:02x} {} | {store}", refs(operands)));
        }
    }
    // Results that would not depend on it. Value 7 is all ones, value 8 false.
    for (name, entry, store) in [
        ("subtract undefined from itself", "29 0200 0200", 7),
        ("xor undefined with itself", "30 0200 0200", 7),
        ("multiply undefined by 0", "2a 0200 0000", 7),
        ("and of 0 and undefined", "2e 0000 0200", 7),
        ("or of undefined and ones", "2f 0200 0700", 7),
        ("UMIN of undefined and 0", "31 0200 0000", 7),
        ("UMAX of ones and undefined", "33 0700 0200", 7),
        ("shift 0 left by undefined", "2b 0000 0200", 7),
        ("extract 0 bits of undefined", "5b 0200 0000 0000", 7),
        ("insert 0 bits of undefined", "5d 0000 0200 0000 0000", 7),
        ("compare undefined with itself", "3c 0200 0200", 8),
        ("undefined unsigned >= 0", "41 0200 0000", 8),
        ("false and undefined", "51 0800 0400", 8),
        ("undefined and false", "51 0400 0800", 8),
        ("true or undefined", "52 0300 0400", 8),
        ("undefined or true", "52 0400 0300", 8),
        ("undefined not equal to itself", "53 0400 0400", 8),
    ] {
        list.undefined(name, &format!("{} 03 | {entry} | {store:02x} 00 0900", word(ONES)));
    }
}

fn undefined_consumers(list: &mut List) {
    for (name, entries) in [
        ("undefined made and not used", ""),
        ("undefined chosen by a select and not used", "5a 0300 0200 0000"),
        ("undefined condition of a select that is not used", "5a 0400 0000 0000"),
        ("undefined passed on and not used", "14 0200 | 28 0200 0700 | 50 0400"),
        ("undefined stored in register 0", "07 00 0200"),
        ("undefined stored in register 254", "07 fe 0200"),
        ("undefined stored in predicate 0", "08 00 0400"),
        ("undefined stored in predicate 6", "08 06 0400"),
        ("undefined stored in flag 0", "09 00 0400"),
        ("undefined stored in flag 3", "09 03 0400"),
        ("undefined opens a block", "64 0400 | 65"),
        ("undefined stored in an open block", "64 0300 | 07 05 0200 | 65"),
        ("undefined into the zero of an address", "0b 0500 0200 0000 0000"),
        ("undefined into the vec of an address", "0b 0500 0000 0200 0000"),
        ("undefined into the comp of an address", "0b 0500 0000 0000 0200"),
        ("undefined into all words of an address", "0b 0500 0200 0200 0200"),
        ("undefined through four operations into a store", "14 0200 | 28 0700 0000 | 17 0800 | 19 0900 | 07 05 0a00"),
        (
            "undefined through a comparison and a truth into a store",
            "3e 0000 0200 | 50 0700 | 52 0800 0300 | 08 00 0900",
        ),
        ("undefined through a truth into a select into a store", "50 0400 | 5a 0700 0000 0000 | 07 05 0800"),
        ("defined stores beside an undefined value", "07 05 0000 | 08 00 0300 | 09 00 0300"),
        ("a defined block beside an undefined value", "64 0300 | 07 05 0000 | 65"),
        ("a defined load beside an undefined value", "0c 0600 | 07 05 0700"),
        ("a store before an undefined one is taken back", "07 05 0000 | 07 06 0200"),
    ] {
        list.undefined(name, entries);
    }
}

// Constants.

/// A strip that loads the word at an address into register 5.
fn load(slot: u8, zero: u32, vec: u32, comp: u32) -> String {
    let operands = [zero, vec, comp].map(word).concat();
    format!("0a {slot:02x} | {operands} 0b 0000 0100 0200 0300 | 0c 0400 | 07 05 0500 | ff")
}

fn addresses(list: &mut List) {
    for (slot, vec, comp) in [
        (0, 0, 0),
        (0, 0, 3),
        (0, 1, 0),
        (0, 4095, 3),
        (1, 0, 0),
        (1, 0, 1),
        (2, 5, 1),
        (30, 4095, 3),
        (31, 0, 0),
        (31, 4095, 3),
    ] {
        let place = slot * 16_384 + vec * 4 + comp;
        for lent in BTreeSet::from([0, place, place + 1, ALL_WORDS]) {
            let title = format!("slot {slot} vec {vec} comp {comp} of {lent} words");
            list.lend(lent, title, &load(slot as u8, 0, vec as u32, comp as u32));
        }
    }
    for (slot, zero, vec, comp) in [
        (0, 1, 0, 0),
        (0, MIN, 0, 0),
        (0, ONES, 0, 0),
        (0, 0, 4096, 0),
        (0, 0, 4097, 0),
        // The product with 4 is small if it wraps.
        (0, 0, 0x4000_0000, 0),
        (3, 0, 0x4000_0001, 2),
        (0, 0, MIN, 0),
        (31, 0, ONES, 3),
        (0, 0, 0, 4),
        (5, 0, 6, 5),
        // The sum is small if it wraps.
        (1, 0, 4095, 0xffff_fffc),
        (0, 0, 1, ONES),
        (31, 1, 4096, 4),
        // The three numbers are those that the address asked for, whatever the cause.
        (7, 0, 0x9abc_def8, 0x8765_4321),
        (30, ONES, MIN, ONES),
        (9, 1, 17, 2),
        (9, 0, 17, MIN),
        (9, 0, MIN, 2),
    ] {
        let title = format!("slot {slot} zero {} vec {} comp {} of all words", count(zero), count(vec), count(comp));
        list.lend(ALL_WORDS, title, &load(slot, zero, vec, comp));
    }
    // Value 1 is 1, value 2 is 0.
    let unused = format!("0a 09 | {} {} 0b 0000 0200 0100 0200 | ff", word(1), word(0));
    list.lend(9 * 16_384 + 4, "an address that nobody loads, one word short", &unused);
    list.lend(9 * 16_384 + 5, "an address that nobody loads, just lent", &unused);
    list.add("a slot without an address needs no word", "0a 1f | ff");
    let twice = "0a 00 | 01 00000000 | 0b 0000 0100 0100 0100 | 0c 0200 | 0c 0200 | 28 0300 0400 | 07 05 0500 | ff";
    list.lend(1, "one address loaded twice", twice);
    let register = "0a 00 | 04 00 | 04 01 | 01 03000000 | 01 ff0f0000 | 2e 0200 0400 | 0b 0000 0100 0500 0300 | 0c 0600 | 07 05 0700 | ff";
    list.lend(ALL_WORDS, "vec from a register, slot 0 vec 257 comp 3", register);
}

// Blocks and runs.

/// A strip that adds 1 to register 5.
const COUNT: &str = "04 05 | 01 01000000 | 28 0000 0100 | 07 05 0200 | ff";

fn blocks(list: &mut List) {
    for (title, truth) in [("taken", "02"), ("skipped", "03")] {
        list.add(format!("block {title}"), &format!("{truth} | 01 07000000 | 64 0000 | 07 05 0100 | 65 | ff"));
        list.add(format!("empty block {title}"), &format!("{truth} | 64 0000 | 65 | ff"));
        let after = format!("{truth} | 01 07000000 | 64 0000 | 07 06 0100 | 65 | ff {COUNT}");
        list.add(format!("block {title}, a strip after it"), &after);
        let before = format!("{truth} | 01 07000000 | 07 05 0100 | 64 0000 | 07 06 0100 | 65 | ff");
        list.add(format!("block {title}, a store before it"), &before);
        let both = format!("{truth} | 01 07000000 | 64 0000 | 07 05 0100 | 65 | ff").repeat(2);
        list.add(format!("block {title} twice"), &both);
        // Values 0 the truth, 1 word 32, 2 undefined, 3 an undefined truth, 4 slot 31, 5 word 0.
        let head = format!("{truth} | 01 20000000 | 2b 0100 0100 | 3c 0200 0200 | 0a 1f | 01 00000000 | 64 0000 |");
        for (name, block) in [
            ("an undefined register store", "07 05 0200"),
            ("an undefined predicate store", "08 00 0300"),
            ("an undefined flag store", "09 00 0300"),
            ("an undefined address", "0b 0400 0500 0200 0500"),
            ("an address out of range", "0b 0400 0100 0100 0100"),
            ("a missing constant", "0b 0400 0500 0500 0500 | 0c 0600 | 07 05 0700"),
            ("bytes that look like an end", "01 ffffffff | 04 fe | 07 fe 0600"),
            ("a note and stores", "6e 05 | 07 05 0100 | 08 00 0000 | 09 00 0000"),
            ("loads and operations", "04 01 | 04 02 | 28 0600 0700 | 07 05 0800"),
        ] {
            list.add(format!("block {title} with {name}"), &format!("{head} {block} | 65 | ff"));
            if truth == "03" {
                list.add(
                    format!("block skipped with {name}, a strip after it"),
                    &format!("{head} {block} | 65 | ff {COUNT}"),
                );
            }
        }
    }
    let cell = "05 00 | 50 0000 | 64 0100 | 08 00 0000 | 08 01 0000 | 01 03000000 | 07 05 0200 | 65 | ff";
    list.add("block by predicate 0 negated, which it stores", cell);
    list.add("block by predicate 1", "05 01 | 01 03000000 | 64 0000 | 07 05 0100 | 65 | ff");
    list.add("block by flag 0", "06 00 | 01 03000000 | 64 0000 | 07 05 0100 | 65 | ff");
    list.add("block by flag 3", "06 03 | 01 03000000 | 64 0000 | 07 05 0100 | 65 | ff");
    let compared = "04 01 | 04 02 | 3e 0000 0100 | 64 0200 | 07 05 0100 | 65 | ff";
    list.add("block by R1 unsigned < R2", compared);
    let opened =
        format!("03 | 01 07000000 | 64 0000 | 65 | ff 02 | 01 07000000 | 64 0000 | 07 05 0100 | 65 | ff {COUNT}");
    list.add("block skipped, then one taken, then a strip", &opened);
}

fn runs(list: &mut List) {
    list.add("empty run", "");
    list.add("an end alone", "ff");
    list.add("four ends", "ff ff ff ff");
    list.add("one strip", COUNT);
    list.add("two strips", &COUNT.repeat(2));
    list.add("eight strips", &COUNT.repeat(8));
    list.add("the second strip loads what the first stored", "01 07000000 | 07 05 0000 | ff 04 05 | 07 06 0000 | ff");
    let anew = "01 20000000 | 2b 0000 0000 | ff 01 20000000 | 01 07000000 | 07 05 0100 | ff";
    list.add("an undefined value 1 is another strip's value 1", anew);
    list.add("values do not carry over", "01 07000000 | ff 07 05 0000 | ff");
    list.add("truths do not carry over", "02 | ff 08 00 0000 | ff");
    list.add("slots do not carry over", "0a 00 | ff 01 00000000 | 0b 0000 0000 0000 0000 | ff");
}

// The order of refusals.

/// A strip with an undefined store.
const REFUSED_8: &str = "01 20000000 | 2b 0000 0000 | 07 05 0100 | ff";
/// A strip whose block is skipped.
const SKIPPED: &str = "03 | 64 0000 | 65 | ff";
/// A strip with an undefined store in its block; the truth before it is missing.
const UNDEFINED_IN_BLOCK: &str = "01 20000000 | 2b 0100 0100 | 64 0000 | 07 05 0200 | 65 | ff";
/// A strip with an address in slot 1, which is not lent.
const REFUSED_9: &str = "0a 01 | 01 00000000 | 0b 0000 0100 0100 0100 | ff";
/// A strip with an address in slot 2, vec 3 and comp 1, which is not lent either.
const OTHER_9: &str = "0a 02 | 01 00000000 | 01 03000000 | 01 01000000 | 0b 0000 0100 0200 0300 | ff";
/// A strip with an address out of range in its block; the truth before it is missing.
const OUT_OF_RANGE_IN_BLOCK: &str = "0a 05 | 01 20000000 | 64 0000 | 0b 0100 0200 0200 0200 | 65 | ff";

fn order(list: &mut List) {
    list.add("refused 8", REFUSED_8);
    list.add("refused 9", REFUSED_9);
    // At one address. Value 7 is too high for each of zero, vec and comp, value 8 is slot 31, which is not lent.
    for (name, operands) in [
        ("zero bad, vec undefined", "0500 0700 0200 0000"),
        ("zero bad, comp undefined", "0500 0700 0000 0200"),
        ("vec bad, zero undefined", "0500 0200 0700 0000"),
        ("vec bad, comp undefined", "0500 0000 0700 0200"),
        ("comp bad, zero undefined", "0500 0200 0000 0700"),
        ("comp bad, vec undefined", "0500 0000 0200 0700"),
        ("slot not lent, zero undefined", "0800 0200 0000 0000"),
        ("slot not lent, vec undefined", "0800 0000 0200 0000"),
        ("slot not lent, comp undefined", "0800 0000 0000 0200"),
        ("slot not lent", "0800 0000 0000 0000"),
        ("all bad", "0800 0700 0700 0700"),
    ] {
        list.undefined(format!("an address: {name}"), &format!("{} 0a 1f | 0b {operands}", word(4096)));
    }
    // Within a strip. Values 1 undefined, 2 slot 1, 3 word 0, 4 an undefined truth.
    let head = "01 20000000 | 2b 0000 0000 | 0a 01 | 01 00000000 | 3c 0100 0100 |";
    let (address, undefined) = ("0b 0200 0300 0300 0300 |", "0b 0200 0300 0100 0300 |");
    for (name, entries) in [
        ("8 by a register, then 9", format!("07 05 0100 | {address}")),
        ("9, then 8 by a register", format!("{address} 07 05 0100 |")),
        ("8 by a predicate, then 9", format!("08 00 0400 | {address}")),
        ("9, then 8 by a predicate", format!("{address} 08 00 0400 |")),
        ("8 by a flag, then 9", format!("09 00 0400 | {address}")),
        ("9, then 8 by a flag", format!("{address} 09 00 0400 |")),
        ("8 by an address, then 9", format!("{undefined} {address}")),
        ("9, then 8 by an address", format!("{address} {undefined}")),
        ("8 by an open, 9 in its block", format!("64 0400 | {address} 65 |")),
        ("9, then 8 by an open", format!("{address} 64 0400 | 65 |")),
        ("9, then a skipped block", format!("{address} 03 | 64 0600 | 65 |")),
        ("8, then a skipped block", "07 05 0100 | 03 | 64 0500 | 65 |".to_owned()),
        ("9 twice", format!("{address} {address}")),
        ("9, then 9 of another word", format!("{address} 01 03000000 | 0b 0200 0300 0600 0600 |")),
        ("9 of another word, then 9", format!("01 03000000 | 0b 0200 0300 0500 0500 | {address}")),
        ("9 by zero, then 9 by comp", "0b 0200 0000 0000 0300 | 0b 0200 0300 0300 0000 |".to_owned()),
        ("9 by comp, then 9 by zero", "0b 0200 0300 0300 0000 | 0b 0200 0000 0000 0300 |".to_owned()),
        ("8 twice", "07 05 0100 | 07 06 0100 |".to_owned()),
    ] {
        list.add(format!("one strip: {name}"), &format!("{head} {entries} ff"));
    }
    // Over strips.
    for (name, run) in [
        ("8, then 9", format!("{REFUSED_8} {REFUSED_9}")),
        ("9, then 8", format!("{REFUSED_9} {REFUSED_8}")),
        ("a store, then 8 and 9", format!("{COUNT} {REFUSED_8} {REFUSED_9}")),
        ("a store, then 9 and 8", format!("{COUNT} {REFUSED_9} {REFUSED_8}")),
        ("a store, then 8", format!("{COUNT} {REFUSED_8}")),
        ("a store, then 9", format!("{COUNT} {REFUSED_9}")),
        ("8, then a store", format!("{REFUSED_8} {COUNT}")),
        ("9, then a store", format!("{REFUSED_9} {COUNT}")),
        ("a store, 8, a skipped block, a store", format!("{COUNT} {REFUSED_8} {SKIPPED} {COUNT}")),
        ("9, a skipped block, 8", format!("{REFUSED_9} {SKIPPED} {REFUSED_8}")),
        ("9, then 9 of another word", format!("{REFUSED_9} {OTHER_9}")),
        ("9 of another word, then 9", format!("{OTHER_9} {REFUSED_9}")),
        ("a store, 9, a store, 9 of another word", format!("{COUNT} {REFUSED_9} {COUNT} {OTHER_9}")),
        ("8, then 9 twice", format!("{REFUSED_8} {OTHER_9} {REFUSED_9}")),
        ("9 in a taken block, then 9", format!("02 | {OUT_OF_RANGE_IN_BLOCK} {REFUSED_9}")),
        ("9 in a skipped block, then 9", format!("03 | {OUT_OF_RANGE_IN_BLOCK} {REFUSED_9}")),
        ("9 in a skipped block, then a store", format!("03 | {OUT_OF_RANGE_IN_BLOCK} {COUNT}")),
        ("8 in a taken block, then a store", format!("02 | {UNDEFINED_IN_BLOCK} {COUNT}")),
        ("8 in a skipped block, then a store", format!("03 | {UNDEFINED_IN_BLOCK} {COUNT}")),
        ("8 in a skipped block, then 9", format!("03 | {UNDEFINED_IN_BLOCK} {REFUSED_9}")),
        ("a skipped block, then 8", format!("{SKIPPED} {REFUSED_8}")),
        ("a skipped block, then 9", format!("{SKIPPED} {REFUSED_9}")),
    ] {
        list.add(format!("strips: {name}"), &run);
    }
    // The shape of the whole run comes first.
    for (name, bad) in [
        ("an unknown kind", "00"),
        ("an unknown kind after an end", "ff 00"),
        ("register 255", "04 ff | ff"),
        ("an open without close", "02 | 64 0000 | ff"),
        ("a cut body", "01 00"),
        ("a close without open", "65 | ff"),
    ] {
        for (before, good) in [("a store", COUNT), ("8", REFUSED_8), ("9", REFUSED_9)] {
            list.add(format!("strips: {before}, then {name}"), &format!("{good} {bad}"));
        }
    }
    list.add("one strip: 8, then register 255", "01 20000000 | 2b 0000 0000 | 07 05 0100 | 04 ff | ff");
    list.add("one strip: 9, then register 255", "0a 01 | 01 00000000 | 0b 0000 0100 0100 0100 | 04 ff | ff");
    list.add("one strip: 8, then no end", "01 20000000 | 2b 0000 0000 | 07 05 0100");
    list.add("one strip: 9, then no end", "0a 01 | 01 00000000 | 0b 0000 0100 0100 0100");
    list.add("a skipped block: register 255", "03 | 64 0000 | 04 ff | 65 | ff");
    list.add("a skipped block: register 255 stored", "03 | 01 00000000 | 64 0000 | 07 ff 0100 | 65 | ff");
    list.add("a skipped block: an unknown kind", "03 | 64 0000 | 0d | 65 | ff");
    list.add("a skipped block: a value of another kind", "03 | 64 0000 | 07 05 0000 | 65 | ff");
    list.add("a skipped block: an end without close", "03 | 64 0000 | 02 | ff");
}

// Shape. One case for each side of a limit.

/// A value of each sort: 0 word 0, 1 true, 2 slot 0, 3 address of the first word. The next value is 4. One constant has
/// to be lent.
const VALUES: &str = "01 00000000 | 02 | 0a 00 | 0b 0200 0000 0000 0000 |";

/// The sorts of values, and an entry after [`VALUES`] that makes one.
const SORTS: [(Value, &str, &str); 4] = [
    (Value::Word, "a word", "01 00000000"),
    (Value::Truth, "a truth", "02"),
    (Value::Slot, "a slot", "0a 00"),
    (Value::Address, "an address", "0b 0200 0000 0000 0000"),
];

/// The number of the sort's value in [`VALUES`].
fn number_of(sort: Value) -> u16 {
    sort as u16
}

/// References to [`VALUES`] of the sorts that the kind asks for.
fn right_numbers(kind: u8) -> Vec<u16> {
    signature(kind).expect("a known kind").operands.iter().copied().map(number_of).collect()
}

/// An entry after [`VALUES`] with the references given, its byte 1 or its word 0.
fn entry(kind: u8, numbers: impl IntoIterator<Item = u16>) -> String {
    let immediate = match signature(kind).expect("a known kind").immediate {
        Immediate::None => "",
        Immediate::Word => "00000000",
        Immediate::Byte(..) => "01",
    };
    format!("{kind:02x} {immediate} {}", refs(numbers)).trim_end().to_owned()
}

/// What ends a strip after an entry.
fn rest(kind: u8) -> &'static str {
    match kind {
        100 => "65 | ff",
        _ => "ff",
    }
}

fn shape_kinds(list: &mut List) {
    // Each unknown kind beside a known one, with a body that would be right for the latter.
    for (kind, known) in [
        (0, 1),
        (13, 12),
        (19, 20),
        (28, 27),
        (39, 40),
        (53, 52),
        (59, 60),
        (70, 69),
        (79, 80),
        (84, 83),
        (89, 90),
        (94, 93),
        (99, 100),
        (109, 110),
        (111, 110),
    ] {
        let entry = entry(known, right_numbers(known));
        let strip = format!("{VALUES} {kind:02x} {} | {}", &entry[2..], rest(known));
        list.lend(1, format!("refused 7: kind {kind} with the body of {}", name(known)), &strip);
    }
    list.add("refused 7: kind 102 in place of a close", "02 | 64 0000 | 66 | ff");
    list.add("refused 7: kind 254 in place of an end", "02 | fe");
    list.add("refused 7: kind 128", "80 | ff");
    for kind in (1..=110).filter(|kind| *kind != 101) {
        let Some(signature) = signature(kind) else { continue };
        let entry = entry(kind, right_numbers(kind));
        list.lend(1, format!("kind {kind}, {}", name(kind)), &format!("{VALUES} {entry} | {}", rest(kind)));
        if !signature.operands.is_empty() || signature.immediate != Immediate::None {
            list.lend(1, format!("refused 7: {} cut", name(kind)), &format!("{VALUES} {}", &entry[..entry.len() - 2]));
        }
    }
    list.add("refused 7: a kind byte alone", "01");
    list.add("refused 7: a word constant of 3 bytes, then an end", "01 000000 ff");
}

fn shape_references(list: &mut List) {
    // One kind of each group of operands.
    for kind in [7, 8, 9, 11, 12, 20, 40, 60, 80, 81, 90, 91, 93, 100] {
        let signature = signature(kind).expect("a known kind");
        for (place, right) in signature.operands.iter().enumerate() {
            let mut add = |number: u16, title: &str, after: &str| {
                let mut numbers = right_numbers(kind);
                numbers[place] = number;
                let strip = format!("{VALUES} {} | {after} {}", entry(kind, numbers), rest(kind));
                list.lend(1, format!("refused 7: operand {} of {} is {title}", place + 1, name(kind)), &strip);
            };
            for (sort, title, _) in SORTS.iter().filter(|(sort, ..)| sort != right) {
                add(number_of(*sort), title, "");
            }
            let made = signature.result.is_some();
            if made {
                add(4, "itself", "");
            }
            add(4 + u16::from(made), "a later value", SORTS[usize::from(number_of(*right))].2);
        }
    }
    list.add("refused 7: a high byte before a word", "01 00000000 | 07 05 0001 | ff");
    list.add("refused 7: a high byte before a truth", "02 | 08 00 0001 | ff");
    list.add("refused 7: a high byte before a slot", "0a 00 | 01 00000000 | 0b 0001 0100 0100 0100 | ff");
    list.lend(1, "refused 7: a high byte before an address", &format!("{VALUES} 0c 0301 | ff"));
    list.add("refused 7: a reference before any value", "07 05 0000 | ff");
    list.add("refused 7: reference 64", "01 00000000 | 07 05 4000 | ff");
    list.add("refused 7: reference ffff", "01 00000000 | 07 05 ffff | ff");
    list.add("a note gets no number", "6e 01 | 01 07000000 | 6e 02 | 07 05 0000 | ff");
    list.add("refused 7: a store gets no number", "01 07000000 | 07 05 0000 | 07 06 0100 | ff");
    list.add("refused 7: an open gets no number", "02 | 64 0000 | 08 00 0100 | 65 | ff");
}

fn shape_limits(list: &mut List) {
    for (name, entry, byte, limit) in [
        ("register {} loaded", "04 {}", 254, 255),
        ("predicate {} loaded", "05 {}", 6, 7),
        ("flag {} loaded", "06 {}", 3, 4),
        ("register {} stored", "01 07000000 | 07 {} 0000", 254, 255),
        ("predicate {} stored", "02 | 08 {} 0000", 6, 7),
        ("flag {} stored", "02 | 09 {} 0000", 3, 4),
        ("slot {}", "0a {}", 31, 32),
        ("note {}", "6e {}", 1, 0),
        ("note {}", "6e {}", 5, 6),
    ] {
        let strip = |byte: u8| format!("{} | ff", entry.replace("{}", &format!("{byte:02x}")));
        list.add(format!("within: {}", name.replace("{}", &byte.to_string())), &strip(byte));
        list.add(format!("refused 7: {}", name.replace("{}", &limit.to_string())), &strip(limit));
        if (1..255).contains(&limit) {
            list.add(format!("refused 7: {}", name.replace("{}", "255")), &strip(255));
        }
    }
    // The end is one of the entries, and so is all that makes no value.
    for (name, entry) in [("truths", "02"), ("words", "01 07000000"), ("notes", "6e 01"), ("slots", "0a 1f")] {
        let many = |count: usize| format!("{entry} |").repeat(count);
        list.add(format!("63 {name} and the end"), &format!("{} ff", many(MAX_ENTRIES - 1)));
        list.add(format!("refused 7: 64 {name} and the end"), &format!("{} ff", many(MAX_ENTRIES)));
        list.add(format!("refused 7: 63 {name} and no end"), &many(MAX_ENTRIES - 1));
    }
    let last = |words: usize| format!("{} 07 05 {} | ff", word(7).repeat(words), refs([words as u16 - 1]));
    list.add("64 entries, the last value stored", &last(62));
    list.add("refused 7: 65 entries, the last value stored", &last(63));
    let block = |truths: usize| format!("{} 64 0000 | 65 | ff", "02 |".repeat(truths));
    list.add("64 entries with open and close", &block(61));
    list.add("refused 7: 65 entries with open and close", &block(62));
    let two = |truths: usize| format!("{} ff {}", "02 |".repeat(63), "02 |".repeat(truths));
    list.add("two strips of 64 entries", &format!("{} ff", two(63)));
    list.add("refused 7: the second of two strips has 65 entries", &format!("{} ff", two(64)));
    list.add("refused 7: a truth and no end", "02");
    list.add("refused 7: a strip, then one without end", "02 | ff 02");
    list.add("refused 7: a block and no end", "02 | 64 0000 | 65");
}

fn shape_blocks(list: &mut List) {
    for (name, entries) in [
        ("two opens, one close", "64 0000 | 64 0000 | 65"),
        ("two opens, two closes", "64 0000 | 64 0000 | 65 | 65"),
        ("two blocks", "64 0000 | 65 | 64 0000 | 65"),
        ("close without open", "65"),
        ("close before open", "65 | 64 0000"),
        ("open without close", "64 0000"),
        ("open without close, a store in it", "64 0000 | 08 00 0000"),
        ("two closes", "64 0000 | 65 | 65"),
        ("a note between close and end", "64 0000 | 65 | 6e 01"),
        ("a truth between close and end", "64 0000 | 65 | 02"),
        ("a word between close and end", "64 0000 | 65 | 01 00000000"),
        ("a store between close and end", "64 0000 | 65 | 08 00 0000"),
        ("an open between close and end", "64 0000 | 65 | 64 0000"),
    ] {
        for (truth, title) in [("02", "true"), ("03", "false")] {
            list.add(format!("refused 7: {name}, {title}"), &format!("{truth} | {entries} | ff"));
        }
    }
    list.add("refused 7: open in one strip, close in the next", "02 | 64 0000 | ff 65 | ff");
    list.add("refused 7: open of a word", "01 00000000 | 64 0000 | 65 | ff");
    list.add("a block in each of two strips", &"02 | 64 0000 | 08 00 0000 | 65 | ff".repeat(2));
    list.add("a note directly before the close", "02 | 64 0000 | 08 00 0000 | 6e 05 | 65 | ff");
}
