//! Evaluation: every operation with its corners against values worked out by hand, every cause of a refusal on both
//! sides of its limit, and random runs against a second, slower definition.
//!
//! In the hex of strips a space stands between kind, immediate and references; `|` is for the eye.

use oracle::evaluate::{Refusal, State, evaluate};
use oracle::format::{Entry, Immediate, Layout, encode, kind, signature};
use oracle::generate::random_admitted;
use oracle::record::Record;
use oracle::rng::Rng;
use oracle::starts::{ALL_WORDS, corner_word, random_list_len, random_state, random_words};
use oracle::strips::{evaluation_strip, random_strip};
use oracle::{SLOTS, translate, translate_entries};

const MIN: u32 = 0x8000_0000;
const MAX: u32 = 0x7fff_ffff;
const ONES: u32 = 0xffff_ffff;

fn bytes(hex: &str) -> Vec<u8> {
    let digits: Vec<u8> = hex.chars().filter_map(|c| c.to_digit(16)).map(|d| d as u8).collect();
    assert!(digits.len().is_multiple_of(2), "{hex}");
    digits.chunks(2).map(|pair| pair[0] << 4 | pair[1]).collect()
}

/// Runs the strips of the hex from a state of zeros without constants.
fn run(hex: &str) -> Result<State, Refusal> {
    evaluate(&bytes(hex), Layout::Wide, &State::default(), &[])
}

/// The hex of a word constant.
fn word(word: u32) -> String {
    format!("01 {:08x} |", word.swap_bytes())
}

/// The hex of references.
fn refs(numbers: impl IntoIterator<Item = u16>) -> String {
    numbers.into_iter().map(|number| format!(" {:04x}", number.swap_bytes())).collect()
}

/// What an operation on words stores in a register: its operands are constants.
fn words_to_word(kind: u8, operands: &[u32]) -> Result<u32, Refusal> {
    let constants: String = operands.iter().map(|operand| word(*operand)).collect();
    let result = operands.len() as u16;
    let strip = format!("{constants} {kind:02x} {} | 07 00 {} | ff", refs(0..result), refs([result]));
    run(&strip).map(|state| state.registers[0])
}

#[track_caller]
fn gives(kind: u8, operands: &[u32], expected: u32) {
    assert_eq!(words_to_word(kind, operands), Ok(expected), "kind {kind} of {operands:08x?}");
}

#[track_caller]
fn undefined(kind: u8, operands: &[u32]) {
    assert_eq!(words_to_word(kind, operands), Err(Refusal::Undefined), "kind {kind} of {operands:08x?}");
}

// Operations.

#[test]
fn constants_and_truths() {
    let state = run("01 78563412 | 07 05 0000 | 02 | 08 03 0100 | 03 | 09 02 0200 | ff").unwrap();
    let mut expected = State::default();
    expected.registers[5] = 0x1234_5678;
    expected.predicates[3] = true;
    assert_eq!(state, expected);
    let mut start = State::default();
    start.flags[2] = true;
    let state = evaluate(&bytes("03 | 09 02 0000 | ff"), Layout::Wide, &start, &[]).unwrap();
    assert_eq!(state, State::default());
}

#[test]
fn loads_and_stores_of_every_cell() {
    let mut start = State::default();
    for cell in 0..255 {
        start.registers[cell] = 0x1000 + cell as u32;
    }
    for cell in 0..254u8 {
        let state = evaluate(&bytes(&format!("04 {cell:02x} | 07 fe 0000 | ff")), Layout::Wide, &start, &[]).unwrap();
        let mut expected = start.clone();
        expected.registers[254] = 0x1000 + u32::from(cell);
        assert_eq!(state, expected);
        let state = evaluate(&bytes(&format!("04 fe | 07 {cell:02x} 0000 | ff")), Layout::Wide, &start, &[]).unwrap();
        let mut expected = start.clone();
        expected.registers[usize::from(cell)] = 0x10fe;
        assert_eq!(state, expected);
    }
    for from in 0..7 {
        let mut start = State::default();
        start.predicates[from] = true;
        for to in 0..4 {
            let state =
                evaluate(&bytes(&format!("05 {from:02x} | 09 {to:02x} 0000 | ff")), Layout::Wide, &start, &[]).unwrap();
            let mut expected = start.clone();
            expected.flags[to] = true;
            assert_eq!(state, expected);
        }
    }
    for from in 0..4 {
        let mut start = State::default();
        start.flags[from] = true;
        for to in 0..7 {
            let state =
                evaluate(&bytes(&format!("06 {from:02x} | 08 {to:02x} 0000 | ff")), Layout::Wide, &start, &[]).unwrap();
            let mut expected = start.clone();
            expected.predicates[to] = true;
            assert_eq!(state, expected);
        }
    }
}

#[test]
fn operations_on_one_word() {
    for (operand, not, reverse, count) in [
        (0, ONES, 0, 0),
        (1, 0xffff_fffe, MIN, 1),
        (ONES, 0, ONES, 32),
        (MIN, MAX, 1, 1),
        (MAX, MIN, 0xffff_fffe, 31),
        (0x1234_5678, 0xedcb_a987, 0x1e6a_2c48, 13),
    ] {
        gives(20, &[operand], not);
        gives(21, &[operand], reverse);
        gives(22, &[operand], count);
        // The casts keep the bits.
        gives(23, &[operand], operand);
        gives(24, &[operand], operand);
    }
}

#[test]
fn absolute_value() {
    for (operand, expected) in [(0, 0), (1, 1), (ONES, 1), (MAX, MAX), (0x8000_0001, MAX), (0xffff_ff80, 0x80)] {
        gives(25, &[operand], expected);
    }
    // The least number has no positive partner.
    gives(25, &[MIN], MIN);
}

#[test]
fn highest_bits() {
    // Operand, signed, unsigned.
    for (operand, signed, unsigned) in [
        (0, ONES, ONES),
        (ONES, ONES, 31),
        (1, 0, 0),
        (2, 1, 1),
        (3, 1, 1),
        (0xffff_fffe, 0, 31),
        (0xffff_fffd, 1, 31),
        (0xffff_fffc, 1, 31),
        (MAX, 30, 30),
        (MIN, 30, 31),
        (0xc000_0000, 29, 31),
        (0xbfff_ffff, 30, 31),
        (0x0001_0000, 16, 16),
        (0x0000_8001, 15, 15),
    ] {
        gives(26, &[operand], signed);
        gives(27, &[operand], unsigned);
    }
}

#[test]
fn arithmetic_drops_what_lies_above_bit_31() {
    for (a, b, sum, difference, product) in [
        (0, 0, 0, 0, 0),
        (1, 2, 3, ONES, 2),
        (ONES, 1, 0, 0xffff_fffe, ONES),
        (MAX, 1, MIN, 0x7fff_fffe, MAX),
        (MIN, 1, 0x8000_0001, MAX, MIN),
        (0, MIN, MIN, MIN, 0),
        (ONES, ONES, 0xffff_fffe, 0, 1),
        (MIN, MIN, 0, 0, 0),
        (0x0001_0000, 0x0001_0000, 0x0002_0000, 0, 0),
        (0x0001_0001, 0x0001_0001, 0x0002_0002, 0, 0x0002_0001),
        (0x0000_ffff, 0x0000_ffff, 0x0001_fffe, 0, 0xfffe_0001),
    ] {
        gives(40, &[a, b], sum);
        gives(41, &[a, b], difference);
        gives(42, &[a, b], product);
    }
}

#[test]
fn shifts() {
    for (a, count, left, logical, arithmetic) in [
        (0x8000_0001, 0, 0x8000_0001, 0x8000_0001, 0x8000_0001),
        (0x8000_0001, 1, 2, 0x4000_0000, 0xc000_0000),
        (0x8000_0001, 31, MIN, 1, ONES),
        (MAX, 31, MIN, 0, 0),
        (MAX, 30, 0xc000_0000, 1, 1),
        (0xf000_0000, 4, 0, 0x0f00_0000, 0xff00_0000),
        (0x1234_5678, 8, 0x3456_7800, 0x0012_3456, 0x0012_3456),
    ] {
        gives(43, &[a, count], left);
        gives(44, &[a, count], logical);
        gives(45, &[a, count], arithmetic);
    }
    for count in [32, 33, 63, 64, 0x100, 0x8000_0000, 0xffff_ffe0, ONES] {
        for base in [0, 1, ONES] {
            undefined(43, &[base, count]);
            undefined(44, &[base, count]);
            undefined(45, &[base, count]);
        }
    }
}

#[test]
fn bits_of_two_words() {
    gives(46, &[0b1100, 0b1010], 0b1000);
    gives(47, &[0b1100, 0b1010], 0b1110);
    gives(48, &[0b1100, 0b1010], 0b0110);
    gives(46, &[ONES, 0x1234_5678], 0x1234_5678);
    gives(47, &[MIN, MAX], ONES);
    gives(48, &[ONES, ONES], 0);
}

#[test]
fn minima_and_maxima() {
    // a, b, UMIN, SMIN, UMAX, SMAX.
    for (a, b, umin, smin, umax, smax) in [
        (1, 2, 1, 1, 2, 2),
        (0, ONES, 0, ONES, ONES, 0),
        (MAX, MIN, MAX, MIN, MIN, MAX),
        (MIN, ONES, MIN, MIN, ONES, ONES),
        (0xffff_fffe, ONES, 0xffff_fffe, 0xffff_fffe, ONES, ONES),
        (7, 7, 7, 7, 7, 7),
    ] {
        for (a, b) in [(a, b), (b, a)] {
            gives(49, &[a, b], umin);
            gives(50, &[a, b], smin);
            gives(51, &[a, b], umax);
            gives(52, &[a, b], smax);
        }
    }
}

#[test]
fn comparisons() {
    // Equal, not equal, unsigned < <= > >=, signed < <= > >=.
    let less = [0, 1, 1, 1, 0, 0, 1, 1, 0, 0];
    let equal = [1, 0, 0, 1, 0, 1, 0, 1, 0, 1];
    let greater = [0, 1, 0, 0, 1, 1, 0, 0, 1, 1];
    let less_unsigned = [0, 1, 1, 1, 0, 0, 0, 0, 1, 1];
    let less_signed = [0, 1, 0, 0, 1, 1, 1, 1, 0, 0];
    for (a, b, expected) in [
        (1, 2, less),
        (2, 1, greater),
        (0, 0, equal),
        (ONES, ONES, equal),
        (MIN, MIN, equal),
        (0, ONES, less_unsigned),
        (ONES, 0, less_signed),
        (MAX, MIN, less_unsigned),
        (MIN, MAX, less_signed),
        (MIN, ONES, less),
        (ONES, MIN, greater),
        (0, MAX, less),
        (0xffff_fffe, ONES, less),
    ] {
        for (kind, expected) in (60..=69).zip(expected) {
            let strip = format!("{} {} {kind:02x} 0000 0100 | 08 06 0200 | 09 00 0200 | ff", word(a), word(b));
            let state = run(&strip).unwrap();
            let found = (state.predicates[6], state.flags[0]);
            assert_eq!(found, (expected == 1, expected == 1), "kind {kind} of {a:08x} {b:08x}");
        }
    }
}

#[test]
fn operations_on_truths() {
    let truth = |truth: bool| if truth { "02" } else { "03" };
    for (a, not) in [(false, true), (true, false)] {
        let state = run(&format!("{} | 50 0000 | 08 00 0100 | ff", truth(a))).unwrap();
        assert_eq!(state.predicates[0], not);
    }
    // And, or, not equal.
    for (a, b, expected) in [
        (false, false, [false, false, false]),
        (false, true, [false, true, true]),
        (true, false, [false, true, true]),
        (true, true, [true, true, false]),
    ] {
        for (kind, expected) in (81..=83).zip(expected) {
            let strip = format!("{} | {} | {kind:02x} 0000 0100 | 08 00 0200 | ff", truth(a), truth(b));
            assert_eq!(run(&strip).unwrap().predicates[0], expected, "kind {kind} of {a} {b}");
        }
    }
}

#[test]
fn select_takes_the_first_word_where_the_truth_holds() {
    for (truth, expected) in [("02", 0x11), ("03", 0x22)] {
        let strip = format!("{truth} | {} {} 5a 0000 0100 0200 | 07 00 0300 | ff", word(0x11), word(0x22));
        assert_eq!(run(&strip).unwrap().registers[0], expected);
    }
}

#[test]
fn extracted_fields() {
    // Base, offset, length, unsigned, signed.
    for (base, offset, length, unsigned, signed) in [
        (0xabcd_1234, 0, 32, 0xabcd_1234, 0xabcd_1234),
        (MAX, 0, 32, MAX, MAX),
        (0xabcd_1234, 28, 4, 0xa, 0xffff_fffa),
        (0xabcd_1234, 0, 8, 0x34, 0x34),
        (0xabcd_1234, 8, 8, 0x12, 0x12),
        (0xabcd_1234, 16, 8, 0xcd, 0xffff_ffcd),
        (0xabcd_1234, 24, 8, 0xab, 0xffff_ffab),
        (0xabcd_1234, 16, 16, 0xabcd, 0xffff_abcd),
        (0xabcd_1234, 0, 16, 0x1234, 0x1234),
        (0xabcd_1234, 31, 1, 1, ONES),
        (0xabcd_1234, 30, 1, 0, 0),
        (0xabcd_1234, 1, 31, 0x55e6_891a, 0xd5e6_891a),
        (0xabcd_1234, 0, 31, 0x2bcd_1234, 0x2bcd_1234),
        (ONES, 0, 1, 1, ONES),
        (ONES, 0, 31, MAX, ONES),
        (0, 5, 9, 0, 0),
        // A field without bits is 0, also after the last bit.
        (ONES, 0, 0, 0, 0),
        (ONES, 7, 0, 0, 0),
        (ONES, 31, 0, 0, 0),
        (ONES, 32, 0, 0, 0),
    ] {
        gives(91, &[base, offset, length], unsigned);
        gives(92, &[base, offset, length], signed);
    }
}

#[test]
fn inserted_fields() {
    // Base, insert, offset, length.
    for (base, insert, offset, length, expected) in [
        (0xabcd_1234, 0x5566_7788, 0, 32, 0x5566_7788),
        (0xabcd_1234, 0x5566_7788, 0, 8, 0xabcd_1288),
        (0xabcd_1234, 0x5566_7788, 8, 8, 0xabcd_8834),
        (0xabcd_1234, 0x5566_7788, 16, 16, 0x7788_1234),
        (0xabcd_1234, 0x5566_7788, 0, 16, 0xabcd_7788),
        (0xabcd_1234, 0x5566_7788, 24, 8, 0x88cd_1234),
        (0xabcd_1234, 0x5566_7788, 28, 4, 0x8bcd_1234),
        (0, ONES, 31, 1, MIN),
        (0, ONES, 1, 31, 0xffff_fffe),
        (0, ONES, 0, 31, MAX),
        (ONES, 0, 4, 3, 0xffff_ff8f),
        // A field without bits leaves the base.
        (0xabcd_1234, ONES, 0, 0, 0xabcd_1234),
        (0xabcd_1234, ONES, 31, 0, 0xabcd_1234),
        (0xabcd_1234, ONES, 32, 0, 0xabcd_1234),
    ] {
        gives(93, &[base, insert, offset, length], expected);
    }
}

#[test]
fn fields_that_pass_the_last_bit_are_undefined() {
    for (offset, length) in [
        (33, 0),
        (32, 1),
        (31, 2),
        (1, 32),
        (0, 33),
        (33, 33),
        (0, ONES),
        (ONES, 0),
        // Sums that are small if they wrap.
        (0xffff_fff0, 0x20),
        (0x20, 0xffff_ffe0),
        (ONES, 1),
        (1, ONES),
        (MIN, MIN),
    ] {
        for base in [0, ONES] {
            undefined(91, &[base, offset, length]);
            undefined(92, &[base, offset, length]);
            undefined(93, &[base, 0, offset, length]);
        }
    }
}

// Undefined values.

/// Values of a strip: 0 word 0, 1 word 32, 2 an undefined word, 3 true, 4 an undefined truth, 5 a slot, 6 an address.
const UNDEFINED: &str =
    "01 00000000 | 01 20000000 | 2b 0000 0100 | 02 | 3c 0200 0200 | 0a 00 | 0b 0500 0000 0000 0000 |";

/// Runs the entries after those of [`UNDEFINED`]; the list has one word.
fn run_undefined(entries: &str) -> Result<State, Refusal> {
    evaluate(&bytes(&format!("{UNDEFINED} {entries} ff")), Layout::Wide, &State::default(), &[5])
}

#[test]
fn undefined_values_do_no_harm_by_themselves() {
    assert_eq!(run_undefined(""), Ok(State::default()));
    assert_eq!(run_undefined("0c 0600 | 07 00 0700").unwrap().registers[0], 5);
}

#[test]
fn undefined_values_at_stores_and_opens() {
    for entries in ["07 00 0200", "08 00 0400", "09 00 0400", "64 0400 | 65"] {
        assert_eq!(run_undefined(entries), Err(Refusal::Undefined), "{entries}");
    }
    for entries in ["07 00 0000", "08 00 0300", "09 00 0300", "64 0300 | 65"] {
        assert!(run_undefined(entries).is_ok(), "{entries}");
    }
}

#[test]
fn a_result_with_an_undefined_operand_is_undefined() {
    use oracle::format::Value::{Address, Slot, Truth, Word};
    for kind in 20..=93u8 {
        let Some(signature) = signature(kind) else { continue };
        let store = if signature.result == Some(Word) { "07 00 0700" } else { "08 00 0700" };
        let defined: Vec<u16> = signature
            .operands
            .iter()
            .map(|sort| match sort {
                Word => 0,
                Truth => 3,
                Slot => 5,
                Address => 6,
            })
            .collect();
        // All operands 0 or true: fine for every kind.
        let entry = |operands: &[u16]| format!("{kind:02x} {} | {store} |", refs(operands.iter().copied()));
        assert!(run_undefined(&entry(&defined)).is_ok(), "kind {kind}");
        for place in 0..defined.len() {
            let mut operands = defined.clone();
            operands[place] = if operands[place] == 3 { 4 } else { 2 };
            // Select does not look at the word that is not chosen.
            let expected = if kind == 90 && place == 2 { None } else { Some(Refusal::Undefined) };
            assert_eq!(run_undefined(&entry(&operands)).err(), expected, "kind {kind}, place {place}");
        }
    }
}

#[test]
fn an_undefined_operand_counts_where_the_result_would_not_depend_on_it() {
    // Value 7 is all ones, value 8 false.
    for (entry, store) in [
        ("29 0200 0200", "07 00 0900"),
        ("30 0200 0200", "07 00 0900"),
        ("2a 0200 0000", "07 00 0900"),
        ("2e 0000 0200", "07 00 0900"),
        ("2f 0200 0700", "07 00 0900"),
        ("31 0200 0000", "07 00 0900"),
        ("33 0700 0200", "07 00 0900"),
        ("2b 0000 0200", "07 00 0900"),
        ("5b 0200 0000 0000", "07 00 0900"),
        ("5d 0000 0200 0000 0000", "07 00 0900"),
        ("3c 0200 0200", "08 00 0900"),
        ("41 0200 0000", "08 00 0900"),
        ("51 0800 0400", "08 00 0900"),
        ("51 0400 0800", "09 00 0900"),
        ("52 0300 0400", "08 00 0900"),
        ("52 0400 0300", "09 00 0900"),
        ("53 0400 0400", "08 00 0900"),
    ] {
        let found = run_undefined(&format!("{} 03 | {entry} | {store} |", word(ONES)));
        assert_eq!(found, Err(Refusal::Undefined), "{entry}");
    }
}

#[test]
fn select_looks_at_the_condition_and_the_chosen_word() {
    // Value 7 is false.
    for (entries, expected) in [
        ("03 | 5a 0300 0000 0200", true),
        ("03 | 5a 0300 0200 0000", false),
        ("03 | 5a 0700 0200 0000", true),
        ("03 | 5a 0700 0000 0200", false),
        ("03 | 5a 0400 0000 0000", false),
        ("03 | 5a 0300 0200 0200", false),
    ] {
        let found = run_undefined(&format!("{entries} | 07 00 0800"));
        assert_eq!(found.err(), (!expected).then_some(Refusal::Undefined), "{entries}");
        // A result that is not stored does no harm.
        assert!(run_undefined(entries).is_ok());
    }
}

#[test]
fn undefined_values_at_addresses_come_before_bad_ones() {
    for operands in ["0200 0000 0000", "0000 0200 0000", "0000 0000 0200", "0200 0200 0200"] {
        assert_eq!(run_undefined(&format!("0b 0500 {operands}")), Err(Refusal::Undefined), "{operands}");
    }
    // Value 7 is too high for each of zero, vec and comp.
    let high = word(4096);
    for operands in ["0700 0200 0000", "0700 0000 0200", "0200 0700 0000", "0000 0700 0200", "0200 0000 0700"] {
        assert_eq!(run_undefined(&format!("{high} 0b 0500 {operands}")), Err(Refusal::Undefined), "{operands}");
    }
    // The list is too short for slot 31.
    for operands in ["0200 0000 0000", "0000 0200 0000", "0000 0000 0200"] {
        assert_eq!(run_undefined(&format!("0a 1f | 0b 0700 {operands}")), Err(Refusal::Undefined), "{operands}");
    }
}

// Constants.

/// The word at an address, read by a strip that stores it.
fn constant(slot: u8, zero: u32, vec: u32, comp: u32, list: &[u32]) -> Result<u32, Refusal> {
    let operands = [zero, vec, comp].map(word).concat();
    let strip = format!("0a {slot:02x} | {operands} 0b 0000 0100 0200 0300 | 0c 0400 | 07 00 0500 | ff");
    evaluate(&bytes(&strip), Layout::Wide, &State::default(), list).map(|state| state.registers[0])
}

/// A list whose words tell their place.
fn telling_list(len: usize) -> Vec<u32> {
    (0..len as u32).map(|place| place + 7).collect()
}

#[test]
fn places_of_constant_words() {
    let list = telling_list(ALL_WORDS);
    for (slot, vec, comp, place) in [
        (0, 0, 0, 0),
        (0, 0, 3, 3),
        (0, 1, 0, 4),
        (0, 4095, 3, 16_383),
        (1, 0, 0, 16_384),
        (2, 5, 1, 32_789),
        (31, 0, 0, 507_904),
        (31, 4095, 3, 524_287),
    ] {
        assert_eq!(constant(slot, 0, vec, comp, &list), Ok(place + 7));
        // Just long enough, one short, empty.
        let place = place as usize;
        let refusal = Err(Refusal::Constant { slot, vec, comp });
        assert_eq!(constant(slot, 0, vec, comp, &list[..place + 1]), Ok(place as u32 + 7));
        assert_eq!(constant(slot, 0, vec, comp, &list[..place]), refusal);
        assert_eq!(constant(slot, 0, vec, comp, &[]), refusal);
    }
    // Longer than any address.
    assert_eq!(constant(31, 0, 4095, 3, &telling_list(ALL_WORDS + 9)), Ok(524_294));
}

#[test]
fn addresses_out_of_range() {
    let list = telling_list(ALL_WORDS + 9);
    for (slot, zero, vec, comp) in [
        (0, 1, 0, 0),
        (0, MIN, 0, 0),
        (0, ONES, 0, 0),
        (0, 0, 4096, 0),
        (0, 0, 4097, 0),
        // The product with 4 is small if it wraps.
        (0, 0, 0x4000_0000, 0),
        (3, 0, 0x4000_0001, 2),
        (0, 0, MIN, 0),
        (31, 0, ONES, 3),
        (0, 0, 0, 4),
        (5, 0, 6, 5),
        // The sum is small if it wraps.
        (1, 0, 4095, 0xffff_fffc),
        (0, 0, 1, ONES),
        (31, 1, 4096, 4),
    ] {
        assert_eq!(constant(slot, zero, vec, comp, &list), Err(Refusal::Constant { slot, vec, comp }));
    }
}

#[test]
fn an_address_is_refused_without_a_load() {
    let strip = format!("0a 09 | {} {} 0b 0000 0200 0100 0200 | ff", word(1), word(0));
    let refusal = Err(Refusal::Constant { slot: 9, vec: 1, comp: 0 });
    assert_eq!(evaluate(&bytes(&strip), Layout::Wide, &State::default(), &telling_list(9 * 16_384 + 4)), refusal);
    assert_eq!(
        evaluate(&bytes(&strip), Layout::Wide, &State::default(), &telling_list(9 * 16_384 + 5)),
        Ok(State::default())
    );
    // A slot alone needs nothing.
    assert_eq!(run("0a 1f | ff"), Ok(State::default()));
}

#[test]
fn numbers_of_refusals() {
    assert_eq!(Refusal::Shape.number(), 7);
    assert_eq!(Refusal::Undefined.number(), 8);
    assert_eq!(Refusal::Constant { slot: 0, vec: 0, comp: 0 }.number(), 9);
}

// Runs.

/// A strip with an undefined value in register 0.
const REFUSED_8: &str = "01 20000000 | 2b 0000 0000 | 07 00 0100 | ff ";
/// A strip with an address in slot 1, which no list here has.
const REFUSED_9: &str = "0a 01 | 01 00000000 | 0b 0000 0100 0100 0100 | ff ";
const CONSTANT: Refusal = Refusal::Constant { slot: 1, vec: 0, comp: 0 };
/// A strip that adds 1 to register 0.
const COUNT: &str = "04 00 | 01 01000000 | 28 0000 0100 | 07 00 0200 | ff ";

#[test]
fn empty_runs_and_strips() {
    let state = random_state(&mut Rng::new(1));
    assert_eq!(evaluate(&[], Layout::Wide, &state, &[]), Ok(state.clone()));
    assert_eq!(evaluate(&[255], Layout::Wide, &state, &[]), Ok(state.clone()));
    assert_eq!(evaluate(&[255; 100], Layout::Wide, &state, &[]), Ok(state.clone()));
    // Notes change nothing.
    assert_eq!(evaluate(&bytes("6e 01 6e 02 6e 03 6e 04 6e 05 ff"), Layout::Wide, &state, &[]), Ok(state));
    let noted = "6e 01 | 04 00 | 6e 02 | 01 01000000 | 28 0000 0100 | 6e 03 | 07 00 0200 | 6e 04 | ff";
    assert_eq!(run(noted), run(COUNT));
}

#[test]
fn strips_run_one_after_another() {
    assert_eq!(run(COUNT).unwrap().registers[0], 1);
    assert_eq!(run(&COUNT.repeat(1000)).unwrap().registers[0], 1000);
    // The second strip loads what the first stored.
    assert_eq!(
        run(&format!("01 05000000 07 01 0000 ff {COUNT} 04 01 07 02 0000 ff")).unwrap().registers[..3],
        [1, 5, 5]
    );
}

#[test]
fn loads_see_earlier_stores_of_their_strip() {
    // Loads before and after the store of 9.
    let strip = "04 00 | 01 09000000 | 07 00 0100 | 04 00 | 07 01 0000 | 07 02 0200 | ff";
    assert_eq!(run(strip).unwrap().registers[..3], [9, 0, 9]);
    let strip = "05 00 | 02 | 08 00 0100 | 05 00 | 08 01 0000 | 08 02 0200 | ff";
    assert_eq!(run(strip).unwrap().predicates[..3], [true, false, true]);
    let strip = "06 00 | 02 | 09 00 0100 | 06 00 | 09 01 0000 | 09 02 0200 | ff";
    assert_eq!(run(strip).unwrap().flags[..3], [true, false, true]);
    // The last store stays.
    assert_eq!(run("02 | 03 | 08 00 0000 | 08 00 0100 | ff"), Ok(State::default()));
}

#[test]
fn values_start_anew_in_each_strip() {
    // The undefined value 1 of the first strip is not that of the second.
    let run_of_two = "01 20000000 | 2b 0000 0000 | ff 01 20000000 | 01 07000000 | 07 00 0100 | ff";
    assert_eq!(run(run_of_two).unwrap().registers[0], 7);
}

#[test]
fn blocks_run_or_are_skipped() {
    let strip = |truth: &str| format!("{truth} | 01 05000000 | 64 0000 | 07 00 0100 | 65 | ff {COUNT}");
    assert_eq!(run(&strip("02")).unwrap().registers[0], 6);
    assert_eq!(run(&strip("03")).unwrap().registers[0], 1);
    // What stands before the open happens always.
    assert_eq!(run("03 | 01 05000000 | 07 00 0100 | 64 0000 | 65 | ff").unwrap().registers[0], 5);
    // The truth is that of the open, though the block stores its cell.
    let strip = "05 00 | 50 0000 | 64 0100 | 08 00 0100 | 01 03000000 | 07 00 0200 | 65 | ff";
    let state = run(strip).unwrap();
    assert_eq!((state.predicates[0], state.registers[0]), (true, 3));
}

#[test]
fn a_skipped_block_meets_nothing() {
    // Values 0 the truth, 1 word 32, 2 undefined, 3 an undefined truth, 4 slot 31.
    let head = "01 20000000 | 2b 0100 0100 | 3c 0200 0200 | 0a 1f |";
    for (block, refusal) in [
        ("07 00 0200", Refusal::Undefined),
        ("08 00 0300", Refusal::Undefined),
        ("09 00 0300", Refusal::Undefined),
        ("0b 0400 0100 0200 0100", Refusal::Undefined),
        ("0b 0400 0100 0100 0100", Refusal::Constant { slot: 31, vec: 32, comp: 32 }),
        (
            "01 00000000 | 0b 0400 0500 0500 0500 | 0c 0600 | 07 00 0700",
            Refusal::Constant { slot: 31, vec: 0, comp: 0 },
        ),
        // Bytes that look like an end.
        ("01 ffffffff | 04 fe | 07 fe 0200", Refusal::Undefined),
    ] {
        assert_eq!(run(&format!("03 | {head} 64 0000 | {block} | 65 | ff")), Ok(State::default()), "{block}");
        assert_eq!(run(&format!("02 | {head} 64 0000 | {block} | 65 | ff")), Err(refusal), "{block}");
        // What stands after the strip runs.
        let state = run(&format!("03 | {head} 64 0000 | {block} | 65 | ff {COUNT}")).unwrap();
        assert_eq!(state.registers[0], 1);
    }
}

#[test]
fn the_first_refusal_met_counts() {
    assert_eq!(run(REFUSED_8), Err(Refusal::Undefined));
    assert_eq!(run(REFUSED_9), Err(CONSTANT));
    assert_eq!(run(&format!("{COUNT} {REFUSED_8} {REFUSED_9}")), Err(Refusal::Undefined));
    assert_eq!(run(&format!("{COUNT} {REFUSED_9} {REFUSED_8}")), Err(CONSTANT));
    assert_eq!(run(&format!("{} {REFUSED_8}", COUNT.repeat(100))), Err(Refusal::Undefined));
    // Within a strip.
    let undefined = "01 20000000 | 2b 0000 0000 | 0a 01 | 01 00000000 |";
    assert_eq!(run(&format!("{undefined} 07 00 0100 | 0b 0200 0300 0300 0300 | ff")), Err(Refusal::Undefined));
    assert_eq!(run(&format!("{undefined} 0b 0200 0300 0300 0300 | 07 00 0100 | ff")), Err(CONSTANT));
    // Of two bad addresses the first is named.
    let two = "0a 01 | 0a 02 | 01 00000000 | 0b 0100 0200 0200 0200 | 0b 0000 0200 0200 0200 | ff";
    assert_eq!(run(two), Err(Refusal::Constant { slot: 2, vec: 0, comp: 0 }));
}

#[test]
fn the_shape_of_the_whole_run_comes_first() {
    for bad in ["00", "ff 00", "04 ff ff", "02 64 0000 ff", "01 00", "65 ff"] {
        assert_eq!(run(bad), Err(Refusal::Shape), "{bad}");
        for good in [COUNT, REFUSED_8, REFUSED_9] {
            assert_eq!(run(&format!("{good} {bad}")), Err(Refusal::Shape), "{bad}");
        }
    }
    // A wrong shape in a block that would be skipped.
    assert_eq!(run("03 | 64 0000 | 04 ff | 65 | ff"), Err(Refusal::Shape));
}

// Rows of 01: translated strips of one instruction each. rd is R1, ra R2, rb R3, rc R4, the guard 7.

const BASE: u64 = 1 | 2 << 8 | 7 << 16 | 3 << 20;

/// R1 and the flags after the instruction, from a state with the given registers 2, 3, 4 and all predicates true.
fn row(kind: u8, form: u8, word: u64, registers: [u32; 3]) -> (u32, [bool; 4]) {
    let strip = translate(&Record { kind, form, value: 0, word }.to_bytes(), &mut [0; SLOTS]).unwrap();
    let mut state = State { predicates: [true; 7], ..State::default() };
    state.registers[2..5].copy_from_slice(&registers);
    let state = evaluate(&strip, Layout::Wide, &state, &[]).unwrap();
    (state.registers[1], state.flags)
}

#[test]
fn rows_of_01() {
    let (cc, b_negated, a_negated, saturate) = (1 << 47, 1 << 48, 1 << 49, 1 << 50);
    let negative_overflow = [false, true, false, true];
    let zero_carry = [true, false, true, false];
    assert_eq!(row(9, 0, BASE | cc, [MAX, 1, 0]), (MIN, negative_overflow));
    assert_eq!(row(9, 0, BASE | cc | saturate, [MAX, 1, 0]), (MAX, negative_overflow));
    assert_eq!(row(9, 0, BASE | cc, [ONES, 1, 0]), (0, zero_carry));
    assert_eq!(row(9, 0, BASE | cc | b_negated, [5, 5, 0]), (0, zero_carry));
    assert_eq!(row(9, 0, BASE | a_negated | b_negated, [1, 2, 0]).0, 0xffff_fffd);
    // shr, signed.
    assert_eq!(row(20, 0, BASE | 1 << 48, [MIN, 40, 0]).0, ONES);
    // shf to the right: low ra, count rb, high rc.
    assert_eq!(row(29, 0, BASE | 4 << 39, [1, 33, 3]).0, 3);
    assert_eq!(row(29, 0, BASE | 4 << 39 | 1 << 50, [1, 33, 3]).0, MIN);
    // bfe: position and length are bytes of rb.
    assert_eq!(row(21, 0, BASE, [0xabcd_1234, 8 << 8 | 28, 0]).0, 0xa);
    assert_eq!(row(21, 0, BASE, [0xabcd_1234, 8 << 8 | 32, 0]).0, 0);
    // p2r, mask 0xff, byte 1.
    assert_eq!(row(28, 2, BASE & !(3 << 20) | 0xff << 20 | 1 << 41, [ONES, 0, 0]).0, 0xffff_7fff);
    // flo, unsigned.
    assert_eq!(row(25, 0, BASE | 1 << 41, [0, 1, 0]).0, 31);
    assert_eq!(row(25, 0, BASE | 1 << 41, [0, 0, 0]).0, ONES);
    // i2i from signed byte to signed byte, absolute value, saturating. The sizes lie in ra's field.
    let signs = 1 << 12 | 1 << 13;
    assert_eq!(row(24, 0, BASE & !(0xff << 8) | signs | 1 << 49 | 1 << 50, [0, 0x80, 0]).0, 0x7f);
}

// A second definition. Words are lists of bits, entries come as such and not as bytes, and nothing is shared with the
// evaluator but the format.

/// Bits, the lowest first.
type Bits = [bool; 32];

fn bits(word: u32) -> Bits {
    std::array::from_fn(|place| word / 2u32.pow(place as u32) % 2 == 1)
}

fn number(bits: Bits) -> u32 {
    (0..32).filter(|&place| bits[place]).map(|place| 2u32.pow(place as u32)).sum()
}

fn add(a: Bits, b: Bits, mut carry: bool) -> Bits {
    std::array::from_fn(|place| {
        let ones = u8::from(a[place]) + u8::from(b[place]) + u8::from(carry);
        carry = ones >= 2;
        ones % 2 == 1
    })
}

fn each(a: Bits, b: Bits, result: fn(bool, bool) -> bool) -> Bits {
    std::array::from_fn(|place| result(a[place], b[place]))
}

fn negate(a: Bits) -> Bits {
    add(a.map(|bit| !bit), bits(0), true)
}

/// The bits moved up by a count of places, or down by a negative one. What comes in is `fill`.
fn moved(a: Bits, places: i32, fill: bool) -> Bits {
    std::array::from_fn(|place| {
        let from = place as i32 - places;
        if (0..32).contains(&from) { a[from as usize] } else { fill }
    })
}

fn less(a: Bits, b: Bits) -> bool {
    // The highest place where they differ decides.
    (0..32).rev().find(|&place| a[place] != b[place]).is_some_and(|place| b[place])
}

/// The bits with the sign turned, so that unsigned order is signed order.
fn ordered(mut a: Bits) -> Bits {
    a[31] = !a[31];
    a
}

fn highest(a: Bits, wanted: bool) -> Bits {
    (0..32).rev().find(|&place| a[place] == wanted).map_or(bits(ONES), |place| bits(place as u32))
}

/// The result of an operation on words that gives a word.
fn slow_word(kind: u8, operands: &[u32]) -> Option<u32> {
    let b: Vec<Bits> = operands.iter().map(|operand| bits(*operand)).collect();
    let count = |place: usize| Some(operands[place]).filter(|count| *count < 32).map(|count| count as i32);
    // The places of a field as a range of whole numbers.
    let field = |offset: usize| {
        let (offset, length) = (u64::from(operands[offset]), u64::from(operands[offset + 1]));
        (offset + length <= 32).then_some((offset as usize, length as usize))
    };
    let extract = |signed: bool| {
        let (offset, length) = field(1)?;
        let sign = signed && length > 0 && b[0][offset + length - 1];
        Some(std::array::from_fn(|place| if place < length { b[0][offset + place] } else { sign }))
    };
    let result = match kind {
        20 => b[0].map(|bit| !bit),
        21 => std::array::from_fn(|place| b[0][31 - place]),
        22 => bits(b[0].iter().filter(|bit| **bit).count() as u32),
        23 | 24 => b[0],
        25 if b[0][31] => negate(b[0]),
        25 => b[0],
        26 => highest(b[0], !b[0][31]),
        27 => highest(b[0], true),
        40 => add(b[0], b[1], false),
        41 => add(b[0], b[1].map(|bit| !bit), true),
        42 => (0..32)
            .filter(|&place| b[1][place])
            .fold(bits(0), |sum, place| add(sum, moved(b[0], place as i32, false), false)),
        43 => moved(b[0], count(1)?, false),
        44 => moved(b[0], -count(1)?, false),
        45 => moved(b[0], -count(1)?, b[0][31]),
        46 => each(b[0], b[1], |a, b| a && b),
        47 => each(b[0], b[1], |a, b| a || b),
        48 => each(b[0], b[1], |a, b| a != b),
        49 => b[usize::from(less(b[1], b[0]))],
        50 => b[usize::from(less(ordered(b[1]), ordered(b[0])))],
        51 => b[usize::from(less(b[0], b[1]))],
        52 => b[usize::from(less(ordered(b[0]), ordered(b[1])))],
        91 => extract(false)?,
        92 => extract(true)?,
        93 => {
            let (offset, length) = field(2)?;
            std::array::from_fn(|place| {
                if (offset..offset + length).contains(&place) { b[1][place - offset] } else { b[0][place] }
            })
        }
        _ => unreachable!("kind {kind}"),
    };
    Some(number(result))
}

/// The result of a comparison.
fn slow_truth(kind: u8, a: u32, b: u32) -> bool {
    let (mut a, mut b) = (bits(a), bits(b));
    if kind >= 66 {
        (a, b) = (ordered(a), ordered(b));
    }
    match kind {
        60 => a == b,
        61 => a != b,
        62 | 66 => less(a, b),
        63 | 67 => !less(b, a),
        64 | 68 => less(b, a),
        65 | 69 => !less(a, b),
        _ => unreachable!("kind {kind}"),
    }
}

#[derive(Clone, Copy, Debug)]
enum Slow {
    Word(Option<u32>),
    Truth(Option<bool>),
    Slot(u8),
    Address(usize),
}

impl Slow {
    fn word(self) -> Option<u32> {
        let Slow::Word(word) = self else { panic!("{self:?} is no word") };
        word
    }

    fn truth(self) -> Option<bool> {
        let Slow::Truth(truth) = self else { panic!("{self:?} is no truth") };
        truth
    }
}

/// The state after the strips, each a list of entries of the right shape, or the refusal.
fn slow_run(strips: &[Vec<Entry>], start: &State, list: &[u32]) -> Result<State, Refusal> {
    strips.iter().try_fold(start.clone(), |state, strip| slow_strip(strip, state, list))
}

fn slow_strip(strip: &[Entry], mut state: State, list: &[u32]) -> Result<State, Refusal> {
    let mut values: Vec<Slow> = Vec::new();
    for entry in strip {
        let operands: Vec<Slow> = entry.refs().iter().map(|r| values[usize::from(*r)]).collect();
        let words = || operands.iter().map(|operand| operand.word()).collect::<Option<Vec<u32>>>();
        let truths = || operands.iter().map(|operand| operand.truth()).collect::<Option<Vec<bool>>>();
        let cell = entry.immediate as usize;
        values.push(match entry.kind {
            1 => Slow::Word(Some(entry.immediate)),
            2 => Slow::Truth(Some(true)),
            3 => Slow::Truth(Some(false)),
            4 => Slow::Word(Some(state.registers[cell])),
            5 => Slow::Truth(Some(state.predicates[cell])),
            6 => Slow::Truth(Some(state.flags[cell])),
            10 => Slow::Slot(entry.immediate as u8),
            11 => {
                let Slow::Slot(slot) = operands[0] else { panic!("no slot") };
                let parts: Option<Vec<u32>> = operands[1..].iter().map(|operand| operand.word()).collect();
                let [zero, vec, comp] = parts.ok_or(Refusal::Undefined)?[..] else { panic!("not three words") };
                let place = u64::from(slot) * 16_384 + u64::from(vec) * 4 + u64::from(comp);
                if zero != 0 || vec >= 4096 || comp >= 4 || place >= list.len() as u64 {
                    return Err(Refusal::Constant { slot, vec, comp });
                }
                Slow::Address(place as usize)
            }
            12 => {
                let Slow::Address(place) = operands[0] else { panic!("no address") };
                Slow::Word(Some(list[place]))
            }
            20..=52 | 91..=93 => Slow::Word(words().and_then(|words| slow_word(entry.kind, &words))),
            60..=69 => Slow::Truth(words().map(|words| slow_truth(entry.kind, words[0], words[1]))),
            80 => Slow::Truth(truths().map(|truths| !truths[0])),
            81 => Slow::Truth(truths().map(|truths| truths[0] && truths[1])),
            82 => Slow::Truth(truths().map(|truths| truths[0] || truths[1])),
            83 => Slow::Truth(truths().map(|truths| truths[0] != truths[1])),
            90 => match operands[0].truth() {
                Some(true) => operands[1],
                Some(false) => operands[2],
                None => Slow::Word(None),
            },
            // These make no value.
            other => {
                match other {
                    7 => state.registers[cell] = operands[0].word().ok_or(Refusal::Undefined)?,
                    8 => state.predicates[cell] = operands[0].truth().ok_or(Refusal::Undefined)?,
                    9 => state.flags[cell] = operands[0].truth().ok_or(Refusal::Undefined)?,
                    100 if !operands[0].truth().ok_or(Refusal::Undefined)? => break,
                    _ => {}
                }
                continue;
            }
        });
    }
    Ok(state)
}

#[test]
fn the_two_definitions_agree_on_operations() {
    let mut rng = Rng::new(11);
    for kind in (20..=93u8).filter(|kind| signature(*kind).is_some() && !(80..=90).contains(kind)) {
        let operands = signature(kind).unwrap().operands.len();
        let mut undefined = 0;
        for round in 0..4000 {
            let mut words: Vec<u32> = (0..operands).map(|_| corner_word(&mut rng)).collect();
            // Counts, offsets and lengths near their limits.
            if round % 2 == 0 && (43..=45).contains(&kind) {
                words[1] = rng.below(34) as u32;
            }
            if round % 2 == 0 && kind > 90 {
                let offset = rng.below(35) as u32;
                words[operands - 2] = offset;
                words[operands - 1] = (33 - offset.min(33)).saturating_sub(rng.below(34) as u32);
            }
            if (60..=69).contains(&kind) {
                if round % 8 == 0 {
                    words[1] = words[0];
                }
                let select = format!("01 01000000 | 01 00000000 | {} {}", word(words[0]), word(words[1]));
                let strip = format!("{select} {kind:02x} 0200 0300 | 5a 0400 0000 0100 | 07 00 0500 | ff");
                let found = run(&strip).map(|state| state.registers[0]);
                assert_eq!(found, Ok(u32::from(slow_truth(kind, words[0], words[1]))), "kind {kind} of {words:08x?}");
            } else {
                let expected = slow_word(kind, &words);
                undefined += u32::from(expected.is_none());
                assert_eq!(words_to_word(kind, &words), expected.ok_or(Refusal::Undefined), "{kind} of {words:08x?}");
            }
        }
        let partial = matches!(kind, 43..=45 | 91..=93);
        assert!(if partial { (500..3500).contains(&undefined) } else { undefined == 0 }, "kind {kind}: {undefined}");
    }
}

#[test]
fn the_two_definitions_agree_on_every_field() {
    // Bases and inserts with every bit set and clear once.
    for (base, insert) in [(0, ONES), (ONES, 0), (0xabcd_1234, 0x5432_edcb)] {
        for offset in (0..=34).chain([MIN, ONES]) {
            for length in (0..=34).chain([MIN, ONES]) {
                for kind in [91, 92] {
                    let expected = slow_word(kind, &[base, offset, length]).ok_or(Refusal::Undefined);
                    assert_eq!(words_to_word(kind, &[base, offset, length]), expected);
                }
                let expected = slow_word(93, &[base, insert, offset, length]).ok_or(Refusal::Undefined);
                assert_eq!(words_to_word(93, &[base, insert, offset, length]), expected);
            }
        }
    }
}

/// Strips of one run: translated, made for evaluation, or of any sort.
fn random_strips(rng: &mut Rng, class: usize) -> Vec<Vec<Entry>> {
    (0..1 + rng.below(4))
        .map(|_| match class {
            0 => translate_entries(&random_admitted(rng).to_bytes(), &mut [0; SLOTS]).unwrap(),
            1 => evaluation_strip(rng),
            _ => random_strip(rng),
        })
        .collect()
}

#[test]
fn the_two_definitions_agree_on_runs() {
    let mut rng = Rng::new(12);
    let words = random_words(&mut rng);
    // Answers 0, 7, 8, 9 of each class.
    let mut answers = [[0u32; 4]; 3];
    for round in 0..60_000 {
        let class = round % 3;
        let strips = random_strips(&mut rng, class);
        let [wide, narrow] =
            Layout::ALL.map(|layout| strips.iter().flat_map(|strip| encode(strip, layout)).collect::<Vec<u8>>());
        let state = random_state(&mut rng);
        let len = random_list_len(&mut rng, &wide, Layout::Wide, &state, &words);
        let found = evaluate(&wide, Layout::Wide, &state, &words[..len]);
        assert_eq!(found, slow_run(&strips, &state, &words[..len]), "{strips:?} {len}");
        assert_eq!(found, evaluate(&narrow, Layout::Narrow, &state, &words[..len]), "{strips:?} {len}");
        answers[class][found.err().map_or(0, |refusal| refusal.number() as usize - 6)] += 1;
    }
    let [translated, made, any] = answers;
    // A translated strip is refused only for lack of a word.
    assert!(translated[0] > 10_000 && translated[1..3] == [0, 0] && translated[3] > 500, "{answers:?}");
    assert!(made[0] > 5000 && made[1] == 0 && made[2] > 1000 && made[3] > 1000, "{answers:?}");
    assert!(any[0] > 500 && any[1] == 0 && any[2] > 500 && any[3] > 500, "{answers:?}");
}

#[test]
fn evaluation_strips_use_every_kind_and_both_ways_of_a_block() {
    let mut rng = Rng::new(13);
    let mut kinds = [0u32; 256];
    let (mut ran, mut skipped, mut most) = (0, 0, 0);
    let mut cells = std::collections::HashSet::new();
    for _ in 0..20_000 {
        let mut strip = evaluation_strip(&mut rng);
        most = most.max(strip.len());
        for entry in &strip {
            kinds[usize::from(entry.kind)] += 1;
            if let Immediate::Byte(..) = signature(entry.kind).unwrap().immediate {
                cells.insert((entry.kind, entry.immediate));
            }
        }
        // The strip up to its open, with a store of the truth instead, says whether the block runs.
        if let Some(open) = strip.iter().position(|entry| entry.kind == kind::OPEN) {
            let truth = strip[open].refs()[0];
            strip.truncate(open);
            strip.push(Entry::new(kind::STORE_PREDICATE, 0, &[truth]));
            match slow_strip(&strip, random_state(&mut rng), &[0; 64]) {
                Ok(state) if state.predicates[0] => ran += 1,
                Ok(_) => skipped += 1,
                Err(_) => {}
            }
        }
    }
    for kind in 0..=255u8 {
        let times = kinds[usize::from(kind)];
        assert!(if signature(kind).is_some() { times > 500 } else { times == 0 }, "kind {kind}: {times}");
    }
    assert_eq!(most, 64);
    assert!(ran > 1000 && skipped > 1000, "{ran} {skipped}");
    for limit in [(4, 254), (5, 6), (6, 3), (7, 254), (8, 6), (9, 3), (10, 31), (110, 1), (110, 5)] {
        assert!(cells.contains(&limit), "{limit:?}");
    }
}
