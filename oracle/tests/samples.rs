//! The works in `samples/`: the files are the records named here with the reference's answers, and the works do what
//! `samples/README.md` says of them.

use std::fs;
use std::path::Path;

use oracle::check::check;
use oracle::evaluate::{Refusal, State, evaluate};
use oracle::format::Layout;
use oracle::meaning::{self, lacking_word, meaning};
use oracle::print::print;
use oracle::record::{RECORD_LEN, Record};
use oracle::{SLOTS, translate};

const MOV: u8 = 1;
const IADD: u8 = 9;
const I2I: u8 = 24;
const P2R: u8 = 28;
const REG: u8 = 0;
const CBUF: u8 = 1;
const IMM: u8 = 2;

/// No register: it reads 0.
const RZ: u64 = 255;

/// Guards: predicate 7 always holds, negated it never does; predicate 0 negated may hold.
const PT: u64 = 7;
const NOT_PT: u64 = 15;
const NOT_P0: u64 = 8;

/// Fields of a word, by their first bit.
const RD: u32 = 0;
const RA: u32 = 8;
const GUARD: u32 = 16;
const RB: u32 = 20;
const NUMBER: u32 = 20;
/// A constant: its word and its slot.
const WORD: u32 = 20;
const SLOT: u32 = 34;
/// mov: the lanes that take part.
const LANES: u32 = 39;
/// mov of a system value: which one.
const SELECTOR: u32 = 20;
/// i2i: size codes of the result and of the source.
const TO_SIZE: u32 = 8;
const FROM_SIZE: u32 = 10;
/// p2r: flags instead of predicates, and the byte; i2i: the byte where the source begins.
const FLAGS: u32 = 40;
const BYTE: u32 = 41;
/// iadd: reads the carry; sets the flags.
const EXTEND: u32 = 43;
const CC: u32 = 47;

/// A record whose word matches its opcode, under the guard that always holds.
fn record(kind: u8, form: u8, opcode: u64, fields: &[(u32, u64)]) -> Record {
    guarded(PT, kind, form, opcode, fields)
}

fn guarded(guard: u64, kind: u8, form: u8, opcode: u64, fields: &[(u32, u64)]) -> Record {
    let value = opcode << 48;
    let word = fields.iter().fold(value | guard << GUARD, |word, (lo, field)| word | field << lo);
    Record { kind, form, value, word }
}

/// R1:R0 counts up by one.
fn count() -> Vec<Record> {
    vec![
        record(IADD, IMM, 0x3810, &[(RD, 0), (RA, 0), (NUMBER, 1), (CC, 1)]),
        record(IADD, REG, 0x5c10, &[(RD, 1), (RA, 1), (RB, RZ), (EXTEND, 1)]),
    ]
}

/// R0 = R0 + R1, and its flags into the low half of byte 1 of R2.
fn conditions() -> Vec<Record> {
    vec![
        record(IADD, REG, 0x5c10, &[(RD, 0), (RA, 0), (RB, 1), (CC, 1)]),
        record(P2R, IMM, 0x38e8, &[(RD, 2), (RA, 2), (NUMBER, 0xf), (FLAGS, 1), (BYTE, 1)]),
    ]
}

/// R0 = word 70 of slot 3, plus word 71.
fn constants() -> Vec<Record> {
    vec![
        record(MOV, CBUF, 0x4c98, &[(RD, 0), (WORD, 70), (SLOT, 3), (LANES, 0xf)]),
        record(IADD, CBUF, 0x4c10, &[(RD, 0), (RA, 0), (WORD, 71), (SLOT, 3)]),
    ]
}

/// Two dead words, and the same words under guards that may run.
fn padding() -> Vec<Record> {
    // The lane, to R0; the half of R1 that begins at byte 3, as a word to R1.
    let mov = |guard: u64| guarded(guard, MOV, REG, 0xf0c8, &[(RD, 0), (SELECTOR, 0)]);
    let i2i =
        |guard: u64| guarded(guard, I2I, REG, 0x5ce0, &[(RD, 1), (TO_SIZE, 2), (FROM_SIZE, 1), (RB, 1), (BYTE, 3)]);
    vec![mov(NOT_PT), i2i(NOT_PT), mov(PT), i2i(NOT_P0)]
}

fn bytes(records: &[Record]) -> Vec<u8> {
    records.iter().flat_map(Record::to_bytes).collect()
}

fn run(records: &[Record]) -> Vec<u8> {
    let mut marks = [0; SLOTS];
    records.iter().flat_map(|record| translate(&record.to_bytes(), &mut marks).expect("admitted")).collect()
}

fn printed(records: &[u8]) -> String {
    let mut text = Vec::new();
    print(records, &mut text, false).expect("reading and writing bytes");
    String::from_utf8(text).expect("text")
}

#[test]
fn the_files_hold_the_named_records_and_the_answers_of_the_reference() {
    assert_eq!(include_bytes!("../../samples/count.bin")[..], bytes(&count()));
    assert_eq!(include_str!("../../samples/count.txt"), printed(&bytes(&count())));
    assert_eq!(include_bytes!("../../samples/conditions.bin")[..], bytes(&conditions()));
    assert_eq!(include_str!("../../samples/conditions.txt"), printed(&bytes(&conditions())));
    assert_eq!(include_bytes!("../../samples/constants.bin")[..], bytes(&constants()));
    assert_eq!(include_str!("../../samples/constants.txt"), printed(&bytes(&constants())));
    assert_eq!(include_bytes!("../../samples/padding.bin")[..], bytes(&padding()));
    assert_eq!(include_str!("../../samples/padding.txt"), printed(&bytes(&padding())));
    let example = include_bytes!("../../samples/two_records.bin");
    assert_eq!(include_str!("../../samples/two_records.txt"), printed(example));
}

/// The input of the program `crates/check_run` is the run of all samples, in the order of their names, refused records
/// left out; its line has the number of strips.
#[test]
fn the_checker_is_given_the_run_of_all_samples() {
    let samples: [&[u8]; 5] = [
        include_bytes!("../../samples/conditions.bin"),
        include_bytes!("../../samples/constants.bin"),
        include_bytes!("../../samples/count.bin"),
        include_bytes!("../../samples/padding.bin"),
        include_bytes!("../../samples/two_records.bin"),
    ];
    let mut marks = [0; SLOTS];
    let strips: Vec<Vec<u8>> = samples
        .iter()
        .flat_map(|records| records.chunks(RECORD_LEN))
        .filter_map(|record| translate(record, &mut marks).ok())
        .collect();
    assert_eq!(include_bytes!("../../crates/check_run/stdin")[..], strips.concat());
    let mut line = Vec::new();
    check(&strips.concat()[..], &mut line, Layout::Wide).expect("reading and writing bytes");
    assert_eq!(include_str!("../../crates/check_run/stdout").as_bytes(), line);
    assert_eq!(line, format!("well-formed, {} strips\n", strips.len()).as_bytes());
    let answer = format!("\nThe answer is `well-formed, {} strips`", strips.len());
    assert!(include_str!("../../README.md").contains(&answer), "{answer}");
    // Every sample is among them.
    let dir = Path::new(env!("CARGO_MANIFEST_DIR")).join("../samples");
    let files = fs::read_dir(dir).expect("the samples").map(|file| file.expect("a file").path());
    assert_eq!(files.filter(|path| path.extension().is_some_and(|end| end == "bin")).count(), samples.len());
}

#[test]
fn the_readme_shows_what_is_printed_of_both_works_and_the_padding() {
    let readme = include_str!("../../README.md");
    for records in [count(), conditions(), padding()] {
        let shown: String = printed(&bytes(&records)).lines().map(|line| format!("    {line}\n")).collect();
        assert!(readme.contains(&format!("\n\n{shown}\n")), "{shown}");
    }
}

#[test]
fn the_count_passes_32_bits_on_the_right_step() {
    let run = run(&count());
    // The carry that the low part leaves is the one that counts, whatever the flag was before.
    for carry in [false, true] {
        for start in [0, 0xffff_fffd, 0xffff_ffff_ffff_fffe, 0x1234_5678_ffff_fffe_u64] {
            let mut state = State { flags: [true, true, carry, true], ..State::default() };
            state.registers[0] = start as u32;
            state.registers[1] = (start >> 32) as u32;
            for step in 1..=4 {
                state = evaluate(&run, Layout::Wide, &state, &[]).expect("no constant is read");
                let high = u64::from(state.registers[1]);
                let low = u64::from(state.registers[0]);
                assert_eq!(high << 32 | low, start.wrapping_add(step), "{start:x} step {step}");
            }
        }
    }
}

#[test]
fn the_number_beside_the_conditions_survives() {
    let run = run(&conditions());
    // a, b, and Z, S, C, O of a + b as bits 0 to 3.
    let sums = [
        (1, 2, 0b0000),
        (0, 0, 0b0001),
        (0xffff_fff0, 1, 0b0010),
        (0xffff_ffff, 1, 0b0101),
        (0x7fff_ffff, 1, 0b1010),
        (0x8000_0000, 0x8000_0000, 0b1101),
        (0xffff_ffff, 0xffff_ffff, 0b0110),
        (0x8000_0000, 0xffff_ffff, 0b1100),
    ];
    for (a, b, flags) in sums {
        // Before: any bits in the low half, the number 0 to 15 in the high half of byte 1, and other bytes.
        for before in [0, 0xf] {
            for number in 0..16 {
                let mut state = State { predicates: [true; 7], ..State::default() };
                state.registers[0] = a;
                state.registers[1] = b;
                state.registers[2] = 0xabcd_00ef | number << 12 | before << 8;
                let state = evaluate(&run, Layout::Wide, &state, &[]).expect("no constant is read");
                assert_eq!(state.registers[2], 0xabcd_00ef | number << 12 | flags << 8, "{a:x} + {b:x}");
                assert_eq!(state.registers[0], a.wrapping_add(b));
            }
        }
    }
}

#[test]
fn the_first_constant_that_is_not_lent_is_named() {
    let run = run(&constants());
    let first = 3 * 16_384 + 70;
    let mut words = vec![0; first + 2];
    words[first] = 40;
    words[first + 1] = 2;
    let evaluated =
        |len: usize| evaluate(&run, Layout::Wide, &State::default(), &words[..len]).map(|state| state.registers[0]);
    assert_eq!(evaluated(0), Err(Refusal::Constant { slot: 3, vec: 17, comp: 2 }));
    assert_eq!(evaluated(first), Err(Refusal::Constant { slot: 3, vec: 17, comp: 2 }));
    assert_eq!(evaluated(first + 1), Err(Refusal::Constant { slot: 3, vec: 17, comp: 3 }));
    assert_eq!(evaluated(first + 2), Ok(42));
}

#[test]
fn the_padding_changes_nothing_and_needs_no_constant() {
    let padding = padding();
    let answers: Vec<Option<u8>> = padding.iter().map(|record| record.admit().err()).collect();
    assert_eq!(answers, [None, None, Some(4), Some(5)]);
    let dead = &padding[..2];
    assert!(dead.iter().all(Record::never_runs) && !padding[2..].iter().any(Record::never_runs));
    let run = run(dead);
    assert_eq!(run, [0xff, 0xff]);
    // With every predicate false, and with every one true.
    for truth in [false, true] {
        let registers = std::array::from_fn(|at| 0x9e37_79b9_u32.wrapping_mul(at as u32 + 1));
        let (predicates, flags) = ([truth; 7], [truth, !truth, !truth, truth]);
        let state = State { registers, predicates, flags };
        assert_eq!(evaluate(&run, Layout::Wide, &state, &[]), Ok(state));
        let state = meaning::State { registers, predicates, flags };
        for record in dead {
            assert_eq!(lacking_word(record, &state, &[]), None);
            assert_eq!(meaning(record, &state, &[]), state);
        }
    }
}
