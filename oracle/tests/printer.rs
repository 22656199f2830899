//! The strip printer, through the code that the program runs.

use oracle::print::print;
use oracle::record::Record;

fn printed(input: &[u8], marks: bool) -> String {
    let mut output = Vec::new();
    print(input, &mut output, marks).expect("reading and writing bytes");
    String::from_utf8(output).expect("text")
}

fn record(kind: u8, form: u8, value: u64, word: u64) -> Vec<u8> {
    Record { kind, form, value, word }.to_bytes().to_vec()
}

/// Guards: predicate 7, predicate 0 negated (bit 19 alone), predicate 7 negated.
const ALWAYS: u64 = 0x7_0000;
const P0_NEGATED: u64 = 0x8_0000;
const NEVER: u64 = 0xf_0000;

/// 01's example, as its bytes stand there.
const EXAMPLE: [u8; 36] = [
    0x02, 0x02, 0, 0, 0, 0, 0, 0, 0, 0, 0x05, 0x00, 0x87, 0x67, 0x45, 0x23, 0x01, 0x00, //
    0x02, 0x02, 0, 0, 0, 0, 0, 0, 0, 0, 0x05, 0x00, 0x8f, 0x67, 0x45, 0x23, 0x01, 0x00,
];

#[test]
fn the_example_of_01() {
    assert_eq!(printed(&EXAMPLE, false), "0 017856341207050000ff\n1 ff\n");
}

#[test]
fn empty_input_prints_nothing() {
    assert_eq!(printed(&[], false), "");
    assert_eq!(printed(&[], true), "");
}

#[test]
fn a_cut_record_is_refused_1() {
    let dead = record(1, 0, 0xf0c8 << 48, NEVER);
    for len in 1..18 {
        assert_eq!(printed(&EXAMPLE[..len], false), "0 refused 1\n");
        assert_eq!(printed(&EXAMPLE[..18 + len], false), "0 017856341207050000ff\n1 refused 1\n");
        assert_eq!(printed(&dead[..len], false), "0 refused 1\n");
    }
}

#[test]
fn refusal_2_stops() {
    for kind in [0, 31, 255] {
        for guard in [0, NEVER] {
            let mut input = EXAMPLE.to_vec();
            input.extend(record(kind, 9, 0, guard));
            input.extend(EXAMPLE);
            assert_eq!(printed(&input, false), "0 017856341207050000ff\n1 ff\n2 refused 2\n");
        }
    }
}

#[test]
fn refusals_3_to_5_go_on() {
    let mut input = record(1, 3, 0, NEVER);
    input.extend(record(1, 0, 0xf0c8 << 48, ALWAYS));
    input.extend(record(24, 0, 0, 1 << 10 | 3 << 41));
    input.extend(EXAMPLE);
    assert_eq!(printed(&input, false), "0 refused 3\n1 refused 4\n2 refused 5\n3 017856341207050000ff\n4 ff\n");
}

#[test]
fn dead_words_are_the_end_alone() {
    // mov of a system value and i2i of a half from byte 3 on, each under three guards.
    let mut input = Vec::new();
    for guard in [NEVER, ALWAYS, P0_NEGATED] {
        input.extend(record(1, 0, 0xf0c8 << 48, guard));
        input.extend(record(24, 0, 0, guard | 1 << 10 | 3 << 41));
    }
    assert_eq!(printed(&input, false), "0 ff\n1 ff\n2 refused 4\n3 refused 5\n4 refused 4\n5 refused 5\n");
}

/// A reader that hands out one byte at a time, as a slow pipe may.
struct Trickle<'a>(&'a [u8]);

impl std::io::Read for Trickle<'_> {
    fn read(&mut self, buffer: &mut [u8]) -> std::io::Result<usize> {
        match (self.0.split_first(), buffer.first_mut()) {
            (Some((byte, rest)), Some(to)) => {
                *to = *byte;
                self.0 = rest;
                Ok(1)
            }
            _ => Ok(0),
        }
    }
}

#[test]
fn short_reads_do_not_cut_records() {
    let mut output = Vec::new();
    print(Trickle(&EXAMPLE), &mut output, false).expect("reading and writing bytes");
    assert_eq!(output, b"0 017856341207050000ff\n1 ff\n");
}

#[test]
fn marks_are_carried_and_shown() {
    // mov R1, c[3][0x10]; the same with offset 4; mov R1, c[31][0xfffc]; a refusal; three dead words.
    let from = |slot: u64, word: u64| 1 | ALWAYS | word << 20 | slot << 34;
    let mut input = record(2, 2, 0, 7 << 16);
    input.extend(record(1, 1, 0, from(3, 4)));
    input.extend(record(1, 1, 0, from(3, 1)));
    input.extend(record(1, 1, 0, from(31, 0x3fff)));
    input.extend(record(1, 1, 0xf0c8 << 48, from(5, 9)));
    input.extend(record(1, 1, 0, from(5, 9) | NEVER));
    input.extend(record(1, 1, 0xf0c8 << 48, from(5, 9) | NEVER));
    input.extend(record(24, 1, 0, from(5, 9) | NEVER | 1 << 10 | 3 << 41));
    let printed = printed(&input, true);
    let columns: Vec<&str> = printed.lines().map(|line| line.rsplit(' ').next().unwrap()).collect();
    assert_eq!(columns[..3], ["-", "3:20", "3:20"]);
    assert_eq!(columns[3..], ["3:20,31:65536"; 5]);
    assert!(printed.lines().skip(5).all(|line| line.contains(" ff ")));
}
