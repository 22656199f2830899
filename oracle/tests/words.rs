//! The writer of #105: the words of every entry written out by hand, ids and signs, its refusals with their order and on
//! both sides of their limits, and words read by the specification beside the evaluation of their strips.
//!
//! In the hex of strips a space stands between kind, immediate and references; `|` is for the eye. An instruction is
//! written as its opcode and its operands.

use std::collections::HashMap;

use oracle::evaluate::{Refusal, State, evaluate};
use oracle::format::{Layout, encode};
use oracle::generate::random_admitted;
use oracle::rng::Rng;
use oracle::shape::shape_ok;
use oracle::starts::{random_list_len, random_state, random_words};
use oracle::strips::{damage, evaluation_strip, near_miss, random_bytes, random_strip, words_strip};
use oracle::words::{MAX_ID, MAX_WORDS, Written, table, to_spirv};
use oracle::{SLOTS, translate_entries};

/// What stands in the room before a call.
const UNUSED: u32 = 0xa5a5_a5a5;

/// The lent ids here: 100 and its place for each. New ones begin at 1000.
const U32: u32 = 100;
const I32: u32 = 101;
const BOOL: u32 = 102;
const POINTER: u32 = 103;
const GLSL: u32 = 104;
const R0: u32 = 105;
const P0: u32 = 360;
const Z: u32 = 367;
const SLOT0: u32 = 371;
const BOUND: u32 = 1000;

fn lent() -> Vec<u32> {
    (100..403).collect()
}

fn bytes(hex: &str) -> Vec<u8> {
    let digits: Vec<u8> = hex.chars().filter_map(|c| c.to_digit(16)).map(|d| d as u8).collect();
    assert!(digits.len().is_multiple_of(2), "{hex}");
    digits.chunks(2).map(|pair| pair[0] << 4 | pair[1]).collect()
}

/// The words and what is handed back, or the refusal, with a room of so many words. What must be as it was is.
#[track_caller]
fn written(strip: &[u8], bound: u32, table: &[u32], room_len: usize) -> Result<(Vec<u32>, Written), u8> {
    let mut room = vec![UNUSED; room_len];
    let answer = to_spirv(strip, bound, table, &mut room);
    let words = answer.map_or(0, |written| written.words);
    assert!(room[words..].iter().all(|word| *word == UNUSED), "{strip:02x?}: {answer:?}, {room:x?}");
    answer.map(|written| (room[..words].to_vec(), written))
}

/// The words of instructions.
fn instructions(list: &[&[u32]]) -> Vec<u32> {
    let with_len = |one: &&[u32]| [&[(one.len() as u32) << 16 | one[0]], &one[1..]].concat();
    list.iter().flat_map(with_len).collect()
}

/// The strip becomes these constants and this body, with all the rooms that there are to try.
#[track_caller]
fn becomes(hex: &str, constants: &[&[u32]], body: &[&[u32]], next: u32) {
    let strip = bytes(hex);
    let list = instructions(constants);
    let words = [&list[..], &instructions(body)].concat();
    let told = Written { words: words.len(), constants: list.len(), next };
    for more in [0, 1, 100] {
        let answer = written(&strip, BOUND, &lent(), words.len() + more);
        assert_eq!(answer, Ok((words.clone(), told)), "{hex}");
    }
    for short in (0..words.len()).rev().take(3).chain([0]).filter(|short| *short < words.len()) {
        assert_eq!(written(&strip, BOUND, &lent(), short), Err(11), "{hex} into {short}");
    }
}

/// The strip is refused with the number whatever the later refusals say.
#[track_caller]
fn refused(hex: &str, number: u8) {
    let strip = bytes(hex);
    for room_len in [0, 1, MAX_WORDS] {
        assert_eq!(written(&strip, BOUND, &lent(), room_len), Err(number), "{hex}");
        if number != 10 {
            for (bound, table) in [(0, lent()), (BOUND, vec![]), (BOUND, vec![0; 303]), (u32::MAX, vec![7; 303])] {
                assert_eq!(written(&strip, bound, &table, room_len), Err(number), "{hex}, bound {bound}");
            }
        }
    }
}

#[test]
fn a_strip_word_by_word() {
    // @P1 R2 = select(R3 < 5, 5, cast_u(sar(cast_i(R3), 5))), with the words as they are.
    let strip = bytes(
        "05 01 | 64 0000 | 04 03 | 01 05000000 | 42 0100 0200 | 17 0100 | 2d 0400 0200 | 18 0500 | 5a 0300 0200 0600 | \
         07 02 0700 | 65 | ff",
    );
    #[rustfmt::skip]
    let words = [
        0x0004_002b, 100, 1000, 5, // OpConstant
        0x0004_003d, 102, 1001, 361, // OpLoad of P1
        0x0003_00f7, 1003, 0, // OpSelectionMerge
        0x0004_00fa, 1001, 1002, 1003, // OpBranchConditional
        0x0002_00f8, 1002, // OpLabel
        0x0004_003d, 100, 1004, 108, // OpLoad of R3
        0x0005_00b1, 102, 1005, 1004, 1000, // OpSLessThan
        0x0004_007c, 101, 1006, 1004, // OpBitcast
        0x0005_00c3, 101, 1007, 1006, 1000, // OpShiftRightArithmetic
        0x0004_007c, 100, 1008, 1007, // OpBitcast
        0x0006_00a9, 100, 1009, 1005, 1000, 1008, // OpSelect
        0x0003_003e, 107, 1009, // OpStore to R2
        0x0002_00f9, 1003, // OpBranch
        0x0002_00f8, 1003, // OpLabel
    ];
    let told = Written { words: words.len(), constants: 4, next: 1010 };
    assert_eq!(written(&strip, BOUND, &lent(), words.len()), Ok((words.to_vec(), told)));
}

#[test]
fn cells_and_addresses() {
    becomes("ff", &[], &[], BOUND);
    // Notes and slots leave no word.
    becomes("6e 05 | 0a 1f | 6e 01 | 0a 00 | ff", &[], &[], BOUND);
    // Loads and stores at both ends of each sort.
    becomes(
        "04 00 | 04 fe | 05 00 | 05 06 | 06 00 | 06 03 | 07 fe 0000 | 07 00 0100 | 08 06 0200 | 08 00 0300 | \
         09 03 0400 | 09 00 0500 | ff",
        &[],
        &[
            &[61, U32, 1000, R0],
            &[61, U32, 1001, R0 + 254],
            &[61, BOOL, 1002, P0],
            &[61, BOOL, 1003, P0 + 6],
            &[61, BOOL, 1004, Z],
            &[61, BOOL, 1005, Z + 3],
            &[62, R0 + 254, 1000],
            &[62, R0, 1001],
            &[62, P0 + 6, 1002],
            &[62, P0, 1003],
            &[62, Z + 3, 1004],
            &[62, Z, 1005],
        ],
        1006,
    );
    // A constant of slot 31 by zero, vec and comp, loaded twice; slot 0 with a vec that is loaded.
    becomes(
        "0a 1f | 01 00000000 | 01 02000000 | 01 03000000 | 0b 0000 0100 0200 0300 | 0c 0400 | 0c 0400 | 07 00 0500 | \
         0a 00 | 0b 0700 0100 0600 0100 | ff",
        &[&[43, U32, 1000, 0], &[43, U32, 1001, 2], &[43, U32, 1002, 3]],
        &[
            &[65, POINTER, 1003, SLOT0 + 31, 1000, 1001, 1002],
            &[61, U32, 1004, 1003],
            &[61, U32, 1005, 1003],
            &[62, R0, 1004],
            &[65, POINTER, 1006, SLOT0, 1000, 1005, 1000],
        ],
        1007,
    );
}

#[test]
fn every_operation() {
    const WORDS: [(u32, u32); 12] = [
        (20, 200),
        (21, 204),
        (22, 205),
        (40, 128),
        (41, 130),
        (42, 132),
        (43, 196),
        (44, 194),
        (45, 195),
        (46, 199),
        (47, 197),
        (48, 198),
    ];
    // Of a signed word (2) and an unsigned one (1): the result has the sign of the first.
    let loads = "04 00 | 04 01 | 17 0000";
    let loaded: [&[u32]; 3] = [&[61, U32, 1000, R0], &[61, U32, 1001, R0 + 1], &[124, I32, 1002, 1000]];
    let with = |hex: &str, body: &[&[u32]]| {
        becomes(&format!("{loads} | {hex} | ff"), &[], &[&loaded, body].concat(), 1004);
    };
    for (kind, opcode) in WORDS {
        let operands = if kind < 40 { 1 } else { 2 };
        let refs = |list: [&str; 2]| format!("{kind:02x} {}", list[..operands].concat());
        let words = |of_type, list: [u32; 2]| [&[opcode, of_type, 1003], &list[..operands]].concat();
        with(&refs(["0100", "0200"]), &[&words(U32, [1001, 1002])]);
        with(&refs(["0200", "0100"]), &[&words(I32, [1002, 1001])]);
    }
    for (kind, number) in [(25, 5), (26, 74), (27, 75)] {
        with(&format!("{kind:02x} 0100"), &[&[12, U32, 1003, GLSL, number, 1001]]);
        with(&format!("{kind:02x} 0200"), &[&[12, I32, 1003, GLSL, number, 1002]]);
    }
    for (kind, number) in [(49, 38), (50, 39), (51, 41), (52, 42)] {
        with(&format!("{kind:02x} 0100 0200"), &[&[12, U32, 1003, GLSL, number, 1001, 1002]]);
        with(&format!("{kind:02x} 0200 0100"), &[&[12, I32, 1003, GLSL, number, 1002, 1001]]);
    }
    let tests =
        [(60, 170), (61, 171), (62, 176), (63, 178), (64, 172), (65, 174), (66, 177), (67, 179), (68, 173), (69, 175)];
    for (kind, opcode) in tests {
        with(&format!("{kind:02x} 0100 0200"), &[&[opcode, BOOL, 1003, 1001, 1002]]);
        with(&format!("{kind:02x} 0200 0100"), &[&[opcode, BOOL, 1003, 1002, 1001]]);
    }
    for (kind, opcode) in [(91, 203), (92, 202)] {
        with(&format!("{kind:02x} 0100 0200 0000"), &[&[opcode, U32, 1003, 1001, 1002, 1000]]);
        with(&format!("{kind:02x} 0200 0000 0100"), &[&[opcode, I32, 1003, 1002, 1000, 1001]]);
    }
    // An insert looks at base and insert alone.
    with("5d 0000 0100 0200 0100", &[&[201, U32, 1003, 1000, 1001, 1002, 1001]]);
    with("5d 0200 0200 0000 0100", &[&[201, I32, 1003, 1002, 1002, 1000, 1001]]);

    let truths: [&[u32]; 2] = [&[61, BOOL, 1000, P0], &[61, BOOL, 1001, Z]];
    let with = |hex: &str, body: &[&[u32]]| {
        becomes(&format!("05 00 | 06 00 | {hex} | ff"), &[], &[&truths, body].concat(), 1003);
    };
    with("50 0100", &[&[168, BOOL, 1002, 1001]]);
    for (kind, opcode) in [(81, 167), (82, 166), (83, 165)] {
        with(&format!("{kind:02x} 0000 0100"), &[&[opcode, BOOL, 1002, 1000, 1001]]);
        with(&format!("{kind:02x} 0100 0000"), &[&[opcode, BOOL, 1002, 1001, 1000]]);
    }
}

#[test]
fn constants() {
    // Each value once, in the order of first standing, used or not; a word is no truth, though its bits are 1 or 0.
    becomes(
        "01 01000000 | 03 | 01 00000000 | 02 | 01 01000000 | 03 | 02 | 01 ffffffff | 01 00000000 | 07 05 0400 | \
         07 06 0800 | 08 00 0500 | 09 01 0600 | ff",
        &[
            &[43, U32, 1000, 1],
            &[42, BOOL, 1001],
            &[43, U32, 1002, 0],
            &[41, BOOL, 1003],
            &[43, U32, 1004, 0xffff_ffff],
        ],
        &[&[62, R0 + 5, 1000], &[62, R0 + 6, 1002], &[62, P0, 1001], &[62, Z + 1, 1003]],
        1005,
    );
    // Those of the block stand in the list too, before all other ids.
    becomes(
        "04 07 | 02 | 64 0100 | 01 09000000 | 03 | 28 0000 0200 | 07 07 0400 | 02 | 65 | ff",
        &[&[41, BOOL, 1000], &[43, U32, 1001, 9], &[42, BOOL, 1002]],
        &[
            &[61, U32, 1003, R0 + 7],
            &[247, 1005, 0],
            &[250, 1000, 1004, 1005],
            &[248, 1004],
            &[128, U32, 1006, 1003, 1001],
            &[62, R0 + 7, 1006],
            &[249, 1005],
            &[248, 1005],
        ],
        1007,
    );
    // 62 of them: with the end and a note 64 entries.
    let strip: String = (0..62).map(|bits| format!("01 {bits:02x}000000")).collect();
    let list: Vec<[u32; 4]> = (0..62).map(|bits| [43, U32, 1000 + bits, bits]).collect();
    let list: Vec<&[u32]> = list.iter().map(|one| &one[..]).collect();
    becomes(&format!("{strip} 6e 01 ff"), &list, &[], 1062);
    becomes(&format!("{} 64 3c00 65 ff", "02".repeat(61)), &[&[41, BOOL, 1000]], &block_of(1000, 1001), 1003);
}

/// An empty block.
fn block_of(truth: u32, block: u32) -> Vec<&'static [u32]> {
    let merge = block + 1;
    let list: [Vec<u32>; 5] =
        [vec![247, merge, 0], vec![250, truth, block, merge], vec![248, block], vec![249, merge], vec![248, merge]];
    list.into_iter().map(|one| &*one.leak()).collect()
}

#[test]
fn blocks() {
    becomes(
        "05 06 | 64 0000 | 65 | ff",
        &[],
        &[&[&[61, BOOL, 1000, P0 + 6][..]][..], &block_of(1000, 1001)].concat(),
        1003,
    );
    // A note within leaves no word and takes no id.
    becomes("03 | 6e 02 | 64 0000 | 6e 03 | 65 | ff", &[&[42, BOOL, 1000]], &block_of(1000, 1001), 1003);
}

#[test]
fn casts() {
    // A cast to the sign that the operand has leaves no word: the value has the operand's id, and its sign.
    let load: &[u32] = &[61, U32, 1000, R0 + 1];
    becomes("04 01 | 18 0000 | 07 02 0100 | ff", &[], &[load, &[62, R0 + 2, 1000]], 1001);
    becomes("04 01 | 18 0000 | 18 0100 | 18 0200 | 14 0300 | ff", &[], &[load, &[200, U32, 1001, 1000]], 1002);
    becomes(
        "04 01 | 17 0000 | 17 0100 | 17 0200 | 14 0300 | 17 0400 | 18 0500 | 07 02 0600 | ff",
        &[],
        &[load, &[124, I32, 1001, 1000], &[200, I32, 1002, 1001], &[124, U32, 1003, 1002], &[62, R0 + 2, 1003]],
        1004,
    );
    // There and back are two bitcasts each time.
    becomes(
        "04 01 | 17 0000 | 18 0100 | 17 0200 | 17 0000 | 07 02 0200 | ff",
        &[],
        &[
            load,
            &[124, I32, 1001, 1000],
            &[124, U32, 1002, 1001],
            &[124, I32, 1003, 1002],
            &[124, I32, 1004, 1000],
            &[62, R0 + 2, 1002],
        ],
        1005,
    );
    // Constants are unsigned; a cast of one is in the body, and is no constant.
    becomes(
        "01 07000000 | 17 0000 | 18 0000 | 01 07000000 | ff",
        &[&[43, U32, 1000, 7]],
        &[&[124, I32, 1001, 1000]],
        1002,
    );
    // A word that is loaded at an address is unsigned, whatever the signs of vec and comp.
    becomes(
        "01 00000000 | 17 0000 | 0a 02 | 0b 0200 0000 0100 0100 | 0c 0300 | 18 0400 | 07 00 0500 | ff",
        &[&[43, U32, 1000, 0]],
        &[
            &[124, I32, 1001, 1000],
            &[65, POINTER, 1002, SLOT0 + 2, 1000, 1001, 1001],
            &[61, U32, 1003, 1002],
            &[62, R0, 1003],
        ],
        1004,
    );
    // The sign goes on through select, extract and insert.
    becomes(
        "04 01 | 17 0000 | 05 00 | 5a 0200 0100 0100 | 5b 0300 0000 0000 | 5d 0400 0300 0000 0000 | 18 0500 | ff",
        &[],
        &[
            load,
            &[124, I32, 1001, 1000],
            &[61, BOOL, 1002, P0],
            &[169, I32, 1003, 1002, 1001, 1001],
            &[203, I32, 1004, 1003, 1000, 1000],
            &[201, I32, 1005, 1004, 1003, 1000, 1000],
            &[124, U32, 1006, 1005],
        ],
        1007,
    );
}

#[test]
fn refusal_7_comes_first() {
    // Not exactly one strip.
    for hex in ["", "ff ff", "02 | ff | 02 | ff", "ff | 00", "ff | 02", "04 00 | 07 00 0000 | ff | ff"] {
        refused(hex, 7);
    }
    // Bad shape, also where 17 would hold, and the narrow layout.
    for hex in ["00", "02", "04 ff | ff", "04 00 | 17 0000 | 07 00 0100", "04 00 | 17 0000 | 07 00 0100 | ff | ff"] {
        refused(hex, 7);
    }
    refused("04 00 | 17 00 | ff", 7);
    refused("04 00 | 17 0000 | 07 00 0100 | 00 | ff", 7);
    refused("04 00 | 17 0000 | 07 00 0001 | ff", 7);
    // 64 entries with the end are a strip, 65 are none.
    refused(&format!("{} ff", "02".repeat(64)), 7);
    becomes(&format!("{} ff", "02".repeat(63)), &[&[41, BOOL, 1000]], &[], 1001);
}

#[test]
fn refusal_17_comes_before_the_table() {
    // Unsigned 0, signed 1, truth 2.
    let start = "04 00 | 17 0000 | 05 00";
    for one in ["5a 0200 0000 0100", "5a 0200 0100 0000", "5d 0000 0100 0000 0000", "5d 0100 0000 0100 0100"] {
        refused(&format!("{start} | {one} | ff"), 17);
        // Within a block, before a later word that is right, and not used.
        refused(&format!("{start} | 64 0200 | {one} | 18 0300 | 07 00 0400 | 65 | ff"), 17);
    }
    for one in ["07 00 0100", "14 0100 | 07 00 0300", "28 0100 0000 | 07 fe 0300", "17 0100 | 07 00 0300"] {
        refused(&format!("{start} | {one} | ff"), 17);
    }
    // The second operand does not say the sign.
    let loads: [&[u32]; 3] = [&[61, U32, 1000, R0], &[124, I32, 1001, 1000], &[61, BOOL, 1002, P0]];
    let rest: [&[u32]; 2] = [&[128, U32, 1003, 1000, 1001], &[62, R0, 1003]];
    becomes(&format!("{start} | 28 0000 0100 | 07 00 0300 | ff"), &[], &[&loads[..], &rest].concat(), 1004);
}

#[test]
fn the_zero_of_an_address() {
    // A constant 0, slot 3 and an address by the zero of that number.
    let address = |before: &str, slot: u16, zero: u16| {
        let [slot, zero] = [slot, zero].map(|r| format!("{r:02x}00"));
        format!("{before} | 0a 03 | 0b {slot} {zero} 0000 0000 | ff")
    };
    let pointer = |id, zero, of: u32| [65, POINTER, id, SLOT0 + 3, zero, of, of];
    let zeros: &[&[u32]] = &[&[43, U32, 1000, 0]];
    becomes(&address("01 00000000", 1, 0), zeros, &[&pointer(1001, 1000, 1000)], 1002);
    // A second constant 0, and casts that leave no word, have its id.
    becomes(&address("01 00000000 | 01 00000000", 2, 1), zeros, &[&pointer(1001, 1000, 1000)], 1002);
    becomes(&address("01 00000000 | 18 0000 | 18 0100", 3, 2), zeros, &[&pointer(1001, 1000, 1000)], 1002);
    // One that stands after the address is no help to a word that is loaded.
    refused("04 00 | 0a 03 | 0b 0100 0000 0000 0000 | 01 00000000 | ff", 17);
    // A 0 by another id.
    refused(&address("01 00000000 | 17 0000", 2, 1), 17);
    refused(&address("01 00000000 | 17 0000 | 18 0100", 3, 2), 17);
    refused(&address("01 00000000 | 30 0000 0000", 2, 1), 17);
    // Other constants, a truth's bits, or no constant 0 at all.
    refused(&address("01 01000000", 1, 0), 17);
    refused(&address("01 01000000 | 01 00000000", 2, 0), 17);
    refused(&address("01 00000080", 1, 0), 17);
    refused(&address("04 00", 1, 0), 17);
    refused(&address("04 00 | 03", 2, 0), 17);
    // An address that nothing loads is looked at too, and one within a block.
    refused("02 | 04 00 | 0a 00 | 64 0000 | 0b 0200 0100 0100 0100 | 65 | ff", 17);
}

/// With the table and the bound a strip that makes four ids is accepted (0), or refused with the number.
#[track_caller]
fn table_answer(bound: u32, table: &[u32], number: u8) {
    let strip = bytes("01 05000000 | 04 01 | 28 0000 0100 | 17 0200 | ff");
    let words = 4 + 4 + 5 + 4;
    for room_len in [0, words - 1] {
        let short = if number == 0 { 11 } else { number };
        assert_eq!(written(&strip, bound, table, room_len).map(|_| ()), Err(short), "bound {bound}");
    }
    let answer = written(&strip, bound, table, words).map(|(_, told)| told);
    let right = Written { words, constants: 4, next: bound.wrapping_add(4) };
    assert_eq!(answer, if number == 0 { Ok(right) } else { Err(number) }, "bound {bound}");
}

#[test]
fn the_table() {
    table_answer(BOUND, &lent(), 0);
    // Any order.
    let down: Vec<u32> = lent().into_iter().rev().collect();
    table_answer(BOUND, &down, 0);
    // Its length.
    for len in [0, 1, 302, 304, 606] {
        let other: Vec<u32> = lent().into_iter().chain(500..).take(len).collect();
        table_answer(BOUND, &other, 10);
    }
    for order in [lent(), down] {
        let with = |place: usize, id: u32| {
            let mut table = order.clone();
            table[place] = id;
            table
        };
        for place in 0..table::LEN {
            // 0, at and above the bound, above the limit.
            for (id, number) in [(0, 10), (1, 0), (999, 0), (BOUND, 10), (BOUND + 1, 10), (MAX_ID, 10), (u32::MAX, 10)]
            {
                table_answer(BOUND, &with(place, id), number);
            }
            // Each id twice: next to it, in its role and in another one.
            for other in [place + 1, place + 7, place + 100, place + 298] {
                table_answer(BOUND, &with(place, order[other % table::LEN]), 10);
            }
        }
    }
    // The bound just above the lent ids, and at the highest.
    table_answer(403, &lent(), 0);
    table_answer(402, &lent(), 10);
    table_answer(0, &lent(), 10);
    table_answer(1, &lent(), 10);
}

#[test]
fn the_limit() {
    assert_eq!(MAX_ID, 4_194_302);
    // The last of four new ids.
    table_answer(MAX_ID - 3, &lent(), 0);
    for bound in [MAX_ID - 2, MAX_ID, MAX_ID + 1, 1 << 31, u32::MAX - 4, u32::MAX - 3, u32::MAX - 1, u32::MAX] {
        table_answer(bound, &lent(), 10);
    }
    // The labels are new ids too: a truth, the block, the merge.
    let block = bytes("02 | 64 0000 | 65 | ff");
    let next = |bound| written(&block, bound, &lent(), 20).map(|(_, told)| told.next);
    assert_eq!(next(MAX_ID - 2), Ok(MAX_ID + 1));
    assert_eq!(next(MAX_ID - 1), Err(10));
    // The bound is no id: a strip that makes none takes any above the lent ids.
    for strip in [bytes("ff"), bytes("6e 01 | 0a 00 | ff")] {
        for bound in [403, MAX_ID, MAX_ID + 1, MAX_ID + 2, 1 << 31, u32::MAX] {
            let told = Written { words: 0, constants: 0, next: bound };
            assert_eq!(written(&strip, bound, &lent(), 0), Ok((vec![], told)), "bound {bound}");
        }
        for bound in [0, 1, 402] {
            assert_eq!(written(&strip, bound, &lent(), 0), Err(10), "bound {bound}");
        }
        // A lent id at the limit and above it.
        for (last, answer) in [(MAX_ID, Ok(())), (MAX_ID + 1, Err(10)), (u32::MAX - 1, Err(10))] {
            for place in 0..table::LEN {
                let mut table = lent();
                table[place] = last;
                assert_eq!(written(&strip, u32::MAX, &table, 0).map(|_| ()), answer, "{last} at {place}");
            }
        }
    }
}

#[test]
fn longest_strips() {
    // An address has as many words as any entry but the open, an insert and a minimum too.
    let addresses = "0b 0000 0100 0100 0100".repeat(61);
    let long = bytes(&format!("0a 00 | 01 00000000 | {addresses} | ff"));
    let (words, told) = written(&long, BOUND, &lent(), MAX_WORDS).unwrap();
    assert_eq!((words.len(), told.constants, told.next), (4 + 61 * 7, 4, 1062));
    let minima = "31 0000 0000".repeat(59);
    let long = bytes(&format!("04 00 | 02 | 64 0100 | {minima} | 65 | ff"));
    let (words, told) = written(&long, BOUND, &lent(), MAX_WORDS).unwrap();
    assert_eq!((words.len(), told.constants, told.next), (3 + 4 + 9 + 59 * 7 + 4, 3, 1063));
}

#[test]
fn translated_strips_are_never_refused_with_17() {
    let mut rng = Rng::new(21);
    let mut room = [UNUSED; MAX_WORDS];
    for _ in 0..200_000 {
        let record = random_admitted(&mut rng);
        let entries = translate_entries(&record.to_bytes(), &mut [0; SLOTS]).unwrap();
        let answer = to_spirv(&encode(&entries, Layout::Wide), BOUND, &lent(), &mut room);
        assert!(answer.is_ok(), "{record:?}: {answer:?}");
    }
}

#[test]
fn bytes_of_all_sorts() {
    let mut rng = Rng::new(22);
    let mut seen = [0; 18];
    for _ in 0..60_000 {
        let entries = if rng.one_in(2) { random_strip(&mut rng) } else { words_strip(&mut rng) };
        let whole = encode(&entries, Layout::Wide);
        let mut damaged = whole.clone();
        damage(&mut rng, &mut damaged);
        let twice = whole.repeat(2);
        for strip in [whole, near_miss(&mut rng, entries, Layout::Wide), damaged, random_bytes(&mut rng), twice] {
            let room = rng.below(MAX_WORDS);
            let answer = written(&strip, BOUND, &lent(), room);
            let number = answer.err().unwrap_or(0);
            assert!(number == 7 || shape_ok(&strip, Layout::Wide), "{strip:02x?}");
            seen[usize::from(number)] += 1;
        }
    }
    for number in [0, 7, 11, 17] {
        assert!(seen[number] > 1000, "{seen:?}");
    }
}

/// A value of the words by its id. `None` is undefined.
#[derive(Clone, Copy, Debug)]
enum Meaning {
    Word(Option<u32>),
    Truth(Option<bool>),
    /// The place in the list of constants, if the address is in range.
    Pointer(usize),
}

/// Words read by the specification, without their strip.
struct Reader<'a> {
    state: State,
    constants: &'a [u32],
    values: HashMap<u32, Meaning>,
    types: HashMap<u32, u32>,
}

/// Why words are not read to their end: an undefined value at a store, a branch or an address, or no constant word.
#[derive(Debug, PartialEq, Eq)]
enum Stop {
    Undefined,
    NoConstant,
}

impl Reader<'_> {
    fn word(&self, id: u32) -> Option<u32> {
        let Meaning::Word(word) = self.values[&id] else { panic!("{id} is no word") };
        word
    }

    fn truth(&self, id: u32) -> Option<bool> {
        let Meaning::Truth(truth) = self.values[&id] else { panic!("{id} is no truth") };
        truth
    }

    /// A new id, of a type that fits.
    fn define(&mut self, of_type: u32, id: u32, value: Meaning) {
        match value {
            Meaning::Word(_) => assert!(of_type == U32 || of_type == I32),
            Meaning::Truth(_) => assert_eq!(of_type, BOOL),
            Meaning::Pointer(_) => assert_eq!(of_type, POINTER),
        }
        assert!(id >= BOUND && self.values.insert(id, value).is_none() && self.types.insert(id, of_type).is_none());
    }

    fn run(&mut self, words: &[u32]) -> Result<(), Stop> {
        let mut rest = words;
        let mut skip_to = None;
        while let Some(&head) = rest.first() {
            let (one, after) = rest.split_at((head >> 16) as usize);
            rest = after;
            let (opcode, operands) = (head & 0xffff, &one[1..]);
            match (skip_to, opcode, operands) {
                (Some(label), 248, [at]) if label == *at => skip_to = None,
                (Some(_), ..) => {}
                (None, 247, [_, 0]) | (None, 248, [_]) => {}
                (None, 249, [to]) => skip_to = Some(*to),
                (None, 250, [truth, block, merge]) => {
                    skip_to = Some(if self.truth(*truth).ok_or(Stop::Undefined)? { *block } else { *merge });
                }
                (None, 62, [to, value]) => self.store(*to, *value)?,
                (None, _, [of_type, id, operands @ ..]) => {
                    let value = self.result(opcode, *of_type, operands)?;
                    self.define(*of_type, *id, value);
                }
                _ => panic!("{opcode} {operands:?}"),
            }
        }
        assert_eq!(skip_to, None);
        Ok(())
    }

    fn store(&mut self, to: u32, value: u32) -> Result<(), Stop> {
        match to {
            R0..P0 => {
                assert_eq!(self.types[&value], U32);
                self.state.registers[(to - R0) as usize] = self.word(value).ok_or(Stop::Undefined)?;
            }
            P0..Z => self.state.predicates[(to - P0) as usize] = self.truth(value).ok_or(Stop::Undefined)?,
            _ => self.state.flags[(to - Z) as usize] = self.truth(value).ok_or(Stop::Undefined)?,
        }
        Ok(())
    }

    fn result(&self, opcode: u32, of_type: u32, operands: &[u32]) -> Result<Meaning, Stop> {
        let words = || operands.iter().map(|id| self.word(*id)).collect::<Option<Vec<u32>>>();
        let unary = |f: fn(u32) -> u32| Meaning::Word(words().map(|w| f(w[0])));
        let binary = |f: fn(u32, u32) -> u32| Meaning::Word(words().map(|w| f(w[0], w[1])));
        let shift = |f: fn(u32, u32) -> Option<u32>| Meaning::Word(words().and_then(|w| f(w[0], w[1])));
        let test = |f: fn(u32, u32) -> bool| Meaning::Truth(words().map(|w| f(w[0], w[1])));
        let signed = |f: fn(&i32, &i32) -> bool| Meaning::Truth(words().map(|w| f(&(w[0] as i32), &(w[1] as i32))));
        let truths = |f: fn(bool, bool) -> bool| {
            let truths: Option<Vec<bool>> = operands.iter().map(|id| self.truth(*id)).collect();
            Meaning::Truth(truths.map(|t| f(t[0], t[t.len() - 1])))
        };
        // A field in 64 bits, so that all of a word can be one.
        let field = |offset: u32, length: u32| {
            (u64::from(offset) + u64::from(length) <= 32).then(|| ((1u64 << length) - 1) << offset)
        };
        Ok(match (opcode, operands) {
            (43, [bits]) => Meaning::Word(Some(*bits)),
            (41 | 42, []) => Meaning::Truth(Some(opcode == 41)),
            (61, [from]) => match *from {
                R0..P0 => Meaning::Word(Some(self.state.registers[(from - R0) as usize])),
                P0..Z => Meaning::Truth(Some(self.state.predicates[(from - P0) as usize])),
                Z..SLOT0 => Meaning::Truth(Some(self.state.flags[(from - Z) as usize])),
                _ => match self.values[from] {
                    Meaning::Pointer(place) => Meaning::Word(Some(self.constants[place])),
                    other => panic!("{other:?} is no pointer"),
                },
            },
            (65, [slot, indices @ ..]) => {
                let indices: Option<Vec<u32>> = indices.iter().map(|id| self.word(*id)).collect();
                let [zero, vec, comp] = indices.ok_or(Stop::Undefined)?[..] else { panic!("three indices") };
                let place = (slot - SLOT0) as usize * 16_384 + vec as usize * 4 + comp as usize;
                if zero != 0 || vec > 4095 || comp > 3 || place >= self.constants.len() {
                    return Err(Stop::NoConstant);
                }
                Meaning::Pointer(place)
            }
            (124, [from]) => {
                assert_ne!(self.types[from], of_type, "a bitcast to the same type");
                Meaning::Word(self.word(*from))
            }
            (200, _) => unary(|a| !a),
            (204, _) => unary(u32::reverse_bits),
            (205, _) => unary(u32::count_ones),
            (128, _) => binary(u32::wrapping_add),
            (130, _) => binary(u32::wrapping_sub),
            (132, _) => binary(u32::wrapping_mul),
            (196, _) => shift(u32::checked_shl),
            (194, _) => shift(u32::checked_shr),
            (195, _) => shift(|a, n| (a as i32).checked_shr(n).map(|a| a as u32)),
            (199, _) => binary(|a, b| a & b),
            (197, _) => binary(|a, b| a | b),
            (198, _) => binary(|a, b| a ^ b),
            (170, _) => test(|a, b| a == b),
            (171, _) => test(|a, b| a != b),
            (176, _) => test(|a, b| a < b),
            (178, _) => test(|a, b| a <= b),
            (172, _) => test(|a, b| a > b),
            (174, _) => test(|a, b| a >= b),
            (177, _) => signed(i32::lt),
            (179, _) => signed(i32::le),
            (173, _) => signed(i32::gt),
            (175, _) => signed(i32::ge),
            (168, _) => truths(|a, _| !a),
            (167, _) => truths(|a, b| a && b),
            (166, _) => truths(|a, b| a || b),
            (165, _) => truths(|a, b| a != b),
            (169, [truth, a, b]) => {
                assert_eq!([self.types[a], self.types[b]], [of_type; 2], "a select of one type");
                Meaning::Word(self.truth(*truth).and_then(|truth| self.word(if truth { *a } else { *b })))
            }
            (203, _) => Meaning::Word(words().and_then(|w| {
                let mask = field(w[1], w[2])?;
                Some(((u64::from(w[0]) & mask) >> w[1]) as u32)
            })),
            (202, _) => Meaning::Word(words().and_then(|w| {
                let mask = field(w[1], w[2])?;
                let bits = (u64::from(w[0]) & mask) >> w[1];
                let sign = w[2] > 0 && bits >> (w[2] - 1) & 1 == 1;
                Some(if sign { bits.wrapping_sub(1 << w[2]) as u32 } else { bits as u32 })
            })),
            (201, [base, insert, ..]) => {
                assert_eq!([self.types[base], self.types[insert]], [of_type; 2], "an insert of one type");
                Meaning::Word(words().and_then(|w| {
                    let mask = field(w[2], w[3])?;
                    Some((u64::from(w[0]) & !mask | u64::from(w[1]) << w[2] & mask) as u32)
                }))
            }
            (12, [GLSL, number, operands @ ..]) => {
                let words: Option<Vec<u32>> = operands.iter().map(|id| self.word(*id)).collect();
                let highest = |a: u32| 31u32.wrapping_sub(a.leading_zeros());
                Meaning::Word(words.map(|w| match (number, &w[..]) {
                    (5, [a]) => (*a as i32).wrapping_abs() as u32,
                    (74, [a]) => highest(if *a >> 31 == 1 { !*a } else { *a }),
                    (75, [a]) => highest(*a),
                    (38, [a, b]) => *a.min(b),
                    (39, [a, b]) => (*a as i32).min(*b as i32) as u32,
                    (41, [a, b]) => *a.max(b),
                    (42, [a, b]) => (*a as i32).max(*b as i32) as u32,
                    other => panic!("{other:?}"),
                }))
            }
            other => panic!("{other:?}"),
        })
    }
}

#[test]
fn words_mean_what_the_strip_means() {
    let mut rng = Rng::new(23);
    let words = random_words(&mut rng);
    let mut seen = [0; 10];
    for index in 0..60_000 {
        let entries = match index % 3 {
            0 => translate_entries(&random_admitted(&mut rng).to_bytes(), &mut [0; SLOTS]).unwrap(),
            1 => evaluation_strip(&mut rng),
            _ => words_strip(&mut rng),
        };
        let strip = encode(&entries, Layout::Wide);
        let Ok((list, _)) = written(&strip, BOUND, &lent(), MAX_WORDS) else { continue };
        let state = random_state(&mut rng);
        let len = random_list_len(&mut rng, &strip, Layout::Wide, &state, &words);
        let evaluated = evaluate(&strip, Layout::Wide, &state, &words[..len]);
        let (values, types) = Default::default();
        let mut reader = Reader { state, constants: &words[..len], values, types };
        let read = reader.run(&list);
        let number = match evaluated {
            Ok(end) => {
                assert_eq!((read, &reader.state), (Ok(()), &end), "{entries:?}");
                0
            }
            Err(refusal) => {
                let stop = if refusal == Refusal::Undefined { Stop::Undefined } else { Stop::NoConstant };
                assert_eq!(read, Err(stop), "{entries:?}");
                refusal.number() as usize
            }
        };
        seen[number] += 1;
    }
    assert!(seen[0] > 10_000 && seen[8] > 1000 && seen[9] > 1000, "{seen:?}");
}
