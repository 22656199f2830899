//! Strips written out by hand from 01 and from the reading of the reference, at least one for each kind.
//!
//! In the hex a space stands between kind, immediate and references; `|` and line breaks are for the eye. Unless a
//! case says otherwise, rd is R1, ra R2, rb R3, rc R4 and the guard is 7.

use oracle::print::hex;
use oracle::record::Record;
use oracle::{SLOTS, translate};

const REG: u8 = 0;
const CBUF: u8 = 1;
const IMM: u8 = 2;

/// rd 1, ra 2, guard 7.
const BASE: u64 = 1 | 2 << 8 | 7 << 16;
/// rb 3.
const RB: u64 = 3 << 20;
/// rc 4.
const RC: u64 = 4 << 39;
/// Predicate operand 7.
const PT39: u64 = 7 << 39;

fn bit(n: u32) -> u64 {
    1 << n
}

/// Translates from marks that are all 0, and gives the strip with the marks that are not 0 any more.
fn strip_and_marks(kind: u8, form: u8, value: u64, word: u64) -> (String, Vec<(usize, u32)>) {
    let mut marks = [0; SLOTS];
    let strip = translate(&Record { kind, form, value, word }.to_bytes(), &mut marks).expect("admitted");
    let raised = marks.iter().copied().enumerate().filter(|(_, mark)| *mark != 0).collect();
    (hex(&strip), raised)
}

#[track_caller]
fn gives(kind: u8, form: u8, value: u64, word: u64, expected: &str) {
    let expected: String = expected.chars().filter(char::is_ascii_hexdigit).collect();
    let (strip, marks) = strip_and_marks(kind, form, value, word);
    assert_eq!(strip, expected);
    assert_eq!(marks, [], "these cases read no constant");
}

#[track_caller]
fn gives_marked(kind: u8, form: u8, value: u64, word: u64, mark: (usize, u32), expected: &str) {
    let expected: String = expected.chars().filter(char::is_ascii_hexdigit).collect();
    let (strip, marks) = strip_and_marks(kind, form, value, word);
    assert_eq!(strip, expected);
    assert_eq!(marks, [mark]);
}

#[test]
fn mov() {
    gives(1, REG, 0, BASE | RB, "04 03 | 07 01 0000 | ff");
    gives(1, REG, 0, BASE | 255 << 20, "01 00000000 | 07 01 0000 | ff");
    gives(1, REG, 0, BASE | RB | 255, "04 03 | ff");
    // Signed numbers of 20 bits: -1 and the least one.
    gives(1, IMM, 0, BASE | 0x7ffff << 20 | bit(56), "01 ffffffff | 07 01 0000 | ff");
    gives(1, IMM, 0, BASE | bit(56), "01 0000f8ff | 07 01 0000 | ff");
    gives(1, IMM, 0, BASE | 0x7ffff << 20, "01 ffff0700 | 07 01 0000 | ff");
    // Word 4 of slot 3, that is offset 16.
    gives_marked(
        1,
        CBUF,
        0,
        BASE | 4 << 20 | 3 << 34,
        (3, 20),
        "01 10000000 | 0a 03 | 01 04000000 | 2c 0000 0200 | 01 02000000 | 2c 0000 0400 | 01 03000000 | 2e 0500 0600
         01 00000000 | 0b 0100 0800 0300 0700 | 0c 0900 | 07 01 0a00 | ff",
    );
}

#[test]
fn guards() {
    gives(1, REG, 0, (BASE | RB) & !(15 << 16), "05 00 | 64 0000 | 04 03 | 07 01 0100 | 65 | ff");
    let word = (BASE | RB) & !(15 << 16) | 10 << 16;
    gives(1, REG, 0, word, "05 02 | 50 0000 | 64 0100 | 04 03 | 07 01 0200 | 65 | ff");
    // Never: no entry, no mark, whatever the form.
    for form in [REG, CBUF, IMM] {
        for kind in 1..=30 {
            gives(kind, form, 0, BASE | bit(19), "ff");
        }
    }
    // Nothing to store, but the block stands.
    gives(2, IMM, 0, 255, "05 00 | 64 0000 | 01 00000000 | 65 | ff");
}

#[test]
fn mov32i() {
    gives(2, IMM, 0, 5 | 7 << 16 | 0x1234_5678 << 20, "01 78563412 | 07 05 0000 | ff");
    // The form does not matter, and the lane mask in bits 12 to 15 does not either.
    gives(2, CBUF, 0, 5 | 15 << 12 | 7 << 16 | 0x1234_5678 << 20, "01 78563412 | 07 05 0000 | ff");
    gives(2, IMM, 0, 255 | 7 << 16 | 0x1234_5678 << 20, "01 78563412 | ff");
}

#[test]
fn sel() {
    // The predicate comes first. P3 negated; rb is no register.
    let word = BASE | 255 << 20 | 3 << 39 | bit(42);
    gives(3, REG, 0, word, "05 03 | 50 0000 | 04 02 | 01 00000000 | 5a 0100 0200 0300 | 07 01 0400 | ff");
}

#[test]
fn csetp() {
    // P1 alone is stored. All four flags and `lt` stand, used or not.
    let flags = "06 00 | 06 01 | 06 02 | 06 03 | 53 0100 0300";
    let word = |test: u64| 15 | test << 8 | 7 << 16 | PT39;
    for (test, rest) in [
        (0, "03 | 02 | 51 0500 0600 | 50 0500 | 51 0800 0600 | 08 01 0700 | ff"),
        (9, "02 | 51 0400 0500 | 50 0400 | 51 0700 0500 | 08 01 0600 | ff"),
        (4, "52 0400 0000 | 50 0500 | 02 | 51 0600 0700 | 50 0600 | 51 0900 0700 | 08 01 0800 | ff"),
        (0x13, "50 0200 | 52 0500 0000 | 02 | 51 0600 0700 | 50 0600 | 51 0900 0700 | 08 01 0800 | ff"),
        (0x14, "50 0000 | 51 0200 0500 | 02 | 51 0600 0700 | 50 0600 | 51 0900 0700 | 08 01 0800 | ff"),
        (15, "6e 01 | 02 | 02 | 51 0500 0600 | 50 0500 | 51 0800 0600 | 08 01 0700 | ff"),
        (31, "6e 01 | 02 | 02 | 51 0500 0600 | 50 0500 | 51 0800 0600 | 08 01 0700 | ff"),
    ] {
        gives(4, REG, 0, word(test), &format!("{flags} {rest}"));
    }
    for test in 0..32 {
        let (strip, _) = strip_and_marks(4, REG, 0, word(test));
        assert_eq!(strip.contains("6e01"), matches!(test, 15 | 24..=31), "{test}");
    }
}

#[test]
fn isetp() {
    // R2 < R3 unsigned, and true; to P1, the second answer to nowhere.
    let word = 15 | 2 << 8 | 7 << 16 | RB | PT39 | 1 << 49;
    gives(
        5,
        REG,
        0,
        word,
        "04 02 | 04 03 | 02 | 3e 0000 0100 | 51 0300 0200 | 50 0300 | 51 0500 0200 | 08 01 0400 | ff",
    );
    // Both answers to P2: the second one is stored last. Signed >=, combined by code 3.
    let word = 0o22 | 2 << 8 | 7 << 16 | RB | PT39 | 6 << 49 | bit(48) | 3 << 45;
    gives(
        5,
        REG,
        0,
        word,
        "04 02 | 04 03 | 02 | 45 0000 0100 | 53 0300 0200 | 50 0300 | 53 0500 0200 | 08 02 0400 | 08 02 0600 | ff",
    );
}

#[test]
fn iset() {
    // Equal, or P0 negated, as 1.0.
    let word = BASE | RB | bit(42) | bit(44) | 1 << 45 | 2 << 49;
    gives(
        6,
        REG,
        0,
        word,
        "04 02 | 04 03 | 05 00 | 50 0200 | 3c 0000 0100 | 52 0400 0300 | 01 0000803f | 01 00000000 | 5a 0500 0600 0700
         07 01 0800 | ff",
    );
    // Never, as ones, with flags: the one false serves C and O.
    let word = BASE | RB | PT39 | bit(47);
    gives(
        6,
        REG,
        0,
        word,
        "04 02 | 04 03 | 02 | 03 | 51 0300 0200 | 01 ffffffff | 01 00000000 | 5a 0400 0500 0600
         01 00000000 | 3c 0700 0800 | 42 0700 0800 | 03 | 09 00 0900 | 09 01 0a00 | 09 02 0b00 | 09 03 0b00
         07 01 0700 | ff",
    );
}

#[test]
fn psetp_and_pset() {
    // (P1 or not P2) xor true; to P3 and P4.
    let word = 3 << 3 | 4 | 1 << 12 | 7 << 16 | 1 << 24 | 2 << 29 | bit(32) | PT39 | 2 << 45;
    gives(
        7,
        IMM,
        0,
        word,
        "05 01 | 05 02 | 50 0100 | 02 | 52 0000 0200 | 53 0400 0300 | 50 0400 | 53 0600 0300 | 08 03 0500 | 08 04 0700 | ff",
    );
    let word = 9 | 7 << 12 | 7 << 16 | 7 << 29 | PT39;
    gives(
        8,
        REG,
        0,
        word,
        "02 | 02 | 02 | 51 0000 0100 | 51 0300 0200 | 01 ffffffff | 01 00000000 | 5a 0400 0500 0600 | 07 09 0700 | ff",
    );
}

#[test]
fn iadd() {
    gives(9, REG, 0, BASE | RB, "04 02 | 04 03 | 28 0000 0100 | 07 01 0200 | ff");
    // CC: overflow before Z and S, an idle false, then the four flags, then rd.
    gives(
        9,
        REG,
        0,
        BASE | RB | bit(47),
        "04 02 | 04 03 | 28 0000 0100 | 3e 0200 0000
         01 00000000 | 30 0000 0200 | 30 0100 0200 | 2e 0500 0600 | 42 0700 0400
         01 00000000 | 3c 0200 0900 | 42 0200 0900 | 03 | 09 00 0a00 | 09 01 0b00 | 09 02 0300 | 09 03 0800
         07 01 0200 | ff",
    );
    // b negative: complement, carry 1, and the idle carry out.
    gives(
        9,
        REG,
        0,
        BASE | RB | bit(48),
        "04 02 | 04 03 | 14 0100 | 01 01000000 | 28 0000 0200 | 3e 0400 0000 | 28 0400 0300 | 3e 0600 0400 | 52 0500 0700
         07 01 0600 | ff",
    );
    // Both negative: each is negated, no carry.
    gives(
        9,
        REG,
        0,
        BASE | RB | bit(48) | bit(49),
        "04 02 | 04 03 | 01 00000000 | 29 0200 0000 | 01 00000000 | 29 0400 0100 | 28 0300 0500 | 07 01 0600 | ff",
    );
    // Extend: the carry is C.
    gives(
        9,
        REG,
        0,
        BASE | RB | bit(43),
        "04 02 | 04 03 | 06 02 | 01 01000000 | 01 00000000 | 5a 0200 0300 0400
         28 0000 0100 | 3e 0600 0000 | 28 0600 0500 | 3e 0800 0600 | 52 0700 0900 | 07 01 0800 | ff",
    );
    // Saturate.
    gives(
        9,
        REG,
        0,
        BASE | RB | bit(50),
        "04 02 | 04 03 | 28 0000 0100 | 01 00000000 | 30 0000 0200 | 30 0100 0200 | 2e 0400 0500 | 42 0600 0300
         01 00000000 | 42 0200 0800 | 01 ffffff7f | 01 00000080 | 5a 0900 0a00 0b00 | 5a 0700 0c00 0200 | 07 01 0d00 | ff",
    );
}

#[test]
fn iadd32i() {
    let word = BASE | 0xdead_beef << 20;
    gives(10, CBUF, 0, word, "04 02 | 01 efbeadde | 28 0000 0100 | 07 01 0200 | ff");
    // Bit 56 marks a: complement and carry 1.
    gives(
        10,
        IMM,
        0,
        BASE | bit(56),
        "04 02 | 01 00000000 | 14 0000 | 01 01000000 | 28 0200 0100 | 3e 0400 0200 | 28 0400 0300 | 3e 0600 0400
         52 0500 0700 | 07 01 0600 | ff",
    );
}

#[test]
fn iadd3() {
    gives(
        11,
        REG,
        0,
        BASE | RB | RC,
        "04 02 | 04 03 | 04 04 | 28 0000 0100 | 01 10000000 | 28 0300 0200 | 07 01 0500 | ff",
    );
    // The high half of a, the low half of b, c negated, the first sum shifted left.
    gives(
        11,
        REG,
        0,
        BASE | RB | RC | 2 << 35 | 1 << 33 | bit(49) | 2 << 37,
        "04 02 | 04 03 | 04 04 | 01 10000000 | 01 10000000 | 5b 0000 0300 0400 | 01 00000000 | 01 10000000 | 5b 0100 0600 0700
         01 00000000 | 29 0900 0200 | 28 0500 0800 | 01 10000000 | 2b 0b00 0c00 | 28 0d00 0a00 | 07 01 0e00 | ff",
    );
    // Under form Imm the same bits are part of the number.
    gives(
        11,
        IMM,
        0,
        BASE | 1 << 20 | RC | bit(37),
        "04 02 | 01 01000200 | 04 04 | 28 0000 0100 | 01 10000000 | 28 0300 0200 | 07 01 0500 | ff",
    );
}

#[test]
fn iscadd() {
    gives(
        12,
        REG,
        0,
        BASE | RB | 5 << 39,
        "04 02 | 04 03 | 01 05000000 | 2b 0000 0200 | 28 0300 0100 | 07 01 0400 | ff",
    );
    // a is negated before b is fetched.
    gives(
        12,
        REG,
        0,
        BASE | RB | 5 << 39 | bit(48) | bit(49),
        "04 02 | 01 00000000 | 29 0100 0000 | 04 03 | 01 00000000 | 29 0400 0300 | 01 05000000 | 2b 0200 0600
         28 0700 0500 | 07 01 0800 | ff",
    );
}

#[test]
fn xmad() {
    let start = "04 02 | 04 03 | 04 04 | 01 00000000 | 01 10000000 | 5b 0000 0300 0400 | 01 00000000 | 01 10000000
         5b 0100 0600 0700 | 2a 0500 0800";
    let word = BASE | RB | RC;
    gives(13, REG, 0, word, &format!("{start} | 01 10000000 | 28 0900 0200 | 07 01 0b00 | ff"));
    gives(13, REG, 0, word | 3 << 50, &format!("{start} | 01 10000000 | 6e 05 | 28 0900 0200 | 07 01 0b00 | ff"));
    gives(
        13,
        REG,
        0,
        word | 4 << 50,
        &format!("{start} | 01 10000000 | 2b 0100 0a00 | 28 0200 0b00 | 28 0900 0c00 | 07 01 0d00 | ff"),
    );
    // Shifted and merged: two constants of 16.
    gives(
        13,
        REG,
        0,
        word | bit(36) | bit(37),
        &format!(
            "{start} | 01 10000000 | 2b 0900 0a00 | 01 10000000 | 28 0b00 0200
             01 ffff0000 | 2e 0d00 0e00 | 2b 0100 0c00 | 2f 0f00 1000 | 07 01 1100 | ff"
        ),
    );
    // A number is never signed and never the high half; a may be both.
    gives(
        13,
        IMM,
        0,
        BASE | 0x8001 << 20 | RC | bit(48) | bit(49) | bit(53),
        "04 02 | 01 01800000 | 04 04 | 01 10000000 | 01 10000000 | 17 0000 | 5c 0500 0300 0400 | 18 0600
         01 00000000 | 01 10000000 | 5b 0100 0800 0900 | 2a 0700 0a00 | 01 10000000 | 28 0b00 0200 | 07 01 0d00 | ff",
    );
}

#[test]
fn imnmx() {
    let word = BASE | RB | PT39 | bit(48);
    gives(14, REG, 0, word, "04 02 | 04 03 | 02 | 32 0000 0100 | 34 0000 0100 | 5a 0200 0300 0400 | 07 01 0500 | ff");
    let word = BASE | RB | PT39;
    gives(14, REG, 0, word, "04 02 | 04 03 | 02 | 31 0000 0100 | 33 0000 0100 | 5a 0200 0300 0400 | 07 01 0500 | ff");
}

#[test]
fn icmp() {
    let word = BASE | RB | RC | 4 << 49;
    gives(15, REG, 0, word, "04 02 | 04 03 | 04 04 | 01 00000000 | 40 0200 0300 | 5a 0400 0000 0100 | 07 01 0500 | ff");
    // By its opcode value the constant is c.
    let word = BASE | RC | 2 << 49;
    gives_marked(
        15,
        CBUF,
        0x5340 << 48,
        word,
        (0, 4),
        "04 02 | 04 04 | 01 00000000 | 0a 00 | 01 04000000 | 2c 0200 0400 | 01 02000000 | 2c 0200 0600 | 01 03000000
         2e 0700 0800 | 01 00000000 | 0b 0300 0a00 0500 0900 | 0c 0b00 | 01 00000000 | 3c 0c00 0d00 | 5a 0e00 0000 0100
         07 01 0f00 | ff",
    );
}

#[test]
fn lop_fetches_b_before_a() {
    gives(16, REG, 0, BASE | RB | 7 << 48, "04 03 | 04 02 | 2e 0100 0000 | 07 01 0200 | ff");
    // b alone, inverted, and the predicate P0: result 0.
    gives(
        16,
        REG,
        0,
        BASE | RB | bit(40) | 3 << 41 | 2 << 44,
        "04 03 | 04 02 | 14 0000 | 01 00000000 | 3c 0200 0300 | 08 00 0400 | 07 01 0200 | ff",
    );
    // The constant 0 stands also where the predicate is always true.
    gives(
        16,
        REG,
        0,
        BASE | RB | 1 << 44 | 6 << 48,
        "04 03 | 04 02 | 2e 0100 0000 | 01 00000000 | 02 | 08 06 0400 | 07 01 0200 | ff",
    );
    gives(17, REG, 0, BASE | 0xdead_beef << 20 | 2 << 53, "01 efbeadde | 04 02 | 30 0100 0000 | 07 01 0200 | ff");
}

#[test]
fn lop3() {
    let start = "04 02 | 04 03 | 04 04 | 01 00000000 | 14 0000 | 14 0100 | 14 0200";
    let word = BASE | RB | RC;
    gives(18, REG, 0, word, &format!("{start} | 07 01 0300 | ff"));
    gives(
        18,
        REG,
        0,
        word | 0x80 << 28,
        &format!("{start} | 2e 0000 0100 | 2e 0700 0200 | 2f 0300 0800 | 07 01 0900 | ff"),
    );
    gives(
        18,
        REG,
        0,
        word | 0x42 << 28,
        &format!(
            "{start} | 2e 0400 0500 | 2e 0700 0200 | 2f 0300 0800 | 2e 0000 0100 | 2e 0a00 0600 | 2f 0900 0b00
             07 01 0c00 | ff"
        ),
    );
}

#[test]
fn shifts() {
    gives(
        19,
        REG,
        0,
        BASE | RB | bit(39),
        "04 02 | 04 03 | 01 1f000000 | 2e 0100 0200 | 2b 0000 0300 | 07 01 0400 | ff",
    );
    gives(
        19,
        REG,
        0,
        BASE | RB,
        "04 02 | 04 03 | 01 1f000000 | 2e 0100 0200 | 2b 0000 0300 | 01 20000000 | 41 0100 0500 | 01 00000000
         5a 0600 0700 0400 | 07 01 0800 | ff",
    );
    // Signed: the fill is the sign, with a second constant 31.
    gives(
        20,
        REG,
        0,
        BASE | RB | bit(48),
        "04 02 | 04 03 | 01 1f000000 | 2e 0100 0200 | 2d 0000 0300 | 01 20000000 | 41 0100 0500
         17 0000 | 01 1f000000 | 2d 0700 0800 | 18 0900 | 5a 0600 0a00 0400 | 07 01 0b00 | ff",
    );
    // Reversed after both are fetched.
    gives(
        20,
        REG,
        0,
        BASE | RB | bit(39) | bit(40),
        "04 02 | 04 03 | 15 0000 | 01 1f000000 | 2e 0100 0300 | 2c 0200 0400 | 07 01 0500 | ff",
    );
}

#[test]
fn fields() {
    gives(
        21,
        REG,
        0,
        BASE | RB | bit(48),
        "04 02 | 04 03 | 01 ff000000 | 2e 0100 0200 | 01 08000000 | 2c 0100 0400 | 2e 0500 0200 | 01 20000000
         31 0300 0700 | 29 0700 0800 | 31 0600 0900 | 17 0000 | 5c 0b00 0800 0a00 | 18 0c00 | 07 01 0d00 | ff",
    );
    // bfi inserts a into c.
    gives(
        22,
        REG,
        0,
        BASE | RB | RC,
        "04 02 | 04 03 | 04 04 | 01 ff000000 | 2e 0100 0300 | 01 08000000 | 2c 0100 0500 | 2e 0600 0300 | 01 20000000
         31 0400 0800 | 29 0800 0900 | 31 0700 0a00 | 5d 0200 0000 0900 0b00 | 07 01 0c00 | ff",
    );
}

#[test]
fn vmnmx() {
    // Minimum of signed a, whole, and the unsigned number 5; no destination part.
    let word = BASE | 5 << 20 | 6 << 36 | RC | bit(48) | 7 << 51;
    gives(
        23,
        REG,
        0,
        word,
        "04 02 | 01 05000000 | 04 04 | 01 00000000 | 32 0000 0100 | 42 0000 0300 | 5a 0500 0000 0400 | 07 01 0600 | ff",
    );
    // Maximum of two unsigned bytes (a byte 1, b byte 0), clamped to signed, merged into the high half of c.
    let word = BASE | RB | 1 << 36 | RC | bit(50) | bit(54) | bit(55) | bit(56);
    gives(
        23,
        IMM,
        0,
        word,
        "04 02 | 01 08000000 | 01 08000000 | 5b 0000 0100 0200 | 04 03 | 01 00000000 | 01 08000000 | 5b 0400 0500 0600
         04 04 | 01 00000000 | 33 0300 0700 | 01 ffffff7f | 31 0a00 0b00 | 01 10000000 | 01 10000000
         5d 0800 0c00 0d00 0e00 | 07 01 0f00 | ff",
    );
}

#[test]
fn i2i() {
    // Signed byte to signed byte, absolute, saturating.
    let word = 1 | bit(12) | bit(13) | 7 << 16 | RB | bit(49) | bit(50);
    gives(
        24,
        REG,
        0,
        word,
        "04 03 | 01 00000000 | 01 08000000 | 17 0000 | 5c 0300 0100 0200 | 18 0400 | 17 0500 | 19 0600 | 18 0700
         01 7f000000 | 01 80ffffff | 17 0800 | 17 0a00 | 34 0b00 0c00 | 17 0900 | 32 0d00 0e00 | 18 0f00
         01 00000000 | 01 08000000 | 17 1000 | 5c 1300 1100 1200 | 18 1400 | 07 01 1500 | ff",
    );
    // Whole words without a mode: a copy. The absolute value of an unsigned source is not taken.
    let word = 1 | 2 << 8 | 2 << 10 | 7 << 16 | RB | 3 << 41 | bit(49);
    gives(24, REG, 0, word, "04 03 | 07 01 0000 | ff");
    // Signed to unsigned word, saturating: the greatest number stands idle.
    let word = 1 | 2 << 8 | 2 << 10 | bit(13) | 7 << 16 | RB | bit(50);
    gives(
        24,
        REG,
        0,
        word,
        "04 03 | 01 ffffffff | 01 00000000 | 17 0000 | 17 0200 | 34 0300 0400 | 18 0500 | 07 01 0600 | ff",
    );
}

#[test]
fn flo_and_popc() {
    gives(
        25,
        REG,
        0,
        BASE | RB | bit(41),
        "04 03 | 1b 0000 | 01 1f000000 | 29 0200 0100 | 01 ffffffff | 3c 0100 0400 | 5a 0500 0400 0300 | 07 01 0600 | ff",
    );
    gives(25, REG, 0, BASE | RB | bit(40) | bit(48), "04 03 | 14 0000 | 1a 0100 | 07 01 0200 | ff");
    gives(26, REG, 0, BASE | RB | bit(40), "04 03 | 14 0000 | 16 0100 | 07 01 0200 | ff");
}

#[test]
fn r2p() {
    gives(27, IMM, 0, BASE, "04 02 | ff");
    // Bit 7 of the mask is never looked at.
    let one = "01 01000000 | 2e 0000 0100 | 01 00000000 | 3d 0200 0300 | 08 00 0400";
    gives(27, IMM, 0, BASE | 0x81 << 20, &format!("04 02 | {one} | ff"));
    // Flags: bit 3 of byte 1; bit 4 is never looked at.
    gives(
        27,
        IMM,
        0,
        BASE | 0x18 << 20 | bit(40) | 1 << 41,
        "04 02 | 01 00080000 | 2e 0000 0100 | 01 00000000 | 3d 0200 0300 | 09 03 0400 | ff",
    );
    // A mask from elsewhere: a note, the mask 0x7f, neither register nor constant read.
    for form in [REG, CBUF] {
        gives(
            27,
            form,
            0,
            BASE | RB,
            "04 02 | 6e 02
             01 01000000 | 2e 0000 0100 | 01 00000000 | 3d 0200 0300 | 08 00 0400
             01 02000000 | 2e 0000 0500 | 01 00000000 | 3d 0600 0700 | 08 01 0800
             01 04000000 | 2e 0000 0900 | 01 00000000 | 3d 0a00 0b00 | 08 02 0c00
             01 08000000 | 2e 0000 0d00 | 01 00000000 | 3d 0e00 0f00 | 08 03 1000
             01 10000000 | 2e 0000 1100 | 01 00000000 | 3d 1200 1300 | 08 04 1400
             01 20000000 | 2e 0000 1500 | 01 00000000 | 3d 1600 1700 | 08 05 1800
             01 40000000 | 2e 0000 1900 | 01 00000000 | 3d 1a00 1b00 | 08 06 1c00
             ff",
        );
    }
}

#[test]
fn p2r() {
    gives(
        28,
        IMM,
        0,
        BASE | 1 << 20 | 1 << 41,
        "04 02 | 01 fffeffff | 2e 0000 0100 | 05 00 | 01 00010000 | 01 00000000 | 5a 0300 0400 0500 | 2f 0200 0600
         07 01 0700 | ff",
    );
    // The whole mask is cleared, but bit 7 is not refilled.
    gives(28, IMM, 0, BASE | 0x80 << 20, "04 02 | 01 7fffffff | 2e 0000 0100 | 07 01 0200 | ff");
    for form in [REG, CBUF] {
        let (strip, marks) = strip_and_marks(28, form, 0, BASE | RB);
        assert!(strip.starts_with("04026e030180ffffff2e00000100"), "{strip}");
        assert_eq!(marks, []);
    }
}

#[test]
fn shf() {
    let word = BASE | RB | RC;
    gives(
        29,
        REG,
        0,
        word,
        "04 02 | 04 03 | 04 04 | 01 1f000000 | 01 20000000 | 31 0100 0400 | 29 0400 0500 | 2c 0000 0500 | 2b 0200 0600
         2f 0700 0800 | 01 00000000 | 3c 0500 0a00 | 3c 0500 0400 | 5a 0b00 0000 0900 | 5a 0c00 0200 0d00
         07 01 0e00 | ff",
    );
    // Left by the value, the count modulo 32, and a mode of 64 bits, whose note stands before the store.
    for value in [0x5bf8 << 48, 0x36f8 << 48] {
        gives(
            29,
            REG,
            value,
            word | bit(50) | 1 << 37,
            "04 02 | 04 03 | 04 04 | 01 1f000000 | 01 20000000 | 2e 0100 0300 | 29 0400 0500 | 2b 0200 0500 | 2c 0000 0600
             2f 0700 0800 | 01 00000000 | 3c 0500 0a00 | 3c 0500 0400 | 5a 0b00 0200 0900 | 5a 0c00 0000 0d00
             6e 04 | 07 01 0e00 | ff",
        );
    }
}

#[test]
fn lea() {
    let word = BASE | RB | 5 << 39;
    gives(30, REG, 0, word, "04 02 | 04 03 | 01 05000000 | 2b 0000 0200 | 28 0300 0100 | 07 01 0400 | ff");
    gives(
        30,
        REG,
        0,
        word | bit(45),
        "04 02 | 04 03 | 01 00000000 | 29 0200 0000 | 01 05000000 | 2b 0300 0400 | 28 0500 0100 | 07 01 0600 | ff",
    );
    // The high form by register, under any form of the record; bits 37 and 56 have no effect.
    for form in [REG, CBUF, IMM] {
        for bits in [0, bit(37), bit(56)] {
            gives(
                30,
                form,
                0x5bd8 << 48,
                BASE | RB | RC | bits,
                "04 02 | 04 03 | 04 04 | 01 00000000 | 01 20000000 | 2b 0200 0300 | 2c 0000 0400 | 28 0200 0100
                 07 01 0700 | ff",
            );
            gives(
                30,
                form,
                0x5bd8 << 48,
                BASE | RB | RC | 5 << 28 | bits,
                "04 02 | 04 03 | 04 04 | 01 05000000 | 01 1b000000 | 2b 0200 0300 | 2c 0000 0400 | 2f 0500 0600
                 28 0700 0100 | 07 01 0800 | ff",
            );
        }
        // The high form by constant reads it under any form.
        gives_marked(
            30,
            form,
            0x1800 << 48,
            BASE | RC | 31 << 34 | 0x3fff << 20 | 1 << 51,
            (31, 0x1_0000),
            "04 02 | 01 fcff0000 | 0a 1f | 01 04000000 | 2c 0100 0300 | 01 02000000 | 2c 0100 0500 | 01 03000000
             2e 0600 0700 | 01 00000000 | 0b 0200 0900 0400 0800 | 0c 0a00 | 04 04 | 01 01000000 | 01 1f000000
             2b 0c00 0d00 | 2c 0000 0e00 | 2f 0f00 1000 | 28 1100 0b00 | 07 01 1200 | ff",
        );
    }
    // One bit beside the value: the low form.
    gives(30, REG, 0x5bd9 << 48, word, "04 02 | 04 03 | 01 05000000 | 2b 0000 0200 | 28 0300 0100 | 07 01 0400 | ff");
}

#[test]
fn each_call_is_an_entry() {
    // Equal constants are not shared: two zeros and two of `true` in one strip.
    let word = 0xff | 255 << 8 | 7 << 16 | 255 << 20 | PT39 | 7 << 49;
    gives(5, REG, 0, word, "01 00000000 | 01 00000000 | 02 | 02 | 51 0300 0200 | 50 0300 | 51 0500 0200 | ff");
    // A slot is named once for each use, and there is no constant for its length.
    let (strip, _) = strip_and_marks(1, CBUF, 0, BASE);
    assert!(strip.starts_with("01000000000a000104000000"), "{strip}");
    assert!(!strip.contains("0100100000"));
}

#[test]
fn marks_only_rise() {
    let record = Record { kind: 1, form: CBUF, value: 0, word: BASE | 4 << 20 | 3 << 34 }.to_bytes();
    for (before, after) in [(0, 20), (19, 20), (20, 20), (21, 21), (u32::MAX, u32::MAX)] {
        let mut marks = [7; SLOTS];
        marks[3] = before;
        translate(&record, &mut marks).unwrap();
        let mut expected = [7; SLOTS];
        expected[3] = after;
        assert_eq!(marks, expected);
    }
}
