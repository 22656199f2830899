//! The stored list of records with their answers, for a program that replays it without the reference.
//!
//! How it is made, in this order, each record once:
//! 1. For each kind: guards of every sort, registers that are no cells, every telling opcode value (the forms taken in
//!    turn; all forms for the kinds that look at the value).
//! 2. For each kind, starting from a plain word: each of the 64 bits flipped alone under form 0, and the bits 35 to 56
//!    under form 1 or 2 in turn. For the kinds that look at the value also the bits 28 to 56 with each such value.
//! 3. For each kind, starting from a word of ones: each bit from 43 to 56 cleared alone, the forms taken in turn.
//! 4. Corners, kind by kind: all codes of a field, all pairs of mode bits that act together, limits of cells, slots,
//!    offsets and signed numbers, equal predicates, empty masks.
//! 5. The refusals 2 to 5, pairs of causes, and records that just miss a cause. What 4 and 5 speak of stands there under
//!    every guard; under predicate 7 negated it is admitted.
//! 6. Dead words of every kind, with what 4 and 5 look at, and with constants, of which they raise no mark.
//! 7. Random admitted records, the same number for each kind, from a fixed seed.
//!
//! The answers are the reference's own, from marks that are all 0.

use std::collections::HashSet;

use crate::format::{Layout, encode};
use crate::generate::{TELLING_VALUES, random_admitted, with_field};
use crate::record::{I2I, MOV, MOV_SYSTEM_VALUE, NAMES, Record};
use crate::rng::Rng;
use crate::{SLOTS, translate_entries};

const REG: u8 = 0;
const CBUF: u8 = 1;
const IMM: u8 = 2;

const MOV32I: u8 = 2;
const SEL: u8 = 3;
const CSETP: u8 = 4;
const ISETP: u8 = 5;
const ISET: u8 = 6;
const PSETP: u8 = 7;
const PSET: u8 = 8;
const IADD: u8 = 9;
const IADD32I: u8 = 10;
const IADD3: u8 = 11;
const ISCADD: u8 = 12;
const XMAD: u8 = 13;
const IMNMX: u8 = 14;
const ICMP: u8 = 15;
const LOP: u8 = 16;
const LOP32I: u8 = 17;
const LOP3: u8 = 18;
const SHL: u8 = 19;
const SHR: u8 = 20;
const BFE: u8 = 21;
const BFI: u8 = 22;
const VMNMX: u8 = 23;
const FLO: u8 = 25;
const POPC: u8 = 26;
const R2P: u8 = 27;
const P2R: u8 = 28;
const SHF: u8 = 29;
const LEA: u8 = 30;

/// Random records for each kind.
const RANDOM_PER_KIND: usize = 8;
const SEED: u64 = 2021;

/// The bytes of the stored list. For each record: the record (18 bytes), the slot whose mark it raises or 255 (1), that
/// mark or 0 (4), the refusal number or 0 (1), the strip's length (2), the strip. Numbers are little-endian.
pub fn stored_list() -> Vec<u8> {
    let mut out = Vec::new();
    for record in records() {
        write_answer(&mut out, &record);
    }
    out
}

fn write_answer(out: &mut Vec<u8>, record: &Record) {
    let bytes = record.to_bytes();
    let mut marks = [0; SLOTS];
    let (refusal, strip) = match translate_entries(&bytes, &mut marks) {
        Ok(entries) => (0, encode(&entries, Layout::Wide)),
        Err(number) => (number, Vec::new()),
    };
    let raised: Vec<usize> = (0..SLOTS).filter(|&slot| marks[slot] != 0).collect();
    let (slot, mark) = match raised[..] {
        [] => (255, 0),
        [slot] => (slot as u8, marks[slot]),
        _ => panic!("a record raises more than one mark: {record:?}"),
    };
    let length = u16::try_from(strip.len()).expect("strips are short");
    out.extend(bytes);
    out.push(slot);
    out.extend(mark.to_le_bytes());
    out.push(refusal);
    out.extend(length.to_le_bytes());
    out.extend(strip);
}

/// The records of the stored list, each once.
pub fn records() -> Vec<Record> {
    let mut list = List::default();
    guards_and_values(&mut list);
    single_bits(&mut list);
    corners(&mut list);
    refusals(&mut list);
    dead_words(&mut list);
    random(&mut list);
    list.records
}

#[derive(Default)]
struct List {
    records: Vec<Record>,
    known: HashSet<Record>,
}

impl List {
    fn add(&mut self, kind: u8, form: u8, value: u64, word: u64) {
        let record = Record { kind, form, value, word };
        if self.known.insert(record) {
            self.records.push(record);
        }
    }

    /// All fillings of the bits, together, under each of the forms.
    fn bits(&mut self, kind: u8, forms: &[u8], value: u64, base: u64, bits: &[u32]) {
        for filling in 0..1u64 << bits.len() {
            let word = bits.iter().enumerate().fold(base, |word, (k, &bit)| with_field(word, bit, 1, filling >> k & 1));
            for &form in forms {
                self.add(kind, form, value, word);
            }
        }
    }

    /// All codes of each field alone, under each of the forms.
    fn codes(&mut self, kind: u8, forms: &[u8], value: u64, base: u64, fields: &[(u32, u32)]) {
        for &(lo, len) in fields {
            for code in 0..1 << len {
                for &form in forms {
                    self.add(kind, form, value, with_field(base, lo, len, code));
                }
            }
        }
    }
}

/// rd 1, ra 2, rb 3, guard 7, no mode bits. As a constant it names slot 0, offset 12; as a number it is 3.
const PLAIN: u64 = 1 | 2 << 8 | 7 << 16 | 3 << 20;
/// The same for i2i: from 16 bits at byte 3.
const HALF_AT_BYTE_3: u64 = PLAIN & !0xff00 | 1 << 10 | 3 << 41;

fn kinds() -> std::ops::RangeInclusive<u8> {
    1..=NAMES.len() as u8
}

fn guard(word: u64, guard: u64) -> u64 {
    with_field(word, 16, 4, guard)
}

/// The telling values that the kind itself looks at.
fn own_values(kind: u8) -> &'static [u64] {
    match kind {
        XMAD => &[0x5100 << 48],
        ICMP => &[0x5340 << 48],
        BFI => &[0x53f0 << 48],
        SHF => &[0x5bf8 << 48, 0x36f8 << 48],
        LEA => &[0x5bd8 << 48, 0x1800 << 48],
        _ => &[],
    }
}

fn guards_and_values(list: &mut List) {
    for kind in kinds() {
        for g in [7, 15, 0, 8, 6, 14] {
            list.add(kind, REG, 0, guard(PLAIN, g));
        }
        for form in [CBUF, IMM] {
            for g in [7, 15, 8] {
                list.add(kind, form, 0, guard(PLAIN, g));
            }
        }
        for lo in [0, 8, 20, 39] {
            list.add(kind, REG, 0, PLAIN | 0xff << lo);
        }
        list.add(kind, CBUF, 0, PLAIN | 0xff);
        for (turn, value) in TELLING_VALUES.into_iter().enumerate() {
            list.add(kind, (turn + usize::from(kind)) as u8 % 3, value, PLAIN);
        }
        for &value in own_values(kind) {
            for form in [REG, CBUF, IMM] {
                list.add(kind, form, value, PLAIN);
                list.add(kind, form, value, guard(PLAIN, 15));
                list.add(kind, form, value, guard(PLAIN, 10));
                list.add(kind, form, value ^ 1 << 48, PLAIN);
            }
        }
    }
    for g in 0..16 {
        list.add(MOV, REG, 0, guard(PLAIN, g));
    }
}

fn single_bits(list: &mut List) {
    for kind in kinds() {
        for bit in 0..64 {
            list.add(kind, REG, 0, PLAIN ^ 1 << bit);
        }
        for bit in 35..=56 {
            let form = if (bit + u32::from(kind)).is_multiple_of(2) { CBUF } else { IMM };
            list.add(kind, form, 0, PLAIN ^ 1 << bit);
        }
        for &value in own_values(kind) {
            for bit in 28..=56 {
                list.add(kind, CBUF, value, PLAIN ^ 1 << bit);
            }
        }
        // Registers that are no cells would hide the rest, so rd, ra and rb stay as they are.
        let ones = PLAIN | !0 << 28;
        for bit in 43..=56 {
            list.add(kind, (bit + kind) % 3, 0, ones ^ 1 << bit);
        }
    }
}

fn corners(list: &mut List) {
    const ALL: [u8; 3] = [REG, CBUF, IMM];
    // Limits of the source fields: slots, offsets, signed numbers, registers.
    for slot in [0, 1, 30, 31] {
        for offset in [0, 1, 3, 4, 0x3ffe, 0x3fff] {
            list.add(MOV, CBUF, 0, with_field(with_field(PLAIN, 34, 5, slot), 20, 14, offset));
        }
    }
    for low in [0, 1, 0x3ffff, 0x40000, 0x7ffff] {
        for sign in [0, 1] {
            list.add(MOV, IMM, 0, with_field(with_field(PLAIN, 20, 19, low), 56, 1, sign));
        }
    }
    for register in [0, 127, 128, 254, 255] {
        list.add(MOV, REG, 0, with_field(PLAIN, 20, 8, register));
        list.add(MOV, REG, 0, with_field(PLAIN, 0, 8, register));
    }
    for number in [0, 1, 0x7fff_ffff, 0x8000_0000, 0xffff_ffff, 0x1234_5678] {
        for rd in [5, 255] {
            list.add(MOV32I, IMM, 0, with_field(with_field(PLAIN, 20, 32, number), 0, 8, rd));
        }
        list.add(IADD32I, IMM, 0, with_field(PLAIN, 20, 32, number));
        list.add(LOP32I, IMM, 0, with_field(PLAIN, 20, 32, number));
    }
    // Predicate operand and its inversion.
    for kind in [SEL, IMNMX, ISETP, CSETP, PSETP, PSET, ISET] {
        for predicate in [0, 6, 7, 8, 14, 15] {
            list.add(kind, REG, 0, with_field(PLAIN, 39, 4, predicate));
        }
    }
    for first in 0..16 {
        for second in [7, 10] {
            let word = with_field(with_field(PLAIN, 12, 4, first), 29, 4, second);
            list.add(PSETP, REG, 0, word);
            list.add(PSET, REG, 0, word);
        }
    }
    // Both answers: every pair of destinations from 0, 6 and 7, among them equal ones.
    for kind in [ISETP, CSETP, PSETP] {
        for first in [0, 6, 7] {
            for second in [0, 6, 7] {
                list.add(kind, REG, 0, with_field(with_field(PLAIN, 3, 3, first), 0, 3, second));
            }
        }
    }
    // Comparisons, combinations, condition tests.
    for test in 0..8 {
        for signed in 0..2 {
            let word = with_field(with_field(PLAIN, 49, 3, test), 48, 1, signed);
            list.codes(ISETP, &[REG], 0, word, &[(45, 2)]);
            list.add(ISET, REG, 0, with_field(word, 45, 2, test & 3));
        }
    }
    list.bits(ISET, &ALL, 0, PLAIN, &[44, 47]);
    list.bits(PSET, &[REG], 0, PLAIN, &[44, 47]);
    for test in 0..32 {
        list.add(CSETP, REG, 0, with_field(PLAIN, 8, 5, test));
        list.add(CSETP, IMM, 0, with_field(guard(PLAIN, 1), 8, 5, test));
    }
    for kind in [PSETP, PSET] {
        for inner in 0..4 {
            for outer in 0..4 {
                list.add(kind, REG, 0, with_field(with_field(PLAIN, 24, 2, inner), 45, 2, outer));
            }
        }
    }
    list.codes(CSETP, &[REG], 0, PLAIN, &[(45, 2)]);
    for value in [0, 0x5340 << 48] {
        for test in 0..8 {
            let word = with_field(PLAIN, 49, 3, test);
            list.bits(ICMP, &[REG, CBUF], value, word, &[48]);
        }
    }
    // Additions. The longest strip of all is the last of the second row: ra is no register, so a whole word stands there.
    list.bits(IADD, &ALL, 0, PLAIN, &[43, 47, 48, 49, 50]);
    list.bits(IADD, &[CBUF], 0, guard(PLAIN, 8) | 0xff << 8, &[43, 47, 48, 49, 50]);
    list.bits(IADD32I, &[IMM], 0, PLAIN, &[52, 53, 54, 56]);
    list.bits(IADD3, &ALL, 0, PLAIN, &[47, 48, 49, 50, 51]);
    list.codes(IADD3, &ALL, 0, PLAIN, &[(31, 2), (33, 2), (35, 2), (37, 2)]);
    for selectors in 0..64 {
        list.add(IADD3, REG, 0, with_field(PLAIN, 31, 6, selectors));
    }
    list.bits(ISCADD, &ALL, 0, PLAIN, &[48, 49]);
    list.codes(ISCADD, &[REG], 0, PLAIN, &[(39, 5)]);
    // Products.
    for mode in 0..8 {
        let word = with_field(PLAIN, 50, 3, mode);
        list.bits(XMAD, &[REG, IMM], 0, word, &[36, 37]);
        list.bits(XMAD, &[CBUF], 0, word, &[55, 56]);
        list.bits(XMAD, &[CBUF], 0x5100 << 48, word, &[55, 56]);
    }
    list.bits(XMAD, &[REG, IMM], 0, PLAIN, &[35, 48, 49, 53]);
    list.bits(XMAD, &[CBUF], 0, PLAIN, &[48, 49, 52, 53]);
    list.bits(XMAD, &[CBUF], 0x5100 << 48, PLAIN, &[48, 49, 52, 53]);
    list.bits(IMNMX, &ALL, 0, PLAIN, &[48]);
    // Logic.
    for form in ALL {
        list.bits(LOP, &[form], 0, PLAIN | 7 << 48, &[39, 40, 41, 42]);
    }
    for predicate in [0, 6, 7] {
        for code in 0..4 {
            let word = with_field(with_field(PLAIN, 48, 3, predicate), 44, 2, code);
            list.bits(LOP, &[REG], 0, word, &[47]);
        }
    }
    list.bits(LOP32I, &[IMM], 0, PLAIN, &[52, 53, 54, 55, 56]);
    for table in [0, 1, 2, 4, 8, 16, 32, 64, 128, 0x96, 0xe8, 0xca, 0x80, 0xfe, 0xff] {
        list.add(LOP3, REG, 0, with_field(PLAIN, 28, 8, table));
        list.add(LOP3, CBUF, 0, with_field(PLAIN, 48, 8, table));
        list.add(LOP3, IMM, 0, with_field(PLAIN, 48, 8, table));
    }
    // Shifts and fields.
    list.bits(SHL, &ALL, 0, PLAIN, &[39, 40, 48]);
    list.bits(SHR, &ALL, 0, PLAIN, &[39, 40, 48]);
    list.bits(BFE, &ALL, 0, PLAIN, &[40, 48]);
    list.bits(FLO, &ALL, 0, PLAIN, &[40, 41, 48]);
    list.bits(POPC, &ALL, 0, PLAIN, &[40, 41]);
    for value in [0, 0x5bf8 << 48, 0x36f8 << 48] {
        list.bits(SHF, &ALL, value, PLAIN, &[37, 48, 50]);
        list.codes(SHF, &[REG], value, PLAIN, &[(37, 2), (48, 2)]);
    }
    for count in [0, 1, 31] {
        for form in ALL {
            list.add(LEA, form, 0, with_field(PLAIN, 39, 5, count));
            list.add(LEA, form, 0x5bd8 << 48, with_field(PLAIN, 28, 5, count));
            list.add(LEA, form, 0x1800 << 48, with_field(PLAIN, 51, 5, count));
        }
        list.bits(LEA, &[REG, CBUF], 0, with_field(PLAIN, 39, 5, count), &[45]);
        list.bits(LEA, &[REG], 0x5bd8 << 48, with_field(PLAIN, 28, 5, count), &[37, 45, 56]);
    }
    // Minimum and maximum of parts.
    for destination in [0, 5, 7] {
        let word = with_field(with_field(PLAIN, 51, 3, destination), 36, 3, 7);
        list.bits(VMNMX, &[REG], 0, word, &[48, 49, 54, 55, 56]);
    }
    list.codes(VMNMX, &ALL, 0, PLAIN, &[(51, 3)]);
    list.codes(VMNMX, &[REG], 0, PLAIN | 1 << 50, &[(28, 3), (36, 3)]);
    list.codes(VMNMX, &[REG], 0, PLAIN | 1 << 50 | 3 << 48, &[(28, 3), (36, 3)]);
    for number in [0, 1, 0x7fff, 0x8000, 0xffff] {
        list.bits(VMNMX, &[REG], 0, with_field(PLAIN, 20, 16, number), &[49]);
    }
    // Conversions.
    for size in 0..4 {
        for byte in 0..4 {
            let word = with_field(with_field(PLAIN & !0xff00, 10, 2, size), 41, 2, byte);
            list.bits(I2I, &[REG], 0, word, &[13]);
        }
        let word = with_field(PLAIN & !0xff00, 8, 2, size);
        list.bits(I2I, &[REG], 0, word, &[12, 13, 45, 49, 50]);
        list.bits(I2I, &[CBUF, IMM], 0, with_field(word, 10, 2, 2), &[12, 13, 50]);
    }
    // Predicates and flags to and from a register.
    for kind in [R2P, P2R] {
        for mask in [0, 1, 0x08, 0x0f, 0x10, 0x40, 0x7f, 0x80, 0xff, 0x100, 0x7ffff] {
            let word = with_field(PLAIN, 20, 19, mask);
            list.bits(kind, &[IMM], 0, word, &[40, 56]);
            list.codes(kind, &[IMM], 0, word, &[(41, 2)]);
        }
        for form in [REG, CBUF] {
            for byte in 0..4 {
                list.bits(kind, &[form], 0, with_field(PLAIN, 41, 2, byte), &[40]);
            }
        }
        list.add(kind, IMM, 0, with_field(PLAIN, 20, 19, 0) | 0xff << 8);
    }
}

fn refusals(list: &mut List) {
    // Kinds and forms that do not exist, and the order of causes.
    for kind in [0, 31, 32, 33, 34, 100, 127, 128, 254, 255] {
        list.add(kind, REG, 0, PLAIN);
        list.add(kind, 3, MOV_SYSTEM_VALUE, PLAIN);
    }
    for form in [3, 4, 127, 128, 254, 255] {
        list.add(MOV, form, 0, PLAIN);
        list.add(MOV, form, MOV_SYSTEM_VALUE, PLAIN);
        list.add(LEA, form, 0, guard(PLAIN, 15));
        list.add(I2I, form, 0, HALF_AT_BYTE_3);
    }
    // The same under the guard that never runs: 2 and 3 hold there too.
    for kind in [0, 31, 255] {
        list.add(kind, REG, MOV_SYSTEM_VALUE, guard(PLAIN, 15));
        list.add(kind, 3, 0, guard(HALF_AT_BYTE_3, 15));
    }
    for form in [3, 255] {
        list.add(MOV, form, MOV_SYSTEM_VALUE, guard(PLAIN, 15));
        list.add(I2I, form, 0, guard(HALF_AT_BYTE_3, 15));
    }
    // Mov of a system value under each form and guard, with and without a destination: admitted under guard 15 alone. Its
    // neighbours are admitted.
    for form in [REG, CBUF, IMM] {
        for g in 0..16 {
            list.add(MOV, form, MOV_SYSTEM_VALUE, guard(PLAIN, g));
        }
        for g in [7, 15, 0, 14] {
            list.add(MOV, form, MOV_SYSTEM_VALUE, guard(PLAIN, g) | 0xff);
        }
        list.add(MOV32I, form, MOV_SYSTEM_VALUE, PLAIN);
    }
    for bit in [0, 51, 63] {
        list.add(MOV, REG, MOV_SYSTEM_VALUE ^ 1 << bit, PLAIN);
    }
    // i2i from 16 bits at byte 3 likewise.
    for form in [REG, CBUF, IMM] {
        for g in 0..16 {
            list.add(I2I, form, 0, guard(HALF_AT_BYTE_3, g));
        }
        for g in [7, 15, 0, 14] {
            list.add(I2I, form, 0, guard(HALF_AT_BYTE_3, g) | 0xff);
        }
        list.add(I2I, form, MOV_SYSTEM_VALUE, HALF_AT_BYTE_3);
    }
    list.bits(I2I, &[REG], 0, HALF_AT_BYTE_3, &[10, 11, 41, 42]);
    list.bits(I2I, &[REG], 0, HALF_AT_BYTE_3, &[12, 13, 50]);
    for kind in [POPC, FLO, BFE, SHR] {
        list.add(kind, REG, 0, HALF_AT_BYTE_3);
    }
}

fn dead_words(list: &mut List) {
    // The value that 4 looks at in each form, and the fields that 5 looks at.
    for kind in kinds() {
        for form in [REG, CBUF, IMM] {
            list.add(kind, form, MOV_SYSTEM_VALUE, guard(PLAIN, 15));
        }
        list.add(kind, REG, 0, guard(HALF_AT_BYTE_3, 15));
    }
    // The bits of both words one by one: those of the guard make it one that may run, all others leave the word dead.
    for bit in 0..64 {
        list.add(MOV, REG, MOV_SYSTEM_VALUE, guard(PLAIN, 15) ^ 1 << bit);
        list.add(I2I, REG, 0, guard(HALF_AT_BYTE_3, 15) ^ 1 << bit);
    }
    // The last word of the last slot: no mark is raised.
    let named = |word| guard(with_field(with_field(word, 34, 5, 31), 20, 14, 0x3fff), 15);
    for value in [0, MOV_SYSTEM_VALUE] {
        list.add(MOV, CBUF, value, named(PLAIN));
        list.add(I2I, CBUF, value, named(HALF_AT_BYTE_3));
        list.add(IADD, CBUF, value, named(PLAIN));
    }
    for form in [REG, CBUF, IMM] {
        list.add(LEA, form, 0x1800 << 48, named(PLAIN));
    }
}

fn random(list: &mut List) {
    let mut rng = Rng::new(SEED);
    let mut left = [RANDOM_PER_KIND; NAMES.len()];
    while left.iter().any(|&n| n > 0) {
        let record = random_admitted(&mut rng);
        let left = &mut left[usize::from(record.kind) - 1];
        if *left > 0 {
            *left -= 1;
            list.add(record.kind, record.form, record.value, record.word);
        }
    }
}

#[cfg(test)]
mod tests {
    use super::*;

    #[test]
    fn the_list_covers_what_it_says() {
        let records = records();
        assert!((4000..=6500).contains(&records.len()), "{} records", records.len());
        let distinct: HashSet<_> = records.iter().collect();
        assert_eq!(distinct.len(), records.len());
        for kind in kinds() {
            for form in [REG, CBUF, IMM] {
                let some = records.iter().any(|r| (r.kind, r.form) == (kind, form) && r.admit().is_ok());
                assert!(some, "kind {kind} form {form}");
            }
        }
        for number in 2..=5 {
            assert!(records.iter().any(|r| r.admit().err() == Some(number)), "refusal {number}");
        }
        // Dead words that are refused under any other guard, and their neighbours under all of these.
        let sorts: [fn(&Record) -> bool; 2] = [Record::is_system_value_mov, Record::is_half_at_byte_3];
        for (sort, number) in sorts.into_iter().zip([4, 5]) {
            for form in [REG, CBUF, IMM] {
                let of_sort: Vec<_> = records.iter().filter(|r| sort(r) && r.form == form).collect();
                for g in 0..16 {
                    let mut under = of_sort.iter().filter(|r| r.word == guard(r.word, g)).peekable();
                    assert!(under.peek().is_some(), "{number} form {form} guard {g}");
                    assert!(under.all(|r| r.admit().err() == (g != 15).then_some(number)));
                }
            }
            let dead = records.iter().filter(|r| sort(r) && r.admit().is_ok()).count();
            assert!(dead >= 50, "{dead} dead words in place of refusal {number}");
        }
        for kind in kinds() {
            let dead = records.iter().filter(|r| r.kind == kind && r.never_runs() && r.admit().is_ok()).count();
            assert!(dead >= 6, "{dead} dead words of kind {kind}");
        }
    }

    #[test]
    fn the_list_can_be_read_back() {
        let bytes = stored_list();
        let mut rest = &bytes[..];
        let mut longest = 0;
        for record in records() {
            let (head, after) = rest.split_at(26);
            let length = usize::from(u16::from_le_bytes([head[24], head[25]]));
            let (strip, after) = after.split_at(length);
            let mut marks = [0; SLOTS];
            let answer = crate::translate(head[..18].try_into().unwrap(), &mut marks);
            assert_eq!(Record::parse(&head[..18]), Some(record));
            assert_eq!(answer.as_ref().err().copied().unwrap_or(0), head[23]);
            assert_eq!(answer.unwrap_or_default(), strip);
            let mark = u32::from_le_bytes(head[19..23].try_into().unwrap());
            let mut expected = [0; SLOTS];
            if head[18] != 255 {
                expected[usize::from(head[18])] = mark;
            } else {
                assert_eq!(mark, 0);
            }
            assert_eq!(marks, expected);
            longest = longest.max(length);
            rest = after;
        }
        assert!(rest.is_empty());
        assert_eq!(longest, 239);
    }
}
