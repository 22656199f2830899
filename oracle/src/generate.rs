//! Random records, with the corners of the reference more frequent than chance would make them.

use crate::Form;
use crate::record::{I2I, MOV, MOV_SYSTEM_VALUE, NAMES, Record};
use crate::rng::Rng;

/// A row of the reference's opcode table.
#[derive(Clone, Copy, Debug)]
pub struct Opcode {
    pub value: u64,
    pub mask: u64,
    pub name: &'static str,
    pub form: Form,
}

include!(concat!(env!("OUT_DIR"), "/opcodes.rs"));

/// The opcode values that the text compares with: lea (high form by register and by constant), xmad, icmp, bfi, shf
/// (left by register and by number) and the mov of a system value.
pub const TELLING_VALUES: [u64; 8] = [
    0x5bd8 << 48,
    0x1800 << 48,
    0x5100 << 48,
    0x5340 << 48,
    0x53f0 << 48,
    0x5bf8 << 48,
    0x36f8 << 48,
    MOV_SYSTEM_VALUE,
];

/// First bits of the register fields rd, ra, rb and rc.
const REGISTER_FIELDS: [u32; 4] = [0, 8, 20, 39];
/// First bits of the predicate fields, the guard left out.
const PREDICATE_FIELDS: [u32; 6] = [0, 3, 12, 29, 39, 48];

/// A copy of `word` with `len` bits at `lo` replaced.
pub fn with_field(word: u64, lo: u32, len: u32, field: u64) -> u64 {
    let mask = ((1u64 << len) - 1) << lo;
    word & !mask | field << lo & mask
}

fn random_word(rng: &mut Rng) -> u64 {
    let mut word = match rng.below(4) {
        0 => rng.next_u64() & rng.next_u64(),
        1 => rng.next_u64() | rng.next_u64(),
        _ => rng.next_u64(),
    };
    for lo in REGISTER_FIELDS {
        if rng.one_in(6) {
            word = with_field(word, lo, 8, rng.pick(&[255, 255, 254, 0]));
        }
    }
    for lo in PREDICATE_FIELDS {
        if rng.one_in(6) {
            word = with_field(word, lo, 3, rng.pick(&[7, 7, 6, 0]));
        }
    }
    // The guard: mostly 7, at times 7 negated, else whatever came.
    match rng.below(16) {
        0..=7 => with_field(word, 16, 4, 7),
        8 => with_field(word, 16, 4, 15),
        _ => word,
    }
}

fn random_value(rng: &mut Rng) -> u64 {
    match rng.below(6) {
        0 => 0,
        1 => rng.next_u64(),
        // A neighbour of a telling value, which must not be taken for it.
        2 => rng.pick(&TELLING_VALUES) ^ 1 << rng.below(64),
        _ => rng.pick(&TELLING_VALUES),
    }
}

/// A record as an extractor would make it: value and form of one row of the opcode table, and a word that matches it.
fn real_record(rng: &mut Rng) -> Record {
    let row = rng.pick(OPCODES);
    let kind = 1 + NAMES.iter().position(|name| *name == row.name).expect("rows have the thirty names") as u8;
    Record { kind, form: row.form as u8, value: row.value, word: random_word(rng) & !row.mask | row.value }
}

/// A record of a kind that there is, with a form that there is.
fn known_record(rng: &mut Rng) -> Record {
    Record {
        kind: 1 + rng.below(NAMES.len()) as u8,
        form: rng.below(3) as u8,
        value: random_value(rng),
        word: random_word(rng),
    }
}

/// A mov of a system value or an i2i of a half from byte 3 on: admitted under predicate 7 negated, else refused.
pub fn padding(rng: &mut Rng, guard: u64) -> Record {
    let mut record = known_record(rng);
    if rng.one_in(2) {
        record.kind = MOV;
        record.value = MOV_SYSTEM_VALUE;
    } else {
        record.kind = I2I;
        record.word = with_field(record.word, 10, 2, 1);
        record.word = with_field(record.word, 41, 2, 3);
    }
    record.word = with_field(record.word, 16, 4, guard);
    record
}

/// A record under predicate 7 negated: one of the two that are refused under any other guard, or any other kind.
pub fn dead_word(rng: &mut Rng) -> Record {
    if rng.one_in(3) {
        let record = known_record(rng);
        return Record { word: with_field(record.word, 16, 4, 15), ..record };
    }
    padding(rng, 15)
}

/// A record of any sort. About one in 19 is refused.
pub fn random_record(rng: &mut Rng) -> Record {
    match rng.below(64) {
        0..=3 => return dead_word(rng),
        // Their neighbours, which are refused: the guard that always holds, and bit 19 alone.
        4 => {
            let guard = rng.pick(&[7, 8]);
            return padding(rng, guard);
        }
        _ => {}
    }
    if rng.one_in(4) {
        return real_record(rng);
    }
    let mut record = known_record(rng);
    let any = rng.next_u64() as u8;
    match rng.below(48) {
        0 => record.kind = rng.pick(&[0, 31, 32, 33, 34, 127, 128, 255, any]),
        1 => record.form = rng.pick(&[3, 4, 127, 128, 255, any]),
        _ => {}
    }
    // The refused source of i2i and its neighbours.
    if record.kind == I2I && rng.one_in(4) {
        record.word = with_field(record.word, 10, 2, 1);
        record.word = with_field(record.word, 41, 2, rng.pick(&[2, 3]));
    }
    record
}

/// A record that is not refused.
pub fn random_admitted(rng: &mut Rng) -> Record {
    loop {
        let record = random_record(rng);
        if record.admit().is_ok() {
            return record;
        }
    }
}
