//! The speed of the two translations. The Rust is the ported text, over the lean builder or over the recorder.

use std::hint::black_box;
use std::time::Instant;

use oracle::generate::random_admitted;
use oracle::lean::Lean;
use oracle::record::{NAMES, RECORD_LEN, Record};
use oracle::rng::Rng;
use oracle::{Marks, SLOTS, translate_into};

use crate::bench::{Round, Row, SHORT, STRIPS, Works};
use crate::ffi;
use crate::pair::{MarkBytes, ROOM, mark_bytes};

pub const SEED: u64 = 1;

/// The marks at the start of a round.
const START: Marks = [0; SLOTS];

pub type Bytes = [u8; RECORD_LEN];

/// What a round leaves: how many bytes were written in all, the marks, and the last strip.
#[derive(PartialEq, Eq)]
pub struct Left<M> {
    written: usize,
    marks: M,
    last: Vec<u8>,
}

/// One round over all records, bytes to bytes. Both take the marks in their own form.
fn round<M>(
    records: &[Bytes],
    mut marks: M,
    mut translate: impl FnMut(&[u8], &mut M, &mut [u8]) -> Option<usize>,
) -> Round<Left<M>> {
    let (mut room, mut written, mut len) = ([0; ROOM], 0, 0);
    let begin = Instant::now();
    for record in records {
        len = translate(black_box(record), black_box(&mut marks), black_box(&mut room))?;
        written += len;
    }
    let time = begin.elapsed();
    Some((time, Left { written, marks, last: room[..len].to_vec() }))
}

pub fn round_library(records: &[Bytes]) -> Round<Left<MarkBytes>> {
    round(records, mark_bytes(&START), |record, marks, room| {
        let mut len = 0;
        (ffi::translate(record, marks, room, &mut len) == 0).then_some(len)
    })
}

/// One round of the Rust. What it leaves is made comparable after the measurement.
fn round_rust(
    records: &[Bytes],
    mut translate: impl FnMut(&[u8], &mut Marks, &mut [u8]) -> Result<usize, u8>,
) -> Round<Left<MarkBytes>> {
    let (time, Left { written, marks, last }) =
        round(records, START, |record, marks, room| translate(record, marks, room).ok())?;
    Some((time, Left { written, marks: mark_bytes(&marks), last }))
}

/// Random admitted records, each changed in some way.
pub fn records(rng: &mut Rng, count: usize, change: impl Fn(Record) -> Record) -> Vec<Bytes> {
    let mut all = Vec::with_capacity(count);
    while all.len() < count {
        let record = change(random_admitted(rng));
        if record.admit().is_ok() {
            all.push(record.to_bytes());
        }
    }
    all
}

/// The kinds that have a row of their own.
const KINDS: [&str; 9] = ["mov", "isetp", "iadd", "iadd3", "xmad", "lop3", "vmnmx", "i2i", "shf"];

/// iadd: extend, CC, both signs, saturate.
const IADD_MODES: u64 = 1 << 43 | 1 << 47 | 1 << 48 | 1 << 49 | 1 << 50;

fn kind_of(name: &str) -> u8 {
    1 + NAMES.iter().position(|known| *known == name).expect("a known name") as u8
}

/// The library against the text over the lean builder.
fn row(name: &str, records: Vec<Bytes>) -> Row<'static> {
    let mut lean = Lean::default();
    Row::new(format!("translation, {name}"), records.len(), records, round_library, move |records| {
        round_rust(records, |record, marks, room| lean.translate_into(record, marks, room))
    })
}

/// The library against the text over the recorder.
fn row_recorder(name: &str, records: Vec<Bytes>) -> Row<'static> {
    Row::new(format!("translation, {name}"), records.len(), records, round_library, |records| {
        round_rust(records, translate_into)
    })
}

pub fn rows(_: &Works) -> Vec<Row<'_>> {
    let mut rng = Rng::new(SEED);
    let all = records(&mut rng, STRIPS, |record| record);
    let mut rows = vec![row("all kinds", all.clone()), row_recorder("all kinds, the Rust over its recorder", all)];
    for name in KINDS {
        let kind = kind_of(name);
        rows.push(row(name, records(&mut rng, STRIPS, |record| Record { kind, ..record })));
    }
    let kind = kind_of("iadd");
    let long = |record: Record| Record { kind, word: record.word | IADD_MODES, ..record };
    rows.push(row("iadd in all modes", records(&mut rng, STRIPS, long)));
    let short = records(&mut rng, SHORT, |record| record).repeat(STRIPS / SHORT);
    rows.push(row("20 records repeated", short));
    rows
}
