//! The speed of the two writers of SPIR-V words, each with its shape test and its look at the table.

use std::hint::black_box;
use std::time::Instant;

use oracle::rng::Rng;
use oracle::words::{MAX_WORDS, Written, table, to_spirv};
use oracle::{SLOTS, translate};

use crate::bench::{Round, Row, STRIPS, Works};
use crate::ffi;
use crate::tables::shuffle;
use crate::translate_bench::{Bytes, SEED, records, round_library};

/// Writes a strip into the room, or refuses it.
type Write = fn(&[u8], u32, &[u32], &mut [u32]) -> Option<Written>;

fn plain(strip: &[u8], bound: u32, table: &[u32], room: &mut [u32]) -> Option<Written> {
    to_spirv(strip, bound, table, room).ok()
}

fn library(strip: &[u8], bound: u32, table: &[u32], room: &mut [u32]) -> Option<Written> {
    let mut told = Written::default();
    (ffi::to_spirv(strip, bound, table, room, &mut told) == 0).then_some(told)
}

/// The ids of a table, and the first one after them.
#[derive(Clone)]
struct Ids {
    table: Vec<u32>,
    bound: u32,
}

/// One round over all strips: how many words were written in all, what was handed back last, and the last words.
fn round(strips: &[Vec<u8>], ids: &Ids, write: Write) -> Round<(usize, Written, Vec<u32>)> {
    let write = black_box(write);
    let mut room = [0; MAX_WORDS];
    let (mut words, mut told) = (0, Written::default());
    let begin = Instant::now();
    for strip in strips {
        told = write(black_box(strip), ids.bound, black_box(&ids.table), black_box(&mut room))?;
        words += told.words;
    }
    let time = begin.elapsed();
    Some((time, (words, told, room[..told.words].to_vec())))
}

/// The strips of the records.
fn strips(records: &[Bytes]) -> Vec<Vec<u8>> {
    records.iter().map(|record| translate(record, &mut [0; SLOTS]).expect("an admitted record")).collect()
}

/// The library against plain Rust.
fn row(name: &str, strips: Vec<Vec<u8>>, ids: Ids) -> Row<'static> {
    let same = ids.clone();
    Row::new(
        format!("spirv, {name}"),
        strips.len(),
        strips,
        move |strips| round(strips, &ids, library),
        move |strips| round(strips, &same, plain),
    )
}

/// The library's words of the strips beside its translation of the records that give them, in the place of the Rust.
fn row_beside(name: &str, records: Vec<Bytes>, ids: Ids) -> Row<'static> {
    let strips = strips(&records);
    Row::new(
        format!("spirv, {name} (beside: translation)"),
        records.len(),
        records,
        move |_| round(&strips, &ids, library).map(|(time, _)| (time, ())),
        |records| round_library(records).map(|(time, _)| (time, ())),
    )
}

pub fn rows(_: &Works) -> Vec<Row<'_>> {
    let mut rng = Rng::new(SEED);
    // Those of the rows of translation.
    let all = records(&mut rng, STRIPS, |record| record);
    let bound = table::LEN as u32 + 1;
    let rising = Ids { table: (1..bound).collect(), bound };
    let mut any = rising.clone();
    shuffle(&mut rng, &mut any.table);
    vec![
        row("all kinds", strips(&all), rising.clone()),
        row("all kinds, ids in any order", strips(&all), any.clone()),
        row_beside("all kinds", all.clone(), rising),
        row_beside("ids in any order", all, any),
    ]
}
