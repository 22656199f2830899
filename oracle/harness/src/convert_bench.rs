//! The speed of the two converters, each with its shape test.

use std::hint::black_box;
use std::time::Instant;

use oracle::convert::{convert, convert_plain};
use oracle::format::Layout;

use crate::bench::{Round, Row, Work, Works};
use crate::ffi;

/// Converts a run into the room, or refuses it.
type Convert = fn(&[u8], Layout, &mut [u8]) -> Option<usize>;

fn plain(run: &[u8], layout: Layout, room: &mut [u8]) -> Option<usize> {
    convert_plain(run, layout, room).ok()
}

fn counting(run: &[u8], layout: Layout, room: &mut [u8]) -> Option<usize> {
    convert(run, layout, room).ok()
}

fn library(run: &[u8], layout: Layout, room: &mut [u8]) -> Option<usize> {
    let mut written = 0;
    (ffi::convert(run, layout.number(), room, &mut written) == 0).then_some(written)
}

/// One round over all runs, and what the last one became.
fn round(runs: &[&[u8]], layout: Layout, room: &mut [u8], convert: Convert) -> Round<Vec<u8>> {
    let convert = black_box(convert);
    let mut last = 0;
    let begin = Instant::now();
    for run in runs {
        last = convert(black_box(run), layout, black_box(room))?;
    }
    let time = begin.elapsed();
    Some((time, room[..last].to_vec()))
}

/// A row over the work in runs of so many strips, against this Rust.
fn row<'a>(work: &'a Work, name: &str, strips: usize, rust: Convert) -> Row<'a> {
    let layout = work.layout;
    let runs = work.runs(strips);
    // No run is longer in the other layout than twice. Port and Rust have a room each.
    let most = runs.iter().map(|run| 2 * run.len()).max().unwrap_or(0);
    let [mut port_room, mut rust_room] = [vec![0; most], vec![0; most]];
    Row::new(
        format!("convert, {} to {}, {name}", layout.name(), layout.other().name()),
        work.strips(),
        runs,
        move |runs| round(runs, layout, &mut port_room, library),
        move |runs| round(runs, layout, &mut rust_room, rust),
    )
}

pub fn rows(works: &Works) -> Vec<Row<'_>> {
    let Works { long, narrow, .. } = works;
    let mut rows = Vec::new();
    for work in [long, narrow] {
        rows.push(row(work, "20 strips a run", 20, plain));
        rows.push(row(work, "10,000 strips a run", work.strips(), plain));
        rows.push(row(work, "10,000 (Rust in two passes)", work.strips(), counting));
    }
    rows
}
