//! The speed of the two evaluations, each with its shape test.

use std::hint::black_box;
use std::time::Instant;

use oracle::evaluate::{State, evaluate};
use oracle::format::Layout;
use oracle::starts::ALL_WORDS;

use crate::bench::{Round, Row, Work, Works};
use crate::ffi::{self, Cells, Fault};

/// One round of plain Rust over all runs, the state passed from each to the next, and the last state.
fn round_plain(runs: &[&[u8]], layout: Layout, start: &State, constants: &[u32]) -> Round<Cells> {
    let mut state = start.clone();
    let begin = Instant::now();
    for run in runs {
        state = evaluate(black_box(run), layout, &state, black_box(constants)).ok()?;
    }
    let time = begin.elapsed();
    Some((time, Cells::from(&state)))
}

/// The same for the library.
fn round_library(runs: &[&[u8]], layout: Layout, start: &State, constants: &[u32]) -> Round<Cells> {
    let mut cells = Cells::from(start);
    let mut fault = Fault::default();
    let begin = Instant::now();
    for run in runs {
        if ffi::evaluate(black_box(run), layout.number(), &mut cells, black_box(constants), &mut fault) != 0 {
            return None;
        }
    }
    let time = begin.elapsed();
    Some((time, cells))
}

/// A row over the work in runs of so many strips.
fn row<'a>(works: &'a Works, name: &str, work: &'a Work, strips: usize) -> Row<'a> {
    let (layout, start, constants) = (work.layout, &works.start, &works.words[..ALL_WORDS]);
    Row::new(
        format!("evaluation, {name}"),
        work.strips(),
        work.runs(strips),
        move |runs| round_library(runs, layout, start, constants),
        move |runs| round_plain(runs, layout, start, constants),
    )
}

pub fn rows(works: &Works) -> Vec<Row<'_>> {
    let Works { long, narrow, twice, repeated, .. } = works;
    vec![
        row(works, "1 strip a run", long, 1),
        row(works, "20 strips a run", long, 20),
        row(works, "10,000 strips a run", long, long.strips()),
        row(works, "20,000 strips a run", twice, twice.strips()),
        row(works, "narrow, 1 strip a run", narrow, 1),
        row(works, "narrow, 20 strips a run", narrow, 20),
        row(works, "narrow, 10,000 strips a run", narrow, narrow.strips()),
        row(works, "20 strips repeated, 1 strip a run", repeated, 1),
        row(works, "20 strips repeated, all in one run", repeated, repeated.strips()),
    ]
}
