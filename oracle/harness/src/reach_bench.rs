//! The speed of the reaches, each with its shape test. The Rust is the plain one, and the one that reads the bytes once.

use std::hint::black_box;
use std::time::Instant;

use oracle::reach::{CELLS, CONSTANTS, FLAGS, PREDICATES, reach, reach_plain};

use crate::bench::{Round, Row, Works};
use crate::ffi;

type Cells = [u8; CELLS];

/// One round over all runs, each with the same asked cells, and the last answer.
fn round(runs: &[&[u8]], asked: &Cells, reach: fn(&[u8], &mut [u8]) -> bool) -> Round<Cells> {
    let reach = black_box(reach);
    let mut cells = *asked;
    let begin = Instant::now();
    for run in runs {
        cells = *asked;
        if !reach(black_box(run), black_box(&mut cells)) {
            return None;
        }
    }
    Some((begin.elapsed(), cells))
}

/// A few cells of every sort.
fn few() -> Cells {
    let mut cells = [0; CELLS];
    for at in [0, 1, 5, 17, 100, PREDICATES, FLAGS, CONSTANTS + 4] {
        cells[at] = 1;
    }
    cells
}

pub fn rows(works: &Works) -> Vec<Row<'_>> {
    let work = &works.long;
    let (few, all) = (few(), [1; CELLS]);
    let row = |name: &str, strips: usize, asked: Cells, rust: fn(&[u8], &mut [u8]) -> bool| {
        Row::new(
            format!("reach, {name}"),
            work.strips(),
            work.runs(strips),
            move |runs| round(runs, &asked, |run, cells| ffi::reach(run, cells) == 0),
            move |runs| round(runs, &asked, rust),
        )
    };
    let plain: fn(&[u8], &mut [u8]) -> bool = |run, cells| reach_plain(run, cells).is_ok();
    let once: fn(&[u8], &mut [u8]) -> bool = |run, cells| reach(run, cells).is_ok();
    vec![
        row("1 strip a run", 1, few, plain),
        row("4 strips a run", 4, few, plain),
        row("20 strips a run", 20, few, plain),
        row("1000 strips a run", 1000, few, plain),
        row("10,000 strips a run", work.strips(), few, plain),
        row("20 strips a run, all cells asked", 20, all, plain),
        row("1 strip a run (Rust in one pass)", 1, few, once),
        row("4 strips a run (Rust in one pass)", 4, few, once),
        row("20 strips a run (Rust in one pass)", 20, few, once),
        row("1000 strips a run (Rust in one pass)", 1000, few, once),
        row("10,000 strips a run (Rust in one pass)", work.strips(), few, once),
    ]
}
