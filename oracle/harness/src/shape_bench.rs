//! The speed of the two shape tests.

use std::hint::black_box;
use std::time::Instant;

use oracle::format::Layout;
use oracle::shape::{Blocks, shape_ok};

use crate::bench::{Round, Row, Work, Works};
use crate::ffi;

/// One round over all runs. Every run must be accepted.
fn round(runs: &[&[u8]], layout: Layout, test: Test) -> Round<()> {
    let test = black_box(test);
    let begin = Instant::now();
    let mut accepted = 0;
    for run in runs {
        accepted += usize::from(test(black_box(run), layout));
    }
    let time = begin.elapsed();
    (accepted == runs.len()).then_some((time, ()))
}

/// Whether a run is well-formed.
type Test = fn(&[u8], Layout) -> bool;

fn library(run: &[u8], layout: Layout) -> bool {
    ffi::shape(run, layout.number()) == 0
}

/// Bytes of a block, where a run is tested block by block.
const BLOCK: usize = 4096;

fn library_by_blocks(run: &[u8], layout: Layout) -> bool {
    let mut state = [0; ffi::SHAPE_STATE];
    let (mut passed, mut strips) = (0, 0);
    ffi::shape_begin(&mut state, layout.number()) == 0
        && run.chunks(BLOCK).all(|block| ffi::shape_block(&mut state, block, &mut passed, &mut strips) == 0)
        && ffi::shape_end(&state) == 0
}

fn plain_by_blocks(run: &[u8], layout: Layout) -> bool {
    let mut blocks = Blocks::new(layout);
    run.chunks(BLOCK).all(|block| !blocks.feed(block).refused) && blocks.ends()
}

/// A row over the work in runs of so many strips.
fn row<'a>(work: &'a Work, name: &str, strips: usize, port: Test, rust: Test) -> Row<'a> {
    let layout = work.layout;
    Row::new(
        format!("shape test, {name}"),
        work.strips(),
        work.runs(strips),
        move |runs| round(runs, layout, port),
        move |runs| round(runs, layout, rust),
    )
}

pub fn rows<'a>(works: &'a Works) -> Vec<Row<'a>> {
    let Works { long, narrow, .. } = works;
    let whole = |work, name, strips| row(work, name, strips, library, shape_ok);
    let by_blocks = |work: &'a Work, name| row(work, name, work.strips(), library_by_blocks, plain_by_blocks);
    vec![
        whole(long, "1 strip a run", 1),
        whole(long, "20 strips a run", 20),
        whole(long, "10,000 strips a run", long.strips()),
        by_blocks(long, "blocks of 4,096 bytes"),
        whole(narrow, "narrow, 1 strip a run", 1),
        whole(narrow, "narrow, 20 strips a run", 20),
        whole(narrow, "narrow, 10,000 strips a run", narrow.strips()),
        by_blocks(narrow, "narrow, blocks of 4,096 bytes"),
    ]
}
