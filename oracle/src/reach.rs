//! Reach of 01 in plain Rust: which cells at the start of a run can matter to the asked cells at its end, or refusal 7.
//!
//! This is the partner of the ported reach in comparisons of answers and of speed. The cells are bytes, as the library
//! takes them: registers, predicates, flags and constant slots in this order; a cell is listed if its byte is not 0.
//! The run is in the wide layout.

use crate::SLOTS;
use crate::format::{Layout, WIDE, entry_lens, kind};
use crate::shape::{Watch, shape_ok, shape_ok_watched};

/// Where the predicates begin, after 255 registers.
pub const PREDICATES: usize = 255;
/// Where the flags begin: Z, S, C, O.
pub const FLAGS: usize = PREDICATES + 7;
/// Where the constant slots begin.
pub const CONSTANTS: usize = FLAGS + 4;
/// How many cells there are.
pub const CELLS: usize = CONSTANTS + SLOTS;

/// How many bytes an entry of each kind has; 1 where there is no such kind.
const LENGTHS: [u8; 256] = entry_lens(WIDE);

/// An entry that loads or stores a cell, or opens a block.
enum Touch {
    Load(usize),
    Store(usize),
    Open,
}

/// [`reach`] as one writes it first: the shape test, then what each strip touches, then the rule from the last strip back.
pub fn reach_plain(run: &[u8], cells: &mut [u8]) -> Result<(), u8> {
    if cells.len() != CELLS || !shape_ok(run, Layout::Wide) {
        return Err(7);
    }
    for cell in cells.iter_mut() {
        *cell = u8::from(*cell != 0);
    }
    let mut strips = vec![];
    let mut strip = vec![];
    let mut rest = run;
    while let Some(&kind) = rest.first() {
        let number = || usize::from(rest[1]);
        match kind {
            kind::LOAD_REGISTER => strip.push(Touch::Load(number())),
            kind::LOAD_PREDICATE => strip.push(Touch::Load(PREDICATES + number())),
            kind::LOAD_FLAG => strip.push(Touch::Load(FLAGS + number())),
            kind::SLOT => strip.push(Touch::Load(CONSTANTS + number())),
            kind::STORE_REGISTER => strip.push(Touch::Store(number())),
            kind::STORE_PREDICATE => strip.push(Touch::Store(PREDICATES + number())),
            kind::STORE_FLAG => strip.push(Touch::Store(FLAGS + number())),
            kind::OPEN => strip.push(Touch::Open),
            kind::END => strips.push(std::mem::take(&mut strip)),
            _ => {}
        }
        rest = &rest[usize::from(LENGTHS[usize::from(kind)])..];
    }
    for strip in strips.iter().rev() {
        if !strip.iter().any(|touch| matches!(touch, Touch::Store(cell) if cells[*cell] != 0)) {
            continue;
        }
        if !strip.iter().any(|touch| matches!(touch, Touch::Open)) {
            for touch in strip {
                if let Touch::Store(cell) = touch {
                    cells[*cell] = 0;
                }
            }
        }
        for touch in strip {
            if let Touch::Load(cell) = touch {
                cells[*cell] = 1;
            }
        }
    }
    Ok(())
}

/// Replaces the asked cells by those that can matter to them, each 1 or 0. The refusal number is 7: the cells are not
/// 298, or the run is not well-formed; then they stay as they are. The bytes are read once.
pub fn reach(run: &[u8], cells: &mut [u8]) -> Result<(), u8> {
    let cells: &mut [u8; CELLS] = cells.try_into().map_err(|_| 7)?;
    let mut touched = Touched::default();
    if !shape_ok_watched::<WIDE>(run, &mut touched) {
        return Err(7);
    }
    for cell in cells.iter_mut() {
        *cell = u8::from(*cell != 0);
    }
    let Touched { loads, stores, strips, .. } = touched;
    for (at, strip) in strips.iter().enumerate().rev() {
        let before = at.checked_sub(1).map_or(Strip::default(), |at| strips[at]);
        let stores = &stores[before.stores_end..strip.stores_end];
        if stores.iter().all(|&cell| cells[usize::from(cell)] == 0) {
            continue;
        }
        if !strip.has_open {
            for &cell in stores {
                cells[usize::from(cell)] = 0;
            }
        }
        // After the stores: a strip may load what it stores.
        for &cell in &loads[before.loads_end..strip.loads_end] {
            cells[usize::from(cell)] = 1;
        }
    }
    Ok(())
}

/// The cells that each strip of a run loads and stores, those of a block too.
#[derive(Default)]
struct Touched {
    loads: Vec<u16>,
    stores: Vec<u16>,
    strips: Vec<Strip>,
    /// Whether the strip that is being read holds an open.
    has_open: bool,
}

/// Where a strip's part of the loads and stores ends. It begins where that of the strip before ends.
#[derive(Clone, Copy, Default)]
struct Strip {
    loads_end: usize,
    stores_end: usize,
    has_open: bool,
}

impl Watch for Touched {
    fn load_register(&mut self, register: u8) {
        self.loads.push(register.into());
    }

    fn load_predicate(&mut self, predicate: u8) {
        self.loads.push(PREDICATES as u16 + u16::from(predicate));
    }

    fn load_flag(&mut self, flag: u8) {
        self.loads.push(FLAGS as u16 + u16::from(flag));
    }

    fn load_slot(&mut self, slot: u8) {
        self.loads.push(CONSTANTS as u16 + u16::from(slot));
    }

    fn store_register(&mut self, register: u8) {
        self.stores.push(register.into());
    }

    fn store_predicate(&mut self, predicate: u8) {
        self.stores.push(PREDICATES as u16 + u16::from(predicate));
    }

    fn store_flag(&mut self, flag: u8) {
        self.stores.push(FLAGS as u16 + u16::from(flag));
    }

    fn open(&mut self) {
        self.has_open = true;
    }

    fn end(&mut self) {
        let (loads_end, stores_end) = (self.loads.len(), self.stores.len());
        self.strips.push(Strip { loads_end, stores_end, has_open: self.has_open });
        self.has_open = false;
    }
}
