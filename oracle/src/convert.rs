//! The converter of #102 in plain Rust: a run of strips from its layout to the other one, or refusal 7 or 6.
//!
//! This is the partner of the ported converter in comparisons of answers and of speed.

use crate::format::{ENTRY_LENS, Layout, NARROW, Rest, WIDE};
use crate::shape::{Watch, shape_ok, shape_ok_watched};

/// Writes the run in the other layout at the start of `room` and gives its length there, or gives the refusal number: 7
/// if the run is not well-formed in its layout, then 6 if the room is shorter. A refusal leaves the room as it is;
/// otherwise the room after the run stays as it is.
pub fn convert(run: &[u8], layout: Layout, room: &mut [u8]) -> Result<usize, u8> {
    match layout {
        Layout::Wide => convert_run::<WIDE, NARROW>(run, room),
        Layout::Narrow => convert_run::<NARROW, WIDE>(run, room),
    }
}

/// The same in the plainest way: the shape test as it is, then a walk that adds up the lengths, then the writing.
/// [`convert`] counts the references during the shape test, which spares the walk.
pub fn convert_plain(run: &[u8], layout: Layout, room: &mut [u8]) -> Result<usize, u8> {
    if !shape_ok(run, layout) {
        return Err(7);
    }
    let (from, to) = (&ENTRY_LENS[layout as usize], &ENTRY_LENS[layout.other() as usize]);
    let (mut rest, mut len) = (run, 0);
    while let Some(&kind) = rest.first() {
        len += usize::from(to[usize::from(kind)]);
        rest = &rest[usize::from(from[usize::from(kind)])..];
    }
    match layout {
        Layout::Wide => write_run::<WIDE, NARROW>(run, room, len),
        Layout::Narrow => write_run::<NARROW, WIDE>(run, room, len),
    }
}

/// How many references a run has.
struct Refs(usize);

impl Watch for Refs {
    fn refs(&mut self, count: usize) {
        self.0 += count;
    }
}

fn convert_run<const FROM: usize, const TO: usize>(run: &[u8], room: &mut [u8]) -> Result<usize, u8> {
    let mut refs = Refs(0);
    if !shape_ok_watched::<FROM>(run, &mut refs) {
        return Err(7);
    }
    write_run::<FROM, TO>(run, room, run.len() - refs.0 * FROM + refs.0 * TO)
}

/// Writes a well-formed run, which has `len` bytes then.
fn write_run<const FROM: usize, const TO: usize>(run: &[u8], room: &mut [u8], len: usize) -> Result<usize, u8> {
    let mut writer = Writer::<FROM, TO> { rest: Rest(run), room: room.get_mut(..len).ok_or(6)? };
    while let Some(kind) = writer.rest.kind() {
        writer.entry(kind).expect("a whole body, and room for it");
    }
    Ok(len)
}

/// What is left of a well-formed run, and of the room that it fills exactly.
struct Writer<'a, const FROM: usize, const TO: usize> {
    rest: Rest<'a, FROM>,
    room: &'a mut [u8],
}

impl<const FROM: usize, const TO: usize> Writer<'_, FROM, TO> {
    /// Writes the entry whose kind is read.
    #[inline(always)]
    fn entry(&mut self, kind: u8) -> Option<()> {
        match kind {
            1 => self.body::<4, 0>(kind),
            4..=6 | 10 | 110 => self.body::<1, 0>(kind),
            7..=9 => self.body::<1, 1>(kind),
            12 | 20..=27 | 80 | 100 => self.body::<0, 1>(kind),
            40..=52 | 60..=69 | 81..=83 => self.body::<0, 2>(kind),
            90..=92 => self.body::<0, 3>(kind),
            11 | 93 => self.body::<0, 4>(kind),
            _ => self.body::<0, 0>(kind),
        }
    }

    #[inline(always)]
    fn body<const BYTES: usize, const REFS: usize>(&mut self, kind: u8) -> Option<()> {
        let (bytes, refs) = self.rest.body::<BYTES, REFS>()?;
        let (to, after) = std::mem::take(&mut self.room).split_at_mut_checked(1 + BYTES + REFS * TO)?;
        self.room = after;
        let (head, tail) = to.split_at_mut(1 + BYTES);
        head[0] = kind;
        head[1..].copy_from_slice(&bytes);
        for (to, reference) in tail.as_chunks_mut().0.iter_mut().zip(refs) {
            let to: &mut [u8; TO] = to;
            to.copy_from_slice(&reference.to_le_bytes()[..TO]);
        }
        Some(())
    }
}
