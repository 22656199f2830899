//! The judge of the port: the unchanged text of the reference translator, run over stand-ins that record each call.
//!
//! - [`translate`] and [`translate_into`] give a record's strip or its refusal.
//! - [`shape`] tests a run of strips in plain Rust, [`evaluate`] runs it, [`mod@reach`] says which cells matter to it,
//!   [`mod@convert`] writes it in the other layout, [`words`] writes a strip as SPIR-V words.
//! - [`mod@meaning`] says what a record does to a state, without any strip.
//! - [`generate`] makes random records, [`strips`] random strips, [`spirv_strips`] those for the writer of SPIR-V words,
//!   [`starts`] random states and lists of constants, [`vectors`] the stored list of answers, [`cases`] hand-made runs
//!   with theirs, [`works`] the lines of the two works.
//! - [`mod@print`] is the strip printer, [`mod@check`] the run checker.

pub mod cases;
pub mod check;
pub mod convert;
pub mod evaluate;
pub mod extraction;
pub mod format;
pub mod generate;
pub mod lean;
pub mod meaning;
pub mod print;
pub mod reach;
pub mod record;
mod reference;
pub mod rng;
pub mod shape;
pub mod spirv_strips;
mod standins;
pub mod starts;
pub mod strips;
pub mod vectors;
pub mod words;
pub mod works;

use format::{Entry, Layout};
use record::Record;
pub use reference::Form;
pub use standins::SLOTS;

/// The use marks: for each constant slot, how many of its bytes are used.
pub type Marks = [u32; SLOTS];

/// The entries of a record's strip, or the refusal number 1 to 5. A refusal leaves the marks as they are.
pub fn translate_entries(record: &[u8], marks: &mut Marks) -> Result<Vec<Entry>, u8> {
    let record = Record::parse(record).ok_or(1)?;
    let (name, form) = record.admit()?;
    Ok(reference::run(name, form, record.value, record.word, marks))
}

/// A record's strip in the wide layout, or the refusal number 1 to 5. A refusal leaves the marks as they are.
pub fn translate(record: &[u8], marks: &mut Marks) -> Result<Vec<u8>, u8> {
    translate_entries(record, marks).map(|entries| format::encode(&entries, Layout::Wide))
}

/// Writes a record's strip at the start of `room` and gives its length, or gives the refusal number 1 to 6. A refusal
/// leaves room and marks as they are; otherwise the room after the strip stays as it is.
pub fn translate_into(record: &[u8], marks: &mut Marks, room: &mut [u8]) -> Result<usize, u8> {
    let mut raised = *marks;
    let strip = translate(record, &mut raised)?;
    room.get_mut(..strip.len()).ok_or(6)?.copy_from_slice(&strip);
    *marks = raised;
    Ok(strip.len())
}
