//! The extracted text, compiled over the stand-ins, and the one call that starts it.
//!
//! Dead code is not allowed here, so `build.rs` takes no function that the thirty arms do not use. `op` has two names
//! that only other arms use: `pc` and `t`.
#![allow(unused_variables)]
#![allow(clippy::all)]

use std::cell::RefCell;

use crate::format::Entry;
use crate::standins::{Error, Insn, Opcode, Recorder, SLOTS, SelectionControl, StorageClass, Translator, Word};

include!(concat!(env!("OUT_DIR"), "/reference.rs"));

/// Runs `guarded` around `op`, as the text's `insn` does. `marks` are raised as the text raises them.
pub fn run(name: &'static str, form: Form, value: u64, word: u64, marks: &mut [u32; SLOTS]) -> Vec<Entry> {
    let i = Insn { word, op: Opcode { value, name, form } };
    let recorder = RefCell::new(Recorder::new());
    let mut translator = Translator::new(&recorder, marks);
    let Ok(()) = translator.guarded(&i, |t| t.op(0, &i));
    *marks = translator.shader.cbuf_used;
    recorder.into_inner().finish()
}

#[cfg(test)]
mod tests {
    use super::*;
    use crate::format::{Layout, encode, kind};
    use crate::record::{MOV_SYSTEM_VALUE, NAMES, Record};

    /// The text itself decides what never runs: without a look at the refusals it gives the end alone, and raises no
    /// mark, exactly where `never_runs` says so.
    #[test]
    fn the_text_runs_nothing_under_predicate_7_negated() {
        // rd 1, ra 6, rb 3; as a constant slot 5, word 3; for i2i a half from byte 1 on, then from byte 3 on.
        let plain = 1 | 6 << 8 | 3 << 20 | 5 << 34 | 1 << 41;
        let mut dead = 0;
        for (at, name) in NAMES.iter().enumerate() {
            for (form_number, form) in [Form::Reg, Form::Cbuf, Form::Imm].into_iter().enumerate() {
                for (value, base) in [(0, plain), (MOV_SYSTEM_VALUE, plain), (0, plain | 3 << 41)] {
                    for guard in 0..16 {
                        let word = base | guard << 16;
                        let record = Record { kind: at as u8 + 1, form: form_number as u8, value, word };
                        let mut marks = [7; SLOTS];
                        let strip = encode(&run(name, form, value, word, &mut marks), Layout::Wide);
                        assert_eq!(strip == [kind::END], record.never_runs(), "{record:?}");
                        if record.never_runs() {
                            assert_eq!(marks, [7; SLOTS], "{record:?}");
                            dead += usize::from(record.is_system_value_mov() || record.is_half_at_byte_3());
                        }
                    }
                }
            }
        }
        // mov with the one value and i2i with the one word, in each form.
        assert_eq!(dead, 6);
    }
}
