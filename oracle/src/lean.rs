//! The extracted text once more, over a builder that tests nothing and writes the bytes of each entry at once, into a
//! list that is kept from record to record. A partner for the port's speed alone: [`crate::translate`] is the judge,
//! and `tests/lean.rs` holds this one to it.

use std::cell::RefCell;

use crate::Marks;
use crate::format::kind;
use crate::record::Record;

/// The text, compiled over the stand-ins of this module.
mod text {
    #![allow(unused_variables, dead_code)]
    #![allow(clippy::all)]

    use super::{Error, Insn, SelectionControl, StorageClass, Translator, Word};

    include!(concat!(env!("OUT_DIR"), "/reference.rs"));

    pub fn run(translator: &mut Translator, i: &Insn) {
        let Ok(()) = translator.guarded(i, |t| t.op(0, i));
    }
}

use text::Form;

#[derive(Debug)]
enum Error {}

type Answer<T = ()> = Result<T, Error>;

#[derive(Clone, Copy)]
enum Word {
    Value(u16),
    Register(u8),
    Predicate(u8),
    Flag(u8),
    /// A type or a label, which no entry names.
    Nothing,
}

impl Word {
    fn number(self) -> [u8; 2] {
        match self {
            Word::Value(number) => number.to_le_bytes(),
            _ => [0; 2],
        }
    }
}

enum StorageClass {
    Uniform,
}

struct SelectionControl;

impl SelectionControl {
    const NONE: SelectionControl = SelectionControl;
}

enum Extra {}

struct Opcode {
    value: u64,
    name: &'static str,
    form: Form,
}

struct Insn {
    word: u64,
    op: Opcode,
}

impl Insn {
    fn name(&self) -> &'static str {
        self.op.name
    }

    fn form(&self) -> Form {
        self.op.form
    }
}

/// The strip so far, and the number of its values.
#[derive(Default)]
struct Strip {
    bytes: Vec<u8>,
    values: u16,
}

impl Strip {
    fn put<const N: usize>(&mut self, bytes: [u8; N]) {
        self.bytes.extend_from_slice(&bytes);
    }

    fn value(&mut self) -> Word {
        self.values += 1;
        Word::Value(self.values - 1)
    }
}

struct Builder<'a>(&'a RefCell<Strip>);

/// Methods that write one operation each: name, operands, entry kind.
macro_rules! operations {
    ($($name:ident($($operand:ident),+) = $kind:literal;)*) => {
        $(
            fn $name(&mut self, _: Word, _: Option<Word>, $($operand: Word),+) -> Answer<Word> {
                Ok(self.operation($kind, &[$($operand),+]))
            }
        )*
    };
}

impl Builder<'_> {
    #[inline(always)]
    fn operation(&mut self, number: u8, operands: &[Word]) -> Word {
        let mut strip = self.0.borrow_mut();
        let mut body = [number; 9];
        for (at, operand) in operands.iter().enumerate() {
            [body[1 + 2 * at], body[2 + 2 * at]] = operand.number();
        }
        strip.bytes.extend_from_slice(&body[..1 + 2 * operands.len()]);
        strip.value()
    }

    operations! {
        not(a) = 20;
        bit_reverse(a) = 21;
        bit_count(a) = 22;
        i_add(a, b) = 40;
        i_sub(a, b) = 41;
        i_mul(a, b) = 42;
        shift_left_logical(a, n) = 43;
        shift_right_logical(a, n) = 44;
        shift_right_arithmetic(a, n) = 45;
        bitwise_and(a, b) = 46;
        bitwise_or(a, b) = 47;
        bitwise_xor(a, b) = 48;
        i_equal(a, b) = 60;
        i_not_equal(a, b) = 61;
        u_less_than(a, b) = 62;
        u_less_than_equal(a, b) = 63;
        u_greater_than(a, b) = 64;
        u_greater_than_equal(a, b) = 65;
        s_less_than(a, b) = 66;
        s_less_than_equal(a, b) = 67;
        s_greater_than(a, b) = 68;
        s_greater_than_equal(a, b) = 69;
        logical_not(a) = 80;
        logical_and(a, b) = 81;
        logical_or(a, b) = 82;
        logical_not_equal(a, b) = 83;
        select(condition, yes, no) = 90;
        bit_field_u_extract(base, offset, length) = 91;
        bit_field_s_extract(base, offset, length) = 92;
        bit_field_insert(base, insert, offset, length) = 93;
    }

    fn type_pointer(&mut self, _: Option<Word>, _: StorageClass, _: Word) -> Word {
        Word::Nothing
    }

    fn id(&mut self) -> Word {
        Word::Nothing
    }

    fn constant_false(&mut self, _: Word) -> Word {
        let mut strip = self.0.borrow_mut();
        strip.put([kind::FALSE]);
        strip.value()
    }

    fn load(&mut self, _: Word, _: Option<Word>, from: Word, _: Option<Extra>, _: [Extra; 0]) -> Answer<Word> {
        let mut strip = self.0.borrow_mut();
        match from {
            Word::Register(r) => strip.put([kind::LOAD_REGISTER, r]),
            Word::Predicate(p) => strip.put([kind::LOAD_PREDICATE, p]),
            Word::Flag(f) => strip.put([kind::LOAD_FLAG, f]),
            address => {
                let [low, high] = address.number();
                strip.put([kind::LOAD_AT, low, high]);
            }
        }
        Ok(strip.value())
    }

    fn store(&mut self, to: Word, value: Word, _: Option<Extra>, _: [Extra; 0]) -> Answer {
        let (number, cell) = match to {
            Word::Register(r) => (kind::STORE_REGISTER, r),
            Word::Predicate(p) => (kind::STORE_PREDICATE, p),
            Word::Flag(f) => (kind::STORE_FLAG, f),
            _ => (0, 0),
        };
        let [low, high] = value.number();
        self.0.borrow_mut().put([number, cell, low, high]);
        Ok(())
    }

    fn access_chain(&mut self, _: Word, _: Option<Word>, base: Word, [zero, vec, comp]: [Word; 3]) -> Answer<Word> {
        Ok(self.operation(kind::ADDRESS, &[base, zero, vec, comp]))
    }

    fn selection_merge(&mut self, _: Word, _: SelectionControl) -> Answer {
        Ok(())
    }

    /// The entry `open`: what follows in the text is the first block.
    fn branch_conditional(&mut self, condition: Word, _: Word, _: Word, _: [u32; 0]) -> Answer {
        let [low, high] = condition.number();
        self.0.borrow_mut().put([kind::OPEN, low, high]);
        Ok(())
    }

    /// The entry `close`: what follows in the text is the last block.
    fn branch(&mut self, _: Word) -> Answer {
        self.0.borrow_mut().put([kind::CLOSE]);
        Ok(())
    }

    fn begin_block(&mut self, _: Option<Word>) -> Answer {
        Ok(())
    }
}

struct Notes<'a>(&'a RefCell<Strip>);

impl Notes<'_> {
    fn push(&mut self, message: &'static str) {
        let note = match message {
            "condition code test" => 1,
            "r2p (register mask)" => 2,
            "p2r (register mask)" => 3,
            "shf (64-bit modes)" => 4,
            _ => 5,
        };
        self.0.borrow_mut().put([kind::NOTE, note]);
    }
}

struct Types {
    bool: Word,
    u32: Word,
    i32: Word,
    f32: Word,
}

struct Shader {
    cbuf_used: Marks,
}

struct Translator<'a> {
    b: Builder<'a>,
    t: Types,
    cc: [Word; 4],
    regs: &'static [Word; 255],
    preds: [Word; 7],
    unsupported: Notes<'a>,
    shader: Shader,
}

static REGISTERS: [Word; 255] = {
    let mut all = [Word::Register(0); 255];
    let mut r = 0;
    while r < all.len() {
        all[r] = Word::Register(r as u8);
        r += 1;
    }
    all
};

impl Translator<'_> {
    fn constant(&mut self, _: Word, bits: u32) -> Word {
        let mut strip = self.b.0.borrow_mut();
        let [a, b, c, d] = bits.to_le_bytes();
        strip.put([kind::WORD, a, b, c, d]);
        strip.value()
    }

    fn btrue(&mut self) -> Word {
        let mut strip = self.b.0.borrow_mut();
        strip.put([kind::TRUE]);
        strip.value()
    }

    fn cbuf_var(&mut self, slot: u32) -> Word {
        let mut strip = self.b.0.borrow_mut();
        strip.put([kind::SLOT, slot as u8]);
        strip.value()
    }

    fn cast_i(&mut self, v: Word) -> Answer<Word> {
        Ok(self.b.operation(kind::CAST_I, &[v]))
    }

    fn cast_u(&mut self, v: Word) -> Answer<Word> {
        Ok(self.b.operation(kind::CAST_U, &[v]))
    }

    fn ext(&mut self, _: Word, inst: u32, args: &[Word]) -> Answer<Word> {
        let number = match inst {
            5 => 25,
            74 => 26,
            75 => 27,
            38 => 49,
            39 => 50,
            41 => 51,
            _ => 52,
        };
        Ok(self.b.operation(number, args))
    }
}

/// The translator with its list of bytes.
#[derive(Default)]
pub struct Lean(RefCell<Strip>);

impl Lean {
    /// The same as [`crate::translate_into`].
    pub fn translate_into(&mut self, record: &[u8], marks: &mut Marks, room: &mut [u8]) -> Result<usize, u8> {
        let record = Record::parse(record).ok_or(1)?;
        let (name, form) = record.admit()?;
        let form = match form {
            crate::Form::Reg => Form::Reg,
            crate::Form::Cbuf => Form::Cbuf,
            crate::Form::Imm => Form::Imm,
        };
        let i = Insn { word: record.word, op: Opcode { value: record.value, name, form } };
        let Strip { bytes, values } = self.0.get_mut();
        bytes.clear();
        *values = 0;
        let mut translator = Translator {
            b: Builder(&self.0),
            t: Types { bool: Word::Nothing, u32: Word::Nothing, i32: Word::Nothing, f32: Word::Nothing },
            cc: [0, 1, 2, 3].map(Word::Flag),
            regs: &REGISTERS,
            preds: [0, 1, 2, 3, 4, 5, 6].map(Word::Predicate),
            unsupported: Notes(&self.0),
            shader: Shader { cbuf_used: *marks },
        };
        text::run(&mut translator, &i);
        let raised = translator.shader.cbuf_used;
        let strip = self.0.get_mut();
        strip.put([kind::END]);
        room.get_mut(..strip.bytes.len()).ok_or(6)?.copy_from_slice(&strip.bytes);
        *marks = raised;
        Ok(strip.bytes.len())
    }
}
