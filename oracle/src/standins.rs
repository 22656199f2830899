//! Stand-ins for what the extracted text calls: the builder, the list of notes, the opcode, and the methods of which
//! 01 says that the text lacks them. Each call is recorded as 01 wants it.
//!
//! The text does have `name`, `form`, `ext`, `cast_i`, `cast_u`, `btrue`, `constant` and `cbuf_var`, but 01 decides.
//! It matters: the text's `constant` remembers what it made, and its `cbuf_var` makes a constant of its own on first
//! use. Here each call is one entry, and `cbuf_var` is entry 10 alone.
//!
//! The recorder trusts nothing: operand kinds, result types and the order of merge, branch and blocks are tested, and
//! anything unexpected is a panic. So a strip that comes out was made by calls that mean what the strip says.

use std::cell::RefCell;

use crate::format::{Entry, Value, kind, signature};
use crate::reference::Form;

/// Constant slots with a use mark.
pub const SLOTS: usize = 32;

/// The builder never fails here: what is wrong is a panic.
#[derive(Debug)]
pub enum Error {}

type Answer<T = ()> = Result<T, Error>;

/// The types that the text names. `F32` is named by `op` alone, for arms that are not taken.
#[derive(Clone, Copy, Debug, PartialEq, Eq)]
pub enum Type {
    Bool,
    U32,
    I32,
    F32,
    /// What `type_pointer` makes: the type of an address.
    PointerToU32,
}

/// What the builder's ids stand for.
#[derive(Clone, Copy, Debug, PartialEq, Eq)]
pub enum Word {
    Type(Type),
    /// A value by its number in the strip.
    Value(u16),
    Register(u8),
    Predicate(u8),
    Flag(u8),
    Label(u16),
}

#[derive(Clone, Copy, Debug, PartialEq, Eq)]
pub enum StorageClass {
    Uniform,
}

#[derive(Clone, Copy, Debug, PartialEq, Eq)]
pub struct SelectionControl;

impl SelectionControl {
    pub const NONE: SelectionControl = SelectionControl;
}

/// Operands beyond the fixed ones. The text never passes any, so there is no way to make one.
#[derive(Clone, Copy, Debug)]
pub enum Extra {}

/// What a record gives in place of a row of the opcode table.
#[derive(Clone, Copy, Debug)]
pub struct Opcode {
    pub value: u64,
    pub name: &'static str,
    pub form: Form,
}

/// The instruction: as in the text, but the opcode is its own and comes from the record.
#[derive(Clone, Copy, Debug)]
pub struct Insn {
    pub word: u64,
    pub op: Opcode,
}

impl Insn {
    pub fn name(&self) -> &'static str {
        self.op.name
    }

    pub fn form(&self) -> Form {
        self.op.form
    }
}

/// Where the control flow stands. Only the row merge, branch, block, ..., branch, block is allowed, once.
#[derive(Clone, Copy, Debug, PartialEq, Eq)]
enum Flow {
    Straight,
    Merge { merge: u16 },
    Branch { condition: u16, then: u16, merge: u16 },
    Inside { merge: u16 },
    Leave { merge: u16 },
    After,
}

/// The entries so far, and what is known of their values.
pub struct Recorder {
    entries: Vec<Entry>,
    values: Vec<(Value, Type)>,
    flow: Flow,
    labels: u16,
}

impl Recorder {
    pub fn new() -> Recorder {
        Recorder { entries: Vec::with_capacity(64), values: Vec::with_capacity(64), flow: Flow::Straight, labels: 0 }
    }

    /// Adds the end. The text must have left every block that it opened.
    pub fn finish(mut self) -> Vec<Entry> {
        assert!(matches!(self.flow, Flow::Straight | Flow::After), "ends in {:?}", self.flow);
        self.entries.push(Entry::new(kind::END, 0, &[]));
        self.entries
    }

    fn push(&mut self, entry: Entry) {
        assert!(matches!(self.flow, Flow::Straight | Flow::Inside { .. }), "{entry:?} in {:?}", self.flow);
        self.entries.push(entry);
    }

    /// The entry with the numbers of its operands, each of the sort that the kind wants, and what the kind makes.
    fn entry(&self, number: u8, immediate: u32, operands: &[Word]) -> (Entry, Option<Value>) {
        let signature = signature(number).expect("recorded kinds are known");
        assert_eq!(operands.len(), signature.operands.len(), "operands of kind {number}");
        let mut refs = [0; 4];
        for ((to, operand), wanted) in refs.iter_mut().zip(operands).zip(signature.operands) {
            *to = self.number(*operand);
            assert_eq!(self.values[usize::from(*to)].0, *wanted, "operand {to} of kind {number}");
        }
        (Entry::new(number, immediate, &refs[..operands.len()]), signature.result)
    }

    /// Records an entry that makes a value of type `ty`.
    fn value(&mut self, number: u8, immediate: u32, ty: Type, operands: &[Word]) -> Word {
        let (entry, result) = self.entry(number, immediate, operands);
        let result = result.expect("a kind that makes a value");
        let fits = match result {
            Value::Word => matches!(ty, Type::U32 | Type::I32),
            Value::Truth => ty == Type::Bool,
            Value::Slot | Value::Address => ty == Type::PointerToU32,
        };
        assert!(fits, "{entry:?} has type {ty:?}");
        self.push(entry);
        self.values.push((result, ty));
        Word::Value((self.values.len() - 1) as u16)
    }

    /// Records an operation of the builder. A word made from words has the type of the first of them.
    fn operation(&mut self, number: u8, ty: Word, operands: &[Word]) -> Word {
        let ty = the_type(ty);
        if matches!(ty, Type::U32 | Type::I32) {
            let first = operands.iter().map(|o| self.values[self.number(*o) as usize]).find(|v| v.0 == Value::Word);
            assert_eq!(first, Some((Value::Word, ty)), "type of the first word operand of kind {number}");
        }
        self.value(number, 0, ty, operands)
    }

    /// Records an entry that makes no value.
    fn effect(&mut self, number: u8, immediate: u32, operands: &[Word]) {
        let (entry, result) = self.entry(number, immediate, operands);
        assert_eq!(result, None);
        self.push(entry);
    }

    /// The number of a value that exists already.
    fn number(&self, word: Word) -> u16 {
        match word {
            Word::Value(number) if usize::from(number) < self.values.len() => number,
            _ => panic!("{word:?} is no value of this strip"),
        }
    }
}

impl Default for Recorder {
    fn default() -> Self {
        Recorder::new()
    }
}

fn the_type(word: Word) -> Type {
    match word {
        Word::Type(ty) => ty,
        _ => panic!("{word:?} is no type"),
    }
}

fn the_label(word: Word) -> u16 {
    match word {
        Word::Label(label) => label,
        _ => panic!("{word:?} is no label"),
    }
}

/// Stands in for the builder. Its methods have the names and the argument order of the real one.
pub struct Builder<'a>(&'a RefCell<Recorder>);

/// Methods that record one operation each: name, operands, entry kind.
macro_rules! operations {
    ($($name:ident($($operand:ident),+) = $kind:literal;)*) => {
        impl Builder<'_> {
            $(
                pub fn $name(&mut self, ty: Word, id: Option<Word>, $($operand: Word),+) -> Answer<Word> {
                    assert_eq!(id, None);
                    Ok(self.0.borrow_mut().operation($kind, ty, &[$($operand),+]))
                }
            )*
        }
    };
}

operations! {
    not(a) = 20;
    bit_reverse(a) = 21;
    bit_count(a) = 22;
    i_add(a, b) = 40;
    i_sub(a, b) = 41;
    i_mul(a, b) = 42;
    shift_left_logical(a, n) = 43;
    shift_right_logical(a, n) = 44;
    shift_right_arithmetic(a, n) = 45;
    bitwise_and(a, b) = 46;
    bitwise_or(a, b) = 47;
    bitwise_xor(a, b) = 48;
    i_equal(a, b) = 60;
    i_not_equal(a, b) = 61;
    u_less_than(a, b) = 62;
    u_less_than_equal(a, b) = 63;
    u_greater_than(a, b) = 64;
    u_greater_than_equal(a, b) = 65;
    s_less_than(a, b) = 66;
    s_less_than_equal(a, b) = 67;
    s_greater_than(a, b) = 68;
    s_greater_than_equal(a, b) = 69;
    logical_not(a) = 80;
    logical_and(a, b) = 81;
    logical_or(a, b) = 82;
    logical_not_equal(a, b) = 83;
    select(condition, yes, no) = 90;
    bit_field_u_extract(base, offset, length) = 91;
    bit_field_s_extract(base, offset, length) = 92;
    bit_field_insert(base, insert, offset, length) = 93;
}

impl Builder<'_> {
    /// A type call: no entry.
    pub fn type_pointer(&mut self, id: Option<Word>, class: StorageClass, to: Word) -> Word {
        assert_eq!((id, class, to), (None, StorageClass::Uniform, Word::Type(Type::U32)));
        Word::Type(Type::PointerToU32)
    }

    /// A fresh label: no entry.
    pub fn id(&mut self) -> Word {
        let mut recorder = self.0.borrow_mut();
        recorder.labels += 1;
        Word::Label(recorder.labels)
    }

    pub fn constant_false(&mut self, ty: Word) -> Word {
        self.0.borrow_mut().value(kind::FALSE, 0, the_type(ty), &[])
    }

    pub fn load(
        &mut self,
        ty: Word,
        id: Option<Word>,
        from: Word,
        access: Option<Extra>,
        more: [Extra; 0],
    ) -> Answer<Word> {
        assert!(id.is_none() && access.is_none() && more.is_empty());
        let ty = the_type(ty);
        let mut recorder = self.0.borrow_mut();
        let (number, cell, wanted) = match from {
            Word::Register(r) => (kind::LOAD_REGISTER, r, Type::U32),
            Word::Predicate(p) => (kind::LOAD_PREDICATE, p, Type::Bool),
            Word::Flag(f) => (kind::LOAD_FLAG, f, Type::Bool),
            address => {
                assert_eq!(ty, Type::U32);
                return Ok(recorder.value(kind::LOAD_AT, 0, ty, &[address]));
            }
        };
        assert_eq!(ty, wanted);
        Ok(recorder.value(number, cell.into(), ty, &[]))
    }

    pub fn store(&mut self, to: Word, value: Word, access: Option<Extra>, more: [Extra; 0]) -> Answer {
        assert!(access.is_none() && more.is_empty());
        let (number, cell, wanted) = match to {
            Word::Register(r) => (kind::STORE_REGISTER, r, Type::U32),
            Word::Predicate(p) => (kind::STORE_PREDICATE, p, Type::Bool),
            Word::Flag(f) => (kind::STORE_FLAG, f, Type::Bool),
            _ => panic!("{to:?} cannot be stored to"),
        };
        let mut recorder = self.0.borrow_mut();
        let ty = recorder.values[recorder.number(value) as usize].1;
        assert_eq!(ty, wanted, "stored to {to:?}");
        recorder.effect(number, cell.into(), &[value]);
        Ok(())
    }

    pub fn access_chain(
        &mut self,
        ty: Word,
        id: Option<Word>,
        base: Word,
        [zero, vec, comp]: [Word; 3],
    ) -> Answer<Word> {
        assert_eq!(id, None);
        Ok(self.0.borrow_mut().value(kind::ADDRESS, 0, the_type(ty), &[base, zero, vec, comp]))
    }

    pub fn selection_merge(&mut self, merge: Word, control: SelectionControl) -> Answer {
        assert_eq!(control, SelectionControl::NONE);
        let mut recorder = self.0.borrow_mut();
        assert_eq!(recorder.flow, Flow::Straight);
        recorder.flow = Flow::Merge { merge: the_label(merge) };
        Ok(())
    }

    pub fn branch_conditional(&mut self, condition: Word, yes: Word, no: Word, weights: [u32; 0]) -> Answer {
        assert!(weights.is_empty());
        let mut recorder = self.0.borrow_mut();
        let (then, merge) = (the_label(yes), the_label(no));
        assert_eq!(recorder.flow, Flow::Merge { merge }, "branch to {yes:?} or {no:?}");
        assert_ne!(then, merge);
        recorder.flow = Flow::Branch { condition: recorder.number(condition), then, merge };
        Ok(())
    }

    pub fn branch(&mut self, to: Word) -> Answer {
        let mut recorder = self.0.borrow_mut();
        let merge = the_label(to);
        assert_eq!(recorder.flow, Flow::Inside { merge }, "branch to {to:?}");
        recorder.flow = Flow::Leave { merge };
        Ok(())
    }

    /// The first block completes the entry `open`, the second one `close`.
    pub fn begin_block(&mut self, label: Option<Word>) -> Answer {
        let label = the_label(label.expect("blocks have labels"));
        let mut recorder = self.0.borrow_mut();
        match recorder.flow {
            Flow::Branch { condition, then, merge } if label == then => {
                recorder.flow = Flow::Inside { merge };
                recorder.effect(kind::OPEN, 0, &[Word::Value(condition)]);
            }
            Flow::Leave { merge } if label == merge => {
                recorder.flow = Flow::Inside { merge };
                recorder.effect(kind::CLOSE, 0, &[]);
                recorder.flow = Flow::After;
            }
            flow => panic!("block {label} in {flow:?}"),
        }
        Ok(())
    }
}

/// Stands in for the list of what is not supported: each message is a note entry, where the text pushes it.
pub struct Notes<'a>(&'a RefCell<Recorder>);

impl Notes<'_> {
    pub fn push(&mut self, message: &'static str) {
        let note = match message {
            "condition code test" => 1,
            "r2p (register mask)" => 2,
            "p2r (register mask)" => 3,
            "shf (64-bit modes)" => 4,
            "xmad.csfu" => 5,
            _ => panic!("no note for {message:?}"),
        };
        self.0.borrow_mut().effect(kind::NOTE, note, &[]);
    }
}

/// The types by the names of the text.
pub struct Types {
    pub bool: Word,
    pub u32: Word,
    pub i32: Word,
    pub f32: Word,
}

/// The part of the text's shader that the taken functions change.
pub struct Shader {
    pub cbuf_used: [u32; SLOTS],
}

/// The translator's state, as far as the taken functions use it.
pub struct Translator<'a> {
    pub b: Builder<'a>,
    pub t: Types,
    pub cc: [Word; 4],
    pub regs: &'static [Word; 255],
    pub preds: [Word; 7],
    pub unsupported: Notes<'a>,
    pub shader: Shader,
}

const REGISTERS: [Word; 255] = {
    let mut all = [Word::Register(0); 255];
    let mut r = 0;
    while r < all.len() {
        all[r] = Word::Register(r as u8);
        r += 1;
    }
    all
};

impl<'a> Translator<'a> {
    pub fn new(recorder: &'a RefCell<Recorder>, marks: &[u32; SLOTS]) -> Self {
        static REGS: [Word; 255] = REGISTERS;
        Translator {
            b: Builder(recorder),
            t: Types {
                bool: Word::Type(Type::Bool),
                u32: Word::Type(Type::U32),
                i32: Word::Type(Type::I32),
                f32: Word::Type(Type::F32),
            },
            cc: [0, 1, 2, 3].map(Word::Flag),
            regs: &REGS,
            preds: [0, 1, 2, 3, 4, 5, 6].map(Word::Predicate),
            unsupported: Notes(recorder),
            shader: Shader { cbuf_used: *marks },
        }
    }

    /// One entry for each call, also for a constant that was made before.
    pub fn constant(&mut self, ty: Word, bits: u32) -> Word {
        assert_eq!(ty, Word::Type(Type::U32));
        self.b.0.borrow_mut().value(kind::WORD, bits, Type::U32, &[])
    }

    pub fn btrue(&mut self) -> Word {
        self.b.0.borrow_mut().value(kind::TRUE, 0, Type::Bool, &[])
    }

    /// The slot alone: the text's constant for the length of the array is no entry.
    pub fn cbuf_var(&mut self, slot: u32) -> Word {
        assert!((slot as usize) < SLOTS);
        self.b.0.borrow_mut().value(kind::SLOT, slot, Type::PointerToU32, &[])
    }

    pub fn cast_i(&mut self, v: Word) -> Answer<Word> {
        Ok(self.b.0.borrow_mut().value(kind::CAST_I, 0, Type::I32, &[v]))
    }

    pub fn cast_u(&mut self, v: Word) -> Answer<Word> {
        Ok(self.b.0.borrow_mut().value(kind::CAST_U, 0, Type::U32, &[v]))
    }

    /// An instruction of GLSL.std.450, by its number there.
    pub fn ext(&mut self, ty: Word, inst: u32, args: &[Word]) -> Answer<Word> {
        let number = match inst {
            5 => 25,
            74 => 26,
            75 => 27,
            38 => 49,
            39 => 50,
            41 => 51,
            42 => 52,
            _ => panic!("no entry for GLSL instruction {inst}"),
        };
        Ok(self.b.0.borrow_mut().operation(number, ty, args))
    }
}
