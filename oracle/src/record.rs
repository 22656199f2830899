//! The record of 01: 18 bytes that name one instruction.

use crate::Form;

/// Bytes in a record.
pub const RECORD_LEN: usize = 18;

/// The thirty names. Kind `k` has the name at `k - 1`.
pub const NAMES: [&str; 30] = [
    "mov", "mov32i", "sel", "csetp", "isetp", "iset", "psetp", "pset", "iadd", "iadd32i", "iadd3", "iscadd", "xmad",
    "imnmx", "icmp", "lop", "lop32i", "lop3", "shl", "shr", "bfe", "bfi", "vmnmx", "i2i", "flo", "popc", "r2p", "p2r",
    "shf", "lea",
];

/// Kinds that the refusals speak of.
pub const MOV: u8 = 1;
pub const I2I: u8 = 24;

/// The opcode value of the mov of a system value.
pub const MOV_SYSTEM_VALUE: u64 = 0xf0c8 << 48;

/// A record taken apart, before any refusal is decided.
#[derive(Clone, Copy, Debug, PartialEq, Eq, Hash, PartialOrd, Ord)]
pub struct Record {
    pub kind: u8,
    pub form: u8,
    pub value: u64,
    pub word: u64,
}

impl Record {
    /// Takes the bytes apart; `None` if there are not 18 of them.
    pub fn parse(bytes: &[u8]) -> Option<Record> {
        let bytes: &[u8; RECORD_LEN] = bytes.try_into().ok()?;
        let number = |at: usize| u64::from_le_bytes(bytes[at..at + 8].try_into().expect("8 bytes"));
        Some(Record { kind: bytes[0], form: bytes[1], value: number(2), word: number(10) })
    }

    pub fn to_bytes(&self) -> [u8; RECORD_LEN] {
        let mut bytes = [0; RECORD_LEN];
        bytes[0] = self.kind;
        bytes[1] = self.form;
        bytes[2..10].copy_from_slice(&self.value.to_le_bytes());
        bytes[10..].copy_from_slice(&self.word.to_le_bytes());
        bytes
    }

    /// Whether no state lets the instruction run: its guard is predicate 7, which reads true, negated. Such a record is a
    /// dead word. Bit 19 alone does not make one, since another predicate may be false.
    pub fn never_runs(&self) -> bool {
        self.word >> 16 & 0xf == 0xf
    }

    /// mov of a system value, which refusal 4 speaks of.
    pub fn is_system_value_mov(&self) -> bool {
        self.kind == MOV && self.value == MOV_SYSTEM_VALUE
    }

    /// i2i of a half from byte 3 on, which refusal 5 speaks of.
    pub fn is_half_at_byte_3(&self) -> bool {
        let source_size = self.word >> 10 & 3;
        let source_byte = self.word >> 41 & 3;
        self.kind == I2I && source_size == 1 && source_byte == 3
    }

    /// The name and form of the instruction, or the first of the refusals 2 to 5 that holds. Refusals 4 and 5 hold only
    /// under a guard that may run: a dead word needs no support (#104).
    pub fn admit(&self) -> Result<(&'static str, Form), u8> {
        let name = *usize::from(self.kind).checked_sub(1).and_then(|at| NAMES.get(at)).ok_or(2)?;
        let form = match self.form {
            0 => Form::Reg,
            1 => Form::Cbuf,
            2 => Form::Imm,
            _ => return Err(3),
        };
        if self.is_system_value_mov() && !self.never_runs() {
            return Err(4);
        }
        if self.is_half_at_byte_3() && !self.never_runs() {
            return Err(5);
        }
        Ok((name, form))
    }
}
