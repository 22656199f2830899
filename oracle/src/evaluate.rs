//! Evaluation of 01 in plain Rust: a run of strips takes a state to the next one, or is refused with 7, 8 or 9.
//!
//! This is the partner of the ported evaluation in comparisons of answers and of speed. What an operation means is
//! taken from the SPIR-V specification and from GLSL.std.450.

use crate::format::{Layout, MAX_ENTRIES, NARROW, Rest, WIDE, entry_lens};
use crate::shape::shape_ok_watched;

/// Constant words in one slot.
pub const SLOT_WORDS: usize = 16_384;
/// The highest vector of a slot; each has four words.
const MAX_VEC: u32 = 4095;
const MAX_COMP: u32 = 3;

/// The cells that strips load and store. The flags are Z, S, C, O.
#[derive(Clone, Debug, PartialEq, Eq)]
pub struct State {
    pub registers: [u32; 255],
    pub predicates: [bool; 7],
    pub flags: [bool; 4],
}

impl Default for State {
    fn default() -> State {
        State { registers: [0; 255], predicates: [false; 7], flags: [false; 4] }
    }
}

/// Why an evaluation is refused.
#[derive(Clone, Copy, Debug, PartialEq, Eq)]
pub enum Refusal {
    /// The run is not well-formed.
    Shape,
    /// An undefined value reaches a store, an open or an address.
    Undefined,
    /// The address names no word of the list.
    Constant { slot: u8, vec: u32, comp: u32 },
}

impl Refusal {
    /// The number that 01 gives to the refusal.
    pub fn number(self) -> u32 {
        match self {
            Refusal::Shape => 7,
            Refusal::Undefined => 8,
            Refusal::Constant { .. } => 9,
        }
    }
}

/// The state after the run, or the refusal. The shape of the whole run is tested first.
pub fn evaluate(run: &[u8], layout: Layout, state: &State, constants: &[u32]) -> Result<State, Refusal> {
    match layout {
        Layout::Wide => evaluate_run::<WIDE>(run, state, constants),
        Layout::Narrow => evaluate_run::<NARROW>(run, state, constants),
    }
}

fn evaluate_run<const REF: usize>(run: &[u8], state: &State, constants: &[u32]) -> Result<State, Refusal> {
    if !shape_ok_watched::<REF>(run, &mut ()) {
        return Err(Refusal::Shape);
    }
    let mut state = state.clone();
    let mut values = Values { numbers: [None; MAX_ENTRIES], count: 0 };
    let mut rest = Rest::<REF>(run);
    while !rest.0.is_empty() {
        values.count = 0;
        rest = evaluate_strip(rest, &mut state, &mut values, constants)?;
    }
    Ok(state)
}

/// The values of a strip so far. A word is its bits, a truth 1 or 0, a slot its number, an address the place of its
/// word in the list; `None` is undefined. The shape test has made sure that each reference names a value of the right
/// sort.
struct Values {
    numbers: [Option<u32>; MAX_ENTRIES],
    count: usize,
}

impl Values {
    #[inline(always)]
    fn get(&self, reference: u16) -> Option<u32> {
        self.numbers[usize::from(reference) % MAX_ENTRIES]
    }

    #[inline(always)]
    fn push(&mut self, value: Option<u32>) {
        self.numbers[self.count % MAX_ENTRIES] = value;
        self.count += 1;
    }

    #[inline(always)]
    fn push_truth(&mut self, truth: bool) {
        self.push(Some(truth.into()));
    }

    /// An entry with one reference.
    #[inline(always)]
    fn unary<const REF: usize>(
        &mut self,
        rest: &mut Rest<REF>,
        result: impl FnOnce(u32) -> u32,
    ) -> Result<(), Refusal> {
        let ([], [a]) = take(rest)?;
        self.push(self.get(a).map(result));
        Ok(())
    }

    /// An entry with two references.
    #[inline(always)]
    fn binary<const REF: usize>(
        &mut self,
        rest: &mut Rest<REF>,
        result: impl FnOnce(u32, u32) -> u32,
    ) -> Result<(), Refusal> {
        self.partial(rest, |a, b| Some(result(a, b)))
    }

    /// An entry with two references whose result may be undefined.
    #[inline(always)]
    fn partial<const REF: usize>(
        &mut self,
        rest: &mut Rest<REF>,
        result: impl FnOnce(u32, u32) -> Option<u32>,
    ) -> Result<(), Refusal> {
        let ([], [a, b]) = take(rest)?;
        self.push(match (self.get(a), self.get(b)) {
            (Some(a), Some(b)) => result(a, b),
            _ => None,
        });
        Ok(())
    }

    /// An entry that compares two words.
    #[inline(always)]
    fn compare<const REF: usize>(
        &mut self,
        rest: &mut Rest<REF>,
        result: impl FnOnce(u32, u32) -> bool,
    ) -> Result<(), Refusal> {
        self.binary(rest, |a, b| result(a, b).into())
    }

    /// An entry that compares two words as signed numbers.
    #[inline(always)]
    fn compare_signed<const REF: usize>(
        &mut self,
        rest: &mut Rest<REF>,
        result: impl FnOnce(i32, i32) -> bool,
    ) -> Result<(), Refusal> {
        self.binary(rest, |a, b| result(a as i32, b as i32).into())
    }

    /// An entry that takes a field out of a word: base, offset, length.
    #[inline(always)]
    fn extract<const REF: usize>(
        &mut self,
        rest: &mut Rest<REF>,
        result: impl FnOnce(u32, u32, u32) -> u32,
    ) -> Result<(), Refusal> {
        let ([], [base, offset, length]) = take(rest)?;
        self.push(match (self.get(base), self.get(offset), self.get(length)) {
            (Some(base), Some(offset), Some(length)) if field_fits(offset, length) => {
                Some(result(base, offset, length))
            }
            _ => None,
        });
        Ok(())
    }
}

/// A body. The shape test has made sure that it is there.
#[inline(always)]
fn take<const REF: usize, const BYTES: usize, const REFS: usize>(
    rest: &mut Rest<REF>,
) -> Result<([u8; BYTES], [u16; REFS]), Refusal> {
    rest.body().ok_or(Refusal::Shape)
}

/// Runs the first strip and gives what lies after it.
fn evaluate_strip<'a, const REF: usize>(
    strip: Rest<'a, REF>,
    state: &mut State,
    v: &mut Values,
    constants: &[u32],
) -> Result<Rest<'a, REF>, Refusal> {
    let mut rest = strip;
    loop {
        match rest.kind().ok_or(Refusal::Shape)? {
            1 => {
                let (word, []) = take(&mut rest)?;
                v.push(Some(u32::from_le_bytes(word)));
            }
            2 => v.push_truth(true),
            3 => v.push_truth(false),
            4 => {
                let ([cell], []) = take(&mut rest)?;
                v.push(Some(state.registers[usize::from(cell)]));
            }
            5 => {
                let ([cell], []) = take(&mut rest)?;
                v.push_truth(state.predicates[usize::from(cell)]);
            }
            6 => {
                let ([cell], []) = take(&mut rest)?;
                v.push_truth(state.flags[usize::from(cell)]);
            }
            7 => {
                let ([cell], [a]) = take(&mut rest)?;
                state.registers[usize::from(cell)] = v.get(a).ok_or(Refusal::Undefined)?;
            }
            8 => {
                let ([cell], [a]) = take(&mut rest)?;
                state.predicates[usize::from(cell)] = v.get(a).ok_or(Refusal::Undefined)? != 0;
            }
            9 => {
                let ([cell], [a]) = take(&mut rest)?;
                state.flags[usize::from(cell)] = v.get(a).ok_or(Refusal::Undefined)? != 0;
            }
            10 => {
                let ([slot], []) = take(&mut rest)?;
                v.push(Some(slot.into()));
            }
            11 => {
                let ([], [slot, zero, vec, comp]) = take(&mut rest)?;
                let operands = (v.get(slot), v.get(zero), v.get(vec), v.get(comp));
                let (Some(slot), Some(zero), Some(vec), Some(comp)) = operands else {
                    return Err(Refusal::Undefined);
                };
                let element = element(slot, zero, vec, comp).filter(|&element| element < constants.len());
                let Some(element) = element else {
                    return Err(Refusal::Constant { slot: slot as u8, vec, comp });
                };
                v.push(Some(element as u32));
            }
            12 => {
                let ([], [a]) = take(&mut rest)?;
                v.push(v.get(a).map(|element| constants[element as usize]));
            }
            20 => v.unary(&mut rest, |a| !a)?,
            21 => v.unary(&mut rest, u32::reverse_bits)?,
            22 => v.unary(&mut rest, u32::count_ones)?,
            // The casts keep the bits.
            23 | 24 => v.unary(&mut rest, |a| a)?,
            25 => v.unary(&mut rest, |a| (a as i32).unsigned_abs())?,
            26 => v.unary(&mut rest, find_s_msb)?,
            27 => v.unary(&mut rest, find_u_msb)?,
            40 => v.binary(&mut rest, u32::wrapping_add)?,
            41 => v.binary(&mut rest, u32::wrapping_sub)?,
            42 => v.binary(&mut rest, u32::wrapping_mul)?,
            // The checked shifts give `None` for counts of 32 or more.
            43 => v.partial(&mut rest, u32::checked_shl)?,
            44 => v.partial(&mut rest, u32::checked_shr)?,
            45 => v.partial(&mut rest, |a, count| (a as i32).checked_shr(count).map(|a| a as u32))?,
            46 => v.binary(&mut rest, |a, b| a & b)?,
            47 => v.binary(&mut rest, |a, b| a | b)?,
            48 => v.binary(&mut rest, |a, b| a ^ b)?,
            49 => v.binary(&mut rest, u32::min)?,
            50 => v.binary(&mut rest, |a, b| (a as i32).min(b as i32) as u32)?,
            51 => v.binary(&mut rest, u32::max)?,
            52 => v.binary(&mut rest, |a, b| (a as i32).max(b as i32) as u32)?,
            60 => v.compare(&mut rest, |a, b| a == b)?,
            61 => v.compare(&mut rest, |a, b| a != b)?,
            62 => v.compare(&mut rest, |a, b| a < b)?,
            63 => v.compare(&mut rest, |a, b| a <= b)?,
            64 => v.compare(&mut rest, |a, b| a > b)?,
            65 => v.compare(&mut rest, |a, b| a >= b)?,
            66 => v.compare_signed(&mut rest, |a, b| a < b)?,
            67 => v.compare_signed(&mut rest, |a, b| a <= b)?,
            68 => v.compare_signed(&mut rest, |a, b| a > b)?,
            69 => v.compare_signed(&mut rest, |a, b| a >= b)?,
            // Truths are 0 or 1.
            80 => v.unary(&mut rest, |a| a ^ 1)?,
            81 => v.binary(&mut rest, |a, b| a & b)?,
            82 => v.binary(&mut rest, |a, b| a | b)?,
            83 => v.binary(&mut rest, |a, b| a ^ b)?,
            // Only the chosen word is looked at.
            90 => {
                let ([], [condition, a, b]) = take(&mut rest)?;
                v.push(v.get(condition).and_then(|truth| v.get(if truth != 0 { a } else { b })));
            }
            91 => v.extract(&mut rest, extract_u)?,
            92 => v.extract(&mut rest, extract_s)?,
            93 => {
                let ([], [base, insert, offset, length]) = take(&mut rest)?;
                v.push(match (v.get(base), v.get(insert), v.get(offset), v.get(length)) {
                    (Some(base), Some(insert), Some(offset), Some(length)) if field_fits(offset, length) => {
                        Some(insert_field(base, insert, offset, length))
                    }
                    _ => None,
                });
            }
            100 => {
                let ([], [a]) = take(&mut rest)?;
                if v.get(a).ok_or(Refusal::Undefined)? == 0 {
                    return skip_to_end(rest);
                }
            }
            101 => {}
            110 => {
                let ([_], []) = take(&mut rest)?;
            }
            255 => return Ok(rest),
            _ => return Err(Refusal::Shape),
        }
    }
}

/// What lies after the strip whose block is skipped. The close stands directly before the end, so nothing of the strip
/// is left to run.
fn skip_to_end<const REF: usize>(mut rest: Rest<REF>) -> Result<Rest<REF>, Refusal> {
    let lens = const { &entry_lens(REF) };
    loop {
        let kind = *rest.0.first().ok_or(Refusal::Shape)?;
        rest.0 = rest.0.get(usize::from(lens[usize::from(kind)])..).ok_or(Refusal::Shape)?;
        if kind == 255 {
            return Ok(rest);
        }
    }
}

/// The place of a constant word in the list, or `None` if the address is out of range.
#[inline(always)]
pub(crate) fn element(slot: u32, zero: u32, vec: u32, comp: u32) -> Option<usize> {
    (zero == 0 && vec <= MAX_VEC && comp <= MAX_COMP)
        .then(|| slot as usize * SLOT_WORDS + vec as usize * 4 + comp as usize)
}

/// The highest bit that differs from the sign, or all ones if there is none.
fn find_s_msb(a: u32) -> u32 {
    find_u_msb(if (a as i32) < 0 { !a } else { a })
}

/// The highest bit that is set, or all ones if there is none.
fn find_u_msb(a: u32) -> u32 {
    a.checked_ilog2().unwrap_or(u32::MAX)
}

/// Whether offset and length lie within a word. The sum must not wrap.
#[inline(always)]
fn field_fits(offset: u32, length: u32) -> bool {
    offset <= 32 && length <= 32 - offset
}

/// The field without its sign. Offset and length fit; 64 bits, since both can be 32.
fn extract_u(base: u32, offset: u32, length: u32) -> u32 {
    (u64::from(base) >> offset & ((1 << length) - 1)) as u32
}

/// The field with its highest bit as the sign. Offset and length fit.
fn extract_s(base: u32, offset: u32, length: u32) -> u32 {
    if length == 0 {
        return 0;
    }
    let top = base << (32 - offset - length);
    (top as i32 >> (32 - length)) as u32
}

/// The base with the lowest bits of `insert` as its field. Offset and length fit; 64 bits, since both can be 32.
fn insert_field(base: u32, insert: u32, offset: u32, length: u32) -> u32 {
    let mask = ((1u64 << length) - 1) << offset;
    (u64::from(base) & !mask | u64::from(insert) << offset & mask) as u32
}
