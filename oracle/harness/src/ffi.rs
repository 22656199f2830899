//! The functions of the static library, each with a safe wrapper. Nothing compares these declarations with the
//! library's own, so they are few and take numbers and byte lists only.

use oracle::words::Written;
use oracle::{evaluate, meaning};

mod raw {
    unsafe extern "C" {
        pub fn mehkura_shape(run: *const u8, run_len: usize, layout: u32) -> u32;
        pub fn mehkura_shape_begin(state: *mut u8, state_len: usize, layout: u32) -> u32;
        pub fn mehkura_shape_block(
            state: *mut u8,
            state_len: usize,
            block: *const u8,
            block_len: usize,
            passed: *mut usize,
            strips: *mut usize,
        ) -> u32;
        pub fn mehkura_shape_end(state: *const u8, state_len: usize) -> u32;
        pub fn mehkura_evaluate(
            run: *const u8,
            run_len: usize,
            layout: u32,
            registers: *mut u32,
            registers_len: usize,
            truths: *mut u8,
            truths_len: usize,
            constants: *const u32,
            constants_len: usize,
            slot: *mut u32,
            vec: *mut u32,
            comp: *mut u32,
        ) -> u32;
        pub fn mehkura_translate(
            bytes: *const u8,
            bytes_len: usize,
            marks: *mut u8,
            marks_len: usize,
            out: *mut u8,
            out_len: usize,
            written: *mut usize,
        ) -> u32;
        pub fn mehkura_reach(run: *const u8, run_len: usize, cells: *mut u8, cells_len: usize) -> u32;
        pub fn mehkura_convert(
            run: *const u8,
            run_len: usize,
            layout: u32,
            out: *mut u8,
            out_len: usize,
            written: *mut usize,
        ) -> u32;
        pub fn mehkura_to_spirv(
            strip: *const u8,
            strip_len: usize,
            bound: u32,
            table: *const u32,
            table_len: usize,
            out: *mut u32,
            out_len: usize,
            written: *mut usize,
            constants: *mut usize,
            next: *mut u32,
        ) -> u32;
    }
}

/// The number that the library gives for a run of strips in the layout of that number: 0 if the shape is right, else 7.
pub fn shape(run: &[u8], layout: u32) -> u32 {
    // SAFETY: the pointer and the length are those of a live slice, which the library only reads.
    unsafe { raw::mehkura_shape(run.as_ptr(), run.len(), layout) }
}

/// Bytes of the state of a shape test block by block. Other lengths must be refused with 7.
pub const SHAPE_STATE: usize = 45;

/// The number that the library gives for a test in the layout of that number: 0 if it has begun, and the state is that
/// of no bytes, else 7. A refusal must leave the state as it is.
pub fn shape_begin(state: &mut [u8], layout: u32) -> u32 {
    // SAFETY: the pointer and the length are those of a live slice, which is borrowed for writing.
    unsafe { raw::mehkura_shape_begin(state.as_mut_ptr(), state.len(), layout) }
}

/// The number that the library gives for the next bytes of a run: 0 if they can be those of one, else 7. With both the
/// state becomes the next one, and the numbers say how many bytes were passed and how many strips ended. A state of
/// another length must be left as it is, and the numbers too.
pub fn shape_block(state: &mut [u8], block: &[u8], passed: &mut usize, strips: &mut usize) -> u32 {
    // SAFETY: the pointers and lengths are those of live slices and of two numbers. The library writes to the state and
    // the numbers alone, which are borrowed for that and do not overlap.
    unsafe { raw::mehkura_shape_block(state.as_mut_ptr(), state.len(), block.as_ptr(), block.len(), passed, strips) }
}

/// The number that the library gives for what was handed over: 0 if it is a well-formed run, else 7.
pub fn shape_end(state: &[u8]) -> u32 {
    // SAFETY: the pointer and the length are those of a live slice, which the library only reads.
    unsafe { raw::mehkura_shape_end(state.as_ptr(), state.len()) }
}

/// A state as the library takes it: truths are the predicates and then the flags Z, S, C, O, each 0 or 1.
#[derive(Clone, Debug, PartialEq, Eq)]
pub struct Cells {
    pub registers: [u32; 255],
    pub truths: [u8; 11],
}

impl Cells {
    fn new(registers: [u32; 255], predicates: &[bool; 7], flags: &[bool; 4]) -> Cells {
        let mut truths = [0; 11];
        for (byte, truth) in truths.iter_mut().zip(predicates.iter().chain(flags)) {
            *byte = u8::from(*truth);
        }
        Cells { registers, truths }
    }
}

impl From<&evaluate::State> for Cells {
    fn from(state: &evaluate::State) -> Cells {
        Cells::new(state.registers, &state.predicates, &state.flags)
    }
}

impl From<&meaning::State> for Cells {
    fn from(state: &meaning::State) -> Cells {
        Cells::new(state.registers, &state.predicates, &state.flags)
    }
}

/// The constant word that an address asks for, as the library hands it back with 9.
#[derive(Clone, Copy, Debug, Default, PartialEq, Eq)]
pub struct Fault {
    pub slot: u32,
    pub vec: u32,
    pub comp: u32,
}

impl Fault {
    /// Where plain Rust refuses a run with 9. Every other answer has none.
    pub fn of<T>(answer: &Result<T, evaluate::Refusal>) -> Option<Fault> {
        match *answer {
            Err(evaluate::Refusal::Constant { slot, vec, comp }) => Some(Fault { slot: slot.into(), vec, comp }),
            _ => None,
        }
    }
}

/// What an evaluation answers, and what the lists and numbers that it was lent hold then.
#[derive(Clone, Debug, PartialEq, Eq)]
pub struct Evaluated {
    pub number: u32,
    pub fault: Fault,
    pub cells: Cells,
}

impl Evaluated {
    /// The first thing in which the library's answer is another, if one is.
    pub fn first_difference(&self, library: &Evaluated) -> Option<String> {
        if self.number != library.number {
            return Some(format!("number {}, in the library {}", self.number, library.number));
        }
        if self.fault != library.fault {
            return Some(format!("{:x?}, in the library {:x?}", self.fault, library.fault));
        }
        let (ours, theirs) = (&self.cells, &library.cells);
        if let Some(at) = (0..ours.registers.len()).find(|&at| ours.registers[at] != theirs.registers[at]) {
            let [ours, theirs] = [ours, theirs].map(|cells| cells.registers[at]);
            return Some(format!("register {at} is {ours:#010x}, in the library {theirs:#010x}"));
        }
        let at = (0..ours.truths.len()).find(|&at| ours.truths[at] != theirs.truths[at])?;
        Some(format!("truth {at} is {}, in the library {}", ours.truths[at], theirs.truths[at]))
    }
}

/// What the library answers for a run of strips in the layout of that number, from cells and whatever stands where the
/// fault goes: 0 if it is evaluated, else 7, 8 or 9. The cells become those after the run; a refusal must leave them as
/// they are, and every answer but 9 the fault.
pub fn evaluated(run: &[u8], layout: u32, mut cells: Cells, constants: &[u32], mut fault: Fault) -> Evaluated {
    let number = evaluate(run, layout, &mut cells, constants, &mut fault);
    Evaluated { number, fault, cells }
}

/// The number alone, with cells and fault in place.
pub fn evaluate(run: &[u8], layout: u32, cells: &mut Cells, constants: &[u32], fault: &mut Fault) -> u32 {
    evaluate_lists(run, layout, &mut cells.registers, &mut cells.truths, constants, fault)
}

/// The same with lists of any length. Other lengths than 255 and 11 must be refused with 7.
pub fn evaluate_lists(
    run: &[u8],
    layout: u32,
    registers: &mut [u32],
    truths: &mut [u8],
    constants: &[u32],
    fault: &mut Fault,
) -> u32 {
    // SAFETY: the pointers and lengths are those of live slices and of three numbers. The library writes to registers,
    // truths and the numbers alone, which are borrowed for that and do not overlap.
    unsafe {
        raw::mehkura_evaluate(
            run.as_ptr(),
            run.len(),
            layout,
            registers.as_mut_ptr(),
            registers.len(),
            truths.as_mut_ptr(),
            truths.len(),
            constants.as_ptr(),
            constants.len(),
            &mut fault.slot,
            &mut fault.vec,
            &mut fault.comp,
        )
    }
}

/// The number that the library gives for a record: 0 if it is translated, else 1 to 6. Then the strip stands at the
/// room's start, `written` is its length, and the marks (32 words in 128 bytes) are raised. A refusal must leave all
/// three as they are.
pub fn translate(record: &[u8], marks: &mut [u8], room: &mut [u8], written: &mut usize) -> u32 {
    // SAFETY: the pointers and lengths are those of live slices and of one number. The library writes to marks, room
    // and the number alone, which are borrowed for that and do not overlap.
    unsafe {
        raw::mehkura_translate(
            record.as_ptr(),
            record.len(),
            marks.as_mut_ptr(),
            marks.len(),
            room.as_mut_ptr(),
            room.len(),
            written,
        )
    }
}

/// The number that the library gives for a run of strips and a list of cells: 0 if the cells became those that can
/// matter to them, else 7. A refusal must leave them as they are.
pub fn reach(run: &[u8], cells: &mut [u8]) -> u32 {
    // SAFETY: the pointers and lengths are those of live slices. The library writes to the cells alone, which are
    // borrowed for that and do not overlap the run.
    unsafe { raw::mehkura_reach(run.as_ptr(), run.len(), cells.as_mut_ptr(), cells.len()) }
}

/// The number that the library gives for a run of strips in the layout of that number: 0 if it is converted, else 7 or
/// 6. Then the run in the other layout stands at the room's start, and `written` is its length. A refusal must leave
/// both as they are.
pub fn convert(run: &[u8], layout: u32, room: &mut [u8], written: &mut usize) -> u32 {
    // SAFETY: the pointers and lengths are those of live slices and of one number. The library writes to room and the
    // number alone, which are borrowed for that and do not overlap.
    unsafe { raw::mehkura_convert(run.as_ptr(), run.len(), layout, room.as_mut_ptr(), room.len(), written) }
}

/// The number that the library gives for a strip, a bound and a table of ids: 0 if it is written, else 7, 17, 10 or 11.
/// Then its words stand at the room's start, and `told` says how many there are, how many of them are the constants, and
/// which id is free. A refusal must leave both as they are.
pub fn to_spirv(strip: &[u8], bound: u32, table: &[u32], room: &mut [u32], told: &mut Written) -> u32 {
    // SAFETY: the pointers and lengths are those of live slices and of three numbers. The library writes to room and the
    // numbers alone, which are borrowed for that and do not overlap.
    unsafe {
        raw::mehkura_to_spirv(
            strip.as_ptr(),
            strip.len(),
            bound,
            table.as_ptr(),
            table.len(),
            room.as_mut_ptr(),
            room.len(),
            &mut told.words,
            &mut told.constants,
            &mut told.next,
        )
    }
}
