//! The two works of `samples/`, for the program `crates/works`: its input, and the lines that it must write.
//!
//! The lines come from the meanings alone, record by record. No strip is made or evaluated here.

use std::fmt::Write;

use crate::meaning::{State, meaning};
use crate::record::{RECORD_LEN, Record};

/// The records of the works, as `samples/` has them.
pub const COUNT: &[u8] = include_bytes!("../../samples/count.bin");
pub const CONDITIONS: &[u8] = include_bytes!("../../samples/conditions.bin");

/// Where the count starts, and how often it steps from each start: the third step passes 2^32, the third wraps 2^64,
/// the second turns the sign of R1, the second passes a multiple of 2^32, and none.
pub const STARTS: [u64; 5] = [0xffff_fffd, 0xffff_ffff_ffff_fffd, 0x7fff_ffff_ffff_fffe, 0x1234_5678_ffff_fffe, 0];
pub const STEPS: usize = 5;

/// What R2 holds beside the byte, and beside the count.
const REST: u32 = 0xabcd_00ef;

/// Two words for each set of flags that a sum of two words can leave: none, Z, S, C, ZC, SC, SO, CO, ZCO.
pub const SUMS: [(u32, u32); 9] = [
    (1, 2),
    (0, 0),
    (0xffff_fff0, 1),
    (0xffff_ffff, 2),
    (0xffff_ffff, 1),
    (0xffff_ffff, 0xffff_ffff),
    (0x7fff_ffff, 1),
    (0x8000_0000, 0xffff_ffff),
    (0x8000_0000, 0x8000_0000),
];

/// The program's input: the count's records, then the conditions'.
pub fn input() -> Vec<u8> {
    [COUNT, CONDITIONS].concat()
}

/// The lines that the program must write.
pub fn lines() -> String {
    let mut text = String::new();
    for step in counts() {
        let Step { before, after } = &step;
        write!(text, "count {:016x} + 1 = {:016x}", count(before), count(after)).expect("a string");
        end(&mut text, &step, "", &[0, 1]);
    }
    for step in packings() {
        let [r, s] = [&step.before.registers, &step.after.registers];
        write!(text, "conditions {:08x} + {:08x} = {:08x}", r[0], r[1], s[0]).expect("a string");
        let packed = format!(", byte {:02x} -> {:02x}, R2 {:08x} -> {:08x}", byte(r[2]), byte(s[2]), r[2], s[2]);
        end(&mut text, &step, &packed, &[0, 2]);
    }
    text
}

/// The states before and after a work.
pub struct Step {
    pub before: State,
    pub after: State,
}

/// The steps of the count, five from each start.
pub fn counts() -> Vec<Step> {
    let mut steps = Vec::new();
    for from in STARTS {
        let mut state = start([from as u32, (from >> 32) as u32, REST | 0x9f00]);
        for _ in 0..STEPS {
            let after = run(COUNT, &state);
            steps.push(Step { before: state, after: after.clone() });
            state = after;
        }
    }
    steps
}

/// Each sum twice, over numbers from 0 to 15: with zeros in the low half of the byte, and with ones.
pub fn packings() -> Vec<Step> {
    let bytes = (0..).map(|at: u32| at % 16 * 0x10 + at % 2 * 0xf);
    let sums = SUMS.iter().flat_map(|sum| [sum, sum]);
    sums.zip(bytes)
        .map(|((a, b), byte)| {
            let before = start([*a, *b, REST | byte << 8]);
            Step { after: run(CONDITIONS, &before), before }
        })
        .collect()
}

/// The count in R1 and R0.
pub fn count(state: &State) -> u64 {
    u64::from(state.registers[1]) << 32 | u64::from(state.registers[0])
}

/// Byte 1.
pub fn byte(word: u32) -> u32 {
    word / 0x100 % 0x100
}

/// Three registers as given, the others with their number in each byte; predicates 1, 3 and 5 and all flags are true.
fn start(first: [u32; 3]) -> State {
    let registers = std::array::from_fn(|n| first.get(n).copied().unwrap_or(n as u32 * 0x0101_0101));
    State { registers, predicates: std::array::from_fn(|n| n % 2 == 1), flags: [true; 4] }
}

/// The meanings of a work's records, one after another.
fn run(records: &[u8], state: &State) -> State {
    records.chunks(RECORD_LEN).fold(state.clone(), |state, bytes| {
        let record = Record::parse(bytes).expect("18 bytes");
        meaning(&record, &state, &[])
    })
}

/// The flags, a part of the line, and whether all registers but the named ones and all predicates are as before.
fn end(text: &mut String, step: &Step, part: &str, named: &[usize]) {
    let Step { before, after } = step;
    for (name, flag) in ["Z", "S", "C", "O"].iter().zip(after.flags) {
        write!(text, " {name}{}", u8::from(flag)).expect("a string");
    }
    let kept = (0..255).all(|n| named.contains(&n) || before.registers[n] == after.registers[n]);
    let others = if kept && before.predicates == after.predicates { "kept" } else { "changed" };
    writeln!(text, "{part}, others {others}").expect("a string");
}
