//! The program `crates/works`: its stored files are what the commands write, and the works do what they are for.

use std::collections::HashSet;

use oracle::record::RECORD_LEN;
use oracle::works::{CONDITIONS, COUNT, STARTS, STEPS, SUMS, byte, count, counts, input, lines, packings};

#[test]
fn the_stored_files_are_what_the_commands_write() {
    assert!(include_bytes!("../../crates/works/stdin")[..] == input(), "see `oracle works --records`");
    assert!(include_str!("../../crates/works/stdout") == lines(), "see `oracle works`");
    // The program takes two records of 18 bytes for each work.
    assert_eq!((COUNT.len(), CONDITIONS.len()), (36, 36));
}

/// The theorems `count-counts` and `conditions-pack` speak of the records in the samples.
#[test]
fn the_definitions_have_the_same_records() {
    let definitions = include_str!("../../crates/meaning/specs/Works.antt");
    for record in COUNT.chunks(RECORD_LEN).chain(CONDITIONS.chunks(RECORD_LEN)) {
        let bytes: String = record.iter().map(|byte| format!("{byte} ∷ ")).collect();
        assert!(definitions.contains(&format!("= {bytes}[]\n")), "{bytes}");
    }
}

/// The same count on 64 bits, without records.
#[test]
fn the_count_is_a_count_on_64_bits() {
    let mut steps = counts().into_iter();
    for start in STARTS {
        for step in 0..STEPS as u64 {
            let taken = steps.next().expect("a step");
            assert_eq!(count(&taken.before), start.wrapping_add(step));
            assert_eq!(count(&taken.after), start.wrapping_add(step + 1));
        }
    }
    assert!(steps.next().is_none());
}

/// R1 changes on the third step from 0xfffffffd and on no other; the same before the wrap of 64 bits.
#[test]
fn the_count_passes_32_bits_on_the_right_step() {
    let high: Vec<u32> = counts().iter().map(|step| step.after.registers[1]).collect();
    assert_eq!(high[..STEPS], [0, 0, 1, 1, 1]);
    assert_eq!(high[STEPS..2 * STEPS], [0xffff_ffff, 0xffff_ffff, 0, 0, 0]);
    assert_eq!(high[2 * STEPS..3 * STEPS], [0x7fff_ffff, 0x8000_0000, 0x8000_0000, 0x8000_0000, 0x8000_0000]);
    let text = lines();
    assert!(text.contains("\ncount 00000000ffffffff + 1 = 0000000100000000 Z1 S0 C1 O0, others kept\n"));
    assert!(text.contains("\ncount ffffffffffffffff + 1 = 0000000000000000 Z1 S0 C1 O0, others kept\n"));
}

/// The flags from sums on 33 bits and of signed numbers; the rest of R2 stays.
#[test]
fn the_number_beside_the_conditions_survives() {
    let mut numbers = HashSet::new();
    for (at, step) in packings().iter().enumerate() {
        let (a, b) = SUMS[at / 2];
        let wide = u64::from(a) + u64::from(b);
        let (sum, overflow) = (a as i32).overflowing_add(b as i32);
        let flags = [sum == 0, sum < 0, wide >> 32 == 1, overflow];
        let bits = flags.iter().rev().fold(0, |bits, flag| bits << 1 | u32::from(*flag));
        let (before, after) = (&step.before, &step.after);
        assert_eq!((after.flags, after.registers[0]), (flags, sum as u32));
        assert_eq!(byte(after.registers[2]) >> 4, byte(before.registers[2]) >> 4);
        assert_eq!(byte(after.registers[2]) & 0xf, bits);
        assert_eq!(after.registers[2] & 0xffff_00ff, before.registers[2] & 0xffff_00ff);
        numbers.insert((byte(before.registers[2]) >> 4, bits));
    }
    assert_eq!(numbers.iter().map(|(number, _)| number).collect::<HashSet<_>>().len(), 16);
    assert_eq!(numbers.iter().map(|(_, bits)| bits).collect::<HashSet<_>>().len(), SUMS.len());
}

/// Sums of two words of eight bits leave the same nine sets of flags, and the sums named here leave all of them.
#[test]
fn no_sum_leaves_other_flags() {
    let mut all = HashSet::new();
    for a in 0..=u8::MAX {
        for b in 0..=u8::MAX {
            let (sum, overflow) = (a as i8).overflowing_add(b as i8);
            all.insert([sum == 0, sum < 0, a.checked_add(b).is_none(), overflow]);
        }
    }
    assert_eq!(packings().iter().map(|step| step.after.flags).collect::<HashSet<_>>(), all);
}

#[test]
fn no_other_cell_changes() {
    assert!(lines().lines().all(|line| line.ends_with(", others kept")));
}
