//! The hand-made cases of the program `crates/evaluation_cases`: the stored files are what the command writes, they
//! cover what they are for, and many of the answers are those worked out by hand.

use std::collections::{HashMap, HashSet};

use oracle::cases::{Case, answers, cases, constants, lines, name, start};
use oracle::format::{Immediate, signature};

/// The limits of the program: bytes of input, and bytes of one run.
const INPUT: usize = 262_144;
const RUN: usize = 1024;

/// The answers by name, each without the name.
fn by_name() -> HashMap<String, String> {
    let constants = constants();
    let short =
        |case: &Case| case.answer(&constants).trim_end().strip_suffix(&case.name).unwrap().trim_end().to_owned();
    cases().iter().map(|case| (case.name.clone(), short(case))).collect()
}

#[test]
fn the_stored_files_are_what_the_command_writes() {
    assert!(include_str!("../../crates/evaluation_cases/stdin") == lines(), "see `oracle cases`");
    assert!(include_str!("../../crates/evaluation_cases/stdout") == answers(), "see `oracle cases --answers`");
}

#[test]
fn the_program_can_read_the_cases() {
    assert!(lines().len() < INPUT);
    let mut names = HashSet::new();
    for case in cases() {
        assert!(case.run.len() <= RUN && case.lent <= constants().len(), "{}", case.name);
        assert!(!case.name.is_empty() && !case.name.contains('\n'), "{}", case.name);
        assert!(names.insert(case.name.clone()), "`{}` is there twice", case.name);
    }
}

#[test]
fn the_start_is_as_the_program_has_it() {
    let start = start();
    assert_eq!((start.registers[0], start.registers[1], start.registers[254]), (0, 0x0101_0101, 0xfefe_fefe));
    assert_eq!(start.predicates, [false, true, false, true, false, true, false]);
    assert_eq!(start.flags, [false, true, false, true]);
    assert_eq!(constants()[..4], [0, 0x9e37_79b1, 0x3c6e_f362, 0xdaa6_6d13]);
}

#[test]
fn every_kind_is_accepted_cut_and_given_undefined_operands() {
    let answers = by_name();
    // A close alone is no strip; the end is in every one.
    for kind in (1..=110).filter(|kind| *kind != 101) {
        let Some(signature) = signature(kind) else { continue };
        let title = name(kind);
        assert!(answers[&format!("kind {kind}, {title}")].starts_with('0'), "{title}");
        if signature.immediate != Immediate::None || !signature.operands.is_empty() {
            assert_eq!(answers[&format!("refused 7: {title} cut")], "7");
        }
        // Select has cases of its own.
        if (20..=93).contains(&kind) && kind != 90 {
            for place in 1..=signature.operands.len() {
                assert_eq!(answers[&format!("undefined into operand {place} of {title}")], "8");
            }
        }
    }
}

#[test]
fn a_refusal_changes_nothing() {
    let answers = by_name();
    for number in ["0", "7", "8", "9"] {
        let many = answers.values().filter(|answer| answer.starts_with(number)).count();
        assert!(many >= 40, "{number}: {many}");
    }
    for (name, answer) in answers {
        // With 9 three numbers stand beside it, with 7 and 8 nothing.
        let told = match answer.strip_prefix("9 ") {
            Some(fault) => {
                let names: Vec<_> = fault.split(' ').map(|number| number.split_once('=').unwrap().0).collect();
                names == ["slot", "vec", "comp"]
            }
            None => answer == "7" || answer == "8",
        };
        assert!(answer.starts_with('0') || told, "{name}: {answer}");
        assert!(!name.starts_with("refused 7") || answer == "7", "{name}: {answer}");
    }
}

#[test]
fn answers_worked_out_by_hand() {
    let answers = by_name();
    for (expected, name) in BY_HAND {
        assert_eq!(answers.get(*name).map(String::as_str), Some(*expected), "{name}");
    }
}

/// Answers and names. Register 5 holds 05050505 at the start; a truth goes to P0, which is false, and P1, which is true.
const BY_HAND: &[(&str, &str)] = &[
    ("0 Rfe=12345678", "word constant into register 254"),
    ("0 Rfe=00000000", "register 0 into register 254"),
    ("0 R00=fefefefe", "register 254 into register 0"),
    ("0 R7f=80808080", "register 128 into register 127"),
    ("0", "register 5 into itself"),
    ("0 P6=1", "true into predicate 6"),
    ("0", "true into predicate 5"),
    ("0 P5=0", "false into predicate 5"),
    ("0 Z=1", "true into flag 0"),
    ("0 C=1", "true into flag 2"),
    ("0 O=0", "false into flag 3"),
    ("0 P0=1", "predicate 1 loaded"),
    ("0 P1=0", "flag 2 loaded"),
    ("0 R01=05050505 R02=00000009 R05=00000009", "a load sees the register's store before it"),
    ("0 R05=00000001", "the last store stays"),
    ("0 R05=03030303", "notes between entries"),
    ("0", "values that nobody uses"),
    ("0 R05=edcba987", "not 12345678"),
    ("0 R05=1e6a2c48", "reverse 12345678"),
    ("0 R05=0000000d", "bit count 12345678"),
    ("0 R05=00000020", "bit count ffffffff"),
    ("0 R05=80000000", "cast_i 80000000"),
    ("0 R05=80000000", "SABS 80000000"),
    ("0 R05=00000001", "SABS ffffffff"),
    ("0 R05=7fffffff", "SABS 7fffffff"),
    ("0 R05=40000000", "SABS c0000000"),
    ("0 R05=ffffffff", "FIND_S_MSB 00000000"),
    ("0 R05=ffffffff", "FIND_S_MSB ffffffff"),
    ("0 R05=00000000", "FIND_S_MSB fffffffe"),
    ("0 R05=0000001e", "FIND_S_MSB 80000000"),
    ("0 R05=0000001d", "FIND_S_MSB c0000000"),
    ("0 R05=ffffffff", "FIND_U_MSB 00000000"),
    ("0 R05=0000001f", "FIND_U_MSB ffffffff"),
    ("0 R05=0000001c", "FIND_U_MSB 12345678"),
    ("0 R05=00000000", "add ffffffff 00000001"),
    ("0 R05=80000000", "add 7fffffff 00000001"),
    ("0 R05=ffffffff", "subtract 00000001 00000002"),
    ("0 R05=80000000", "subtract 00000000 80000000"),
    ("0 R05=00000001", "multiply ffffffff ffffffff"),
    ("0 R05=00000000", "multiply 80000000 80000000"),
    ("0 R05=12345678", "and 12345678 9abcdef8"),
    ("0 R05=9abcdef8", "or 12345678 9abcdef8"),
    ("0 R05=88888880", "xor 12345678 9abcdef8"),
    ("0 R05=7fffffff", "UMIN 7fffffff 80000000"),
    ("0 R05=80000000", "SMIN 7fffffff 80000000"),
    ("0 R05=80000000", "UMAX 7fffffff 80000000"),
    ("0 R05=7fffffff", "SMAX 7fffffff 80000000"),
    ("0 R05=80000001", "shift left 80000001 by 0"),
    ("0 R05=80000000", "shift left 80000001 by 31"),
    ("8", "shift left 80000001 by 32"),
    ("0 R05=23456780", "shift left 12345678 by 4"),
    ("0 R05=40000000", "shift right logical 80000001 by 1"),
    ("8", "shift right logical 80000001 by 33"),
    ("0 R05=c0000000", "shift right arithmetic 80000001 by 1"),
    ("0 R05=ffffffff", "shift right arithmetic 80000001 by 31"),
    ("0 R05=00000000", "shift right arithmetic 7fffffff by 31"),
    ("8", "shift right arithmetic 80000001 by 0x80000000"),
    ("0 P0=1", "80000000 equal 80000000"),
    ("0 P1=0", "80000000 not equal 80000000"),
    ("0 P0=1", "00000000 unsigned < ffffffff"),
    ("0 P1=0", "00000000 signed < ffffffff"),
    ("0 P1=0", "80000000 unsigned <= 7fffffff"),
    ("0 P0=1", "80000000 signed <= 7fffffff"),
    ("0 P1=0", "80000000 unsigned > 80000000"),
    ("0 P0=1", "80000000 signed >= 80000000"),
    ("0 P1=0", "truth not true"),
    ("0 P0=1", "truth and true true"),
    ("0 P1=0", "truth or false false"),
    ("0 P1=0", "truth not equal true true"),
    ("0 R05=09abcdef", "extract unsigned 9abcdef8 at 4 for 28"),
    ("0 R05=f9abcdef", "extract signed 9abcdef8 at 4 for 28"),
    ("0 R05=00000001", "extract unsigned 9abcdef8 at 31 for 1"),
    ("0 R05=ffffffff", "extract signed 9abcdef8 at 31 for 1"),
    ("0 R05=9abcdef8", "extract unsigned 9abcdef8 at 0 for 32"),
    ("8", "extract unsigned 9abcdef8 at 0 for 33"),
    ("8", "extract unsigned 9abcdef8 at 0xffffffff for 1"),
    ("0 R05=fffffff8", "extract signed 9abcdef8 at 0 for 4"),
    ("0 R05=00000000", "extract signed 12345678 at 32 for 0"),
    ("8", "extract signed 12345678 at 33 for 0"),
    ("0 R05=fffffffe", "extract signed 12345678 at 2 for 3"),
    ("0 R05=6abcdee7", "insert 12345677 into 6abcdee8 at 0 for 4"),
    ("0 R05=23456778", "insert 12345677 into 6abcdee8 at 4 for 28"),
    ("0 R05=eabcdee8", "insert 12345677 into 6abcdee8 at 31 for 1"),
    ("0 R05=6abcdee8", "insert 12345677 into 6abcdee8 at 32 for 0"),
    ("8", "insert 12345677 into 6abcdee8 at 33 for 0"),
    ("8", "insert 12345677 into 6abcdee8 at 32 for 0xffffffe0"),
    ("0 R05=ffffff8f", "insert 00000000 into ffffffff at 4 for 3"),
    ("0 R05=00000011", "select true"),
    ("0 R05=00000022", "select false"),
    ("0 R05=00000000", "select true, undefined the word not chosen"),
    ("8", "select true, undefined the chosen word"),
    ("8", "undefined into the condition of a select of one word twice"),
    ("0", "undefined made and not used"),
    ("8", "multiply undefined by 0"),
    ("8", "false and undefined"),
    ("8", "undefined opens a block"),
    ("8", "undefined into the comp of an address"),
    ("8", "a store before an undefined one is taken back"),
    ("9 slot=00 vec=00000000 comp=00000000", "slot 0 vec 0 comp 0 of 0 words"),
    ("0 R05=00000000", "slot 0 vec 0 comp 0 of 1 words"),
    // 4 * 9e3779b1.
    ("0 R05=78dde6c4", "slot 0 vec 1 comp 0 of 5 words"),
    ("9 slot=00 vec=00000001 comp=00000000", "slot 0 vec 1 comp 0 of 4 words"),
    // 2^14 * 9e3779b1.
    ("0 R05=de6c4000", "slot 1 vec 0 comp 0 of 16385 words"),
    ("9 slot=01 vec=00000000 comp=00000000", "slot 1 vec 0 comp 0 of 16384 words"),
    // (2^19 - 1) * 9e3779b1.
    ("0 R05=2f50864f", "slot 31 vec 4095 comp 3 of 524288 words"),
    ("9 slot=1f vec=00000fff comp=00000003", "slot 31 vec 4095 comp 3 of 524287 words"),
    ("9 slot=00 vec=00001000 comp=00000000", "slot 0 zero 0 vec 0x1000 comp 0 of all words"),
    ("9 slot=00 vec=00000000 comp=00000004", "slot 0 zero 0 vec 0 comp 4 of all words"),
    ("9 slot=00 vec=00000000 comp=00000000", "slot 0 zero 1 vec 0 comp 0 of all words"),
    // Place 1031.
    ("0 R05=316b17d7", "vec from a register, slot 0 vec 257 comp 3"),
    ("0 R05=00000007", "block taken"),
    ("0", "block skipped"),
    ("8", "block taken with an undefined register store"),
    ("0", "block skipped with an undefined register store"),
    ("9 slot=1f vec=00000000 comp=00000000", "block taken with a missing constant"),
    ("0 R05=05050506", "block skipped with a missing constant, a strip after it"),
    ("0 R05=00000003 P1=0", "block by predicate 0 negated, which it stores"),
    ("0", "block by flag 0"),
    ("0 R05=02020202", "block by R1 unsigned < R2"),
    ("0", "empty run"),
    ("0 R05=05050507", "two strips"),
    ("0 R05=00000007 R06=00000007", "the second strip loads what the first stored"),
    ("7", "values do not carry over"),
    ("8", "an address: vec bad, comp undefined"),
    ("9 slot=1f vec=00001000 comp=00001000", "an address: all bad"),
    ("8", "one strip: 8 by a register, then 9"),
    ("9 slot=01 vec=00000000 comp=00000000", "one strip: 9, then 8 by a register"),
    ("8", "strips: a store, then 8 and 9"),
    ("9 slot=01 vec=00000000 comp=00000000", "strips: a store, then 9 and 8"),
    ("9 slot=01 vec=00000000 comp=00000000", "strips: 9, a skipped block, 8"),
    ("8", "strips: 8 in a taken block, then a store"),
    ("0 R05=05050506", "strips: 8 in a skipped block, then a store"),
    ("9 slot=01 vec=00000000 comp=00000000", "one strip: 9, then a skipped block"),
    ("9 slot=09 vec=00000011 comp=00000002", "slot 9 zero 1 vec 17 comp 2 of all words"),
    ("9 slot=09 vec=00000011 comp=80000000", "slot 9 zero 0 vec 17 comp 0x80000000 of all words"),
    ("9 slot=09 vec=80000000 comp=00000002", "slot 9 zero 0 vec 0x80000000 comp 2 of all words"),
    ("9 slot=1e vec=80000000 comp=ffffffff", "slot 30 zero 0xffffffff vec 0x80000000 comp 0xffffffff of all words"),
    ("9 slot=07 vec=9abcdef8 comp=87654321", "slot 7 zero 0 vec 0x9abcdef8 comp 0x87654321 of all words"),
    ("9 slot=01 vec=00000000 comp=00000000", "one strip: 9, then 9 of another word"),
    ("9 slot=01 vec=00000003 comp=00000003", "one strip: 9 of another word, then 9"),
    ("9 slot=01 vec=00000020 comp=00000000", "one strip: 9 by zero, then 9 by comp"),
    ("9 slot=01 vec=00000000 comp=00000020", "one strip: 9 by comp, then 9 by zero"),
    ("9 slot=01 vec=00000000 comp=00000000", "strips: 9, then 9 of another word"),
    ("9 slot=02 vec=00000003 comp=00000001", "strips: 9 of another word, then 9"),
    ("9 slot=01 vec=00000000 comp=00000000", "strips: a store, 9, a store, 9 of another word"),
    ("8", "strips: 8, then 9 twice"),
    ("9 slot=05 vec=00000020 comp=00000020", "strips: 9 in a taken block, then 9"),
    ("9 slot=01 vec=00000000 comp=00000000", "strips: 9 in a skipped block, then 9"),
    ("0 R05=05050506", "strips: 9 in a skipped block, then a store"),
    ("7", "strips: 8, then a cut body"),
    ("7", "strips: 9, then an unknown kind"),
    ("7", "a skipped block: register 255"),
    ("0", "within: register 254 loaded"),
    ("0 P6=1", "within: predicate 6 stored"),
    ("0", "63 truths and the end"),
    ("0 R05=00000007", "64 entries, the last value stored"),
    ("0 P0=1", "a block in each of two strips"),
];
