//! Reach: each clause of the rule on strips worked out by hand, the refusals, and random runs against a second, slower
//! definition over entries and sets.
//!
//! In the hex of strips a space stands between kind, immediate and references; `|` is for the eye.

use std::collections::BTreeSet;

use oracle::format::{Entry, Layout, encode, kind};
use oracle::generate::{dead_word, random_admitted, with_field};
use oracle::reach::{CELLS, CONSTANTS, FLAGS, PREDICATES, reach, reach_plain};
use oracle::record::Record;
use oracle::rng::Rng;
use oracle::strips::{damage, evaluation_strip, random_strip};
use oracle::{SLOTS, translate, translate_entries};

fn bytes(hex: &str) -> Vec<u8> {
    let digits: Vec<u8> = hex.chars().filter_map(|c| c.to_digit(16)).map(|d| d as u8).collect();
    assert!(digits.len().is_multiple_of(2), "{hex}");
    digits.chunks(2).map(|pair| pair[0] << 4 | pair[1]).collect()
}

/// Both reaches, which must say the same.
#[track_caller]
fn both(run: &[u8], cells: &mut [u8]) -> Result<(), u8> {
    let mut plain = cells.to_vec();
    let answer = reach(run, cells);
    assert_eq!(reach_plain(run, &mut plain), answer);
    assert_eq!(plain, cells);
    answer
}

/// The place of a cell by its name: R for registers, P predicates, F flags, C constant slots.
fn place(name: &str) -> usize {
    let (sort, number) = name.split_at(1);
    let (first, limit) = match sort {
        "R" => (0, 255),
        "P" => (PREDICATES, 7),
        "F" => (FLAGS, 4),
        "C" => (CONSTANTS, SLOTS),
        _ => panic!("{name}"),
    };
    let number: usize = number.parse().unwrap();
    assert!(number < limit, "{name}");
    first + number
}

/// The cells that are named, with a byte of 1 for each.
fn cells(names: &str) -> [u8; CELLS] {
    let mut cells = [0; CELLS];
    for name in names.split_whitespace() {
        cells[place(name)] = 1;
    }
    cells
}

/// Asked the first cells, the run gives the second ones.
#[track_caller]
fn gives_of(run: &[u8], asked: &str, expected: &str) {
    let mut found = cells(asked);
    assert_eq!(both(run, &mut found), Ok(()));
    let places = |cells: &[u8; CELLS]| -> Vec<usize> { (0..CELLS).filter(|&at| cells[at] != 0).collect() };
    assert_eq!(places(&found), places(&cells(expected)));
    assert!(found.iter().all(|&byte| byte <= 1));
}

#[track_caller]
fn gives(hex: &str, asked: &str, expected: &str) {
    gives_of(&bytes(hex), asked, expected);
}

// One strip.

#[test]
fn the_places_of_the_cells() {
    assert_eq!((PREDICATES, FLAGS, CONSTANTS, CELLS), (255, 262, 266, 298));
}

#[test]
fn an_empty_run_leaves_the_list() {
    gives("", "", "");
    gives("", "R0 R254 P0 P6 F0 F3 C0 C31", "R0 R254 P0 P6 F0 F3 C0 C31");
    gives("ff", "R0 C3", "R0 C3");
    gives("ff ff ff", "R0 C3", "R0 C3");
}

#[test]
fn a_strip_that_stores_none_of_the_list_leaves_it() {
    // R1 = R2.
    let copy = "04 02 | 07 01 0000 | ff";
    gives(copy, "", "");
    gives(copy, "R0 R2 R3 P1 F1 C1", "R0 R2 R3 P1 F1 C1");
    // It loads, reads a slot and has a block, but stores nothing.
    gives("05 00 | 04 02 | 0a 04 | 64 0000 | 65 | ff", "R2 R3 P0 C4 C5", "R2 R3 P0 C4 C5");
    gives("04 02 | 0a 04 | 06 01 | ff", "R1", "R1");
}

#[test]
fn stored_cells_go_out_and_loaded_ones_come_in() {
    gives("04 02 | 07 01 0000 | ff", "R1", "R2");
    gives("04 02 | 07 01 0000 | ff", "R1 R2 R3", "R2 R3");
    // A constant: nothing comes in.
    gives("01 00000000 | 07 01 0000 | ff", "R1 R5", "R5");
    // All that is stored goes out, though one of it is asked, and what another store needs comes in too.
    gives("04 02 | 07 01 0000 | 05 03 | 08 04 0100 | ff", "P4", "R2 P3");
    gives("04 02 | 07 01 0000 | 05 03 | 08 04 0100 | ff", "P4 R1", "R2 P3");
}

#[test]
fn every_sort_of_cell() {
    for register in [0, 1, 127, 128, 253, 254] {
        gives(&format!("04 {register:02x} | 07 07 0000 | ff"), "R7", &format!("R{register}"));
        gives(&format!("04 07 | 07 {register:02x} 0000 | ff"), &format!("R{register}"), "R7");
    }
    for predicate in 0..7 {
        gives(&format!("05 {predicate:02x} | 09 00 0000 | ff"), "F0", &format!("P{predicate}"));
        gives(&format!("06 00 | 08 {predicate:02x} 0000 | ff"), &format!("P{predicate}"), "F0");
    }
    for flag in 0..4 {
        gives(&format!("06 {flag:02x} | 08 00 0000 | ff"), "P0", &format!("F{flag}"));
        gives(&format!("05 00 | 09 {flag:02x} 0000 | ff"), &format!("F{flag}"), "P0");
    }
    for slot in 0..SLOTS {
        gives(&format!("0a {slot:02x} | 02 | 08 00 0100 | ff"), "P0", &format!("C{slot}"));
    }
    // A store names a register, a predicate or a flag by its own kind: the same number elsewhere is another cell.
    gives("04 09 | 07 03 0000 | ff", "P3 F3 C3", "P3 F3 C3");
    gives("05 05 | 08 03 0000 | ff", "R3 F3 C3", "R3 F3 C3");
    gives("06 02 | 09 03 0000 | ff", "R3 P3 C3", "R3 P3 C3");
}

#[test]
fn no_strip_stores_a_slot() {
    // A strip that only reads an asked slot stores none of the list; one that stores something else of it keeps the slot.
    gives("0a 03 | 04 01 | ff", "C3", "C3");
    gives("0a 03 | 04 01 | 07 02 0100 | ff", "C3", "C3");
    gives("0a 03 | 04 01 | 07 02 0100 | ff", "C3 C4 R2", "C3 C4 R1");
}

#[test]
fn what_is_loaded_comes_in_after_the_stores() {
    // R1 = R1 + R2: R1 goes out and comes in again.
    gives("04 01 | 04 02 | 28 0000 0100 | 07 01 0200 | ff", "R1", "R1 R2");
    // The load stands after the store.
    gives("01 00000000 | 07 01 0000 | 04 01 | ff", "R1", "R1");
    gives("02 | 08 01 0000 | 05 01 | ff", "P1", "P1");
    gives("02 | 09 01 0000 | 06 01 | ff", "F1", "F1");
    // Two cells exchanged.
    gives("04 01 | 04 02 | 07 01 0100 | 07 02 0000 | ff", "R1", "R1 R2");
}

#[test]
fn an_open_keeps_the_stored_cells() {
    gives("05 00 | 64 0000 | 04 02 | 07 01 0100 | 65 | ff", "R1", "R1 R2 P0");
    // Also what is stored before the block, in it, and by a condition that is constant.
    gives("04 02 | 07 01 0000 | 02 | 64 0100 | 65 | ff", "R1", "R1 R2");
    gives("03 | 64 0000 | 04 02 | 07 01 0100 | 65 | ff", "R1", "R1 R2");
    // A stored cell that is not of the list stays out.
    gives("05 00 | 64 0000 | 04 02 | 07 01 0100 | 07 03 0100 | 65 | ff", "R1", "R1 R2 P0");
    gives("05 00 | 64 0000 | 04 02 | 07 01 0100 | 65 | ff", "R3", "R3");
    // The open is of its own strip alone.
    let block = "05 00 | 64 0000 | 65 | ff";
    gives(&format!("{block} | 04 02 | 07 01 0000 | ff"), "R1", "R2");
    gives(&format!("04 02 | 07 01 0000 | ff | {block}"), "R1", "R2");
}

#[test]
fn entries_that_do_nothing_count() {
    // Loads that nothing uses.
    gives("04 09 | 05 06 | 06 03 | 0a 1f | 01 00000000 | 07 01 0400 | ff", "R1", "R9 P6 F3 C31");
    // A store that another one follows, and a store of the cell's own value.
    gives("04 02 | 07 01 0000 | 04 03 | 07 01 0100 | ff", "R1", "R2 R3");
    gives("04 01 | 07 01 0000 | 04 02 | 07 03 0100 | ff", "R3", "R1 R2");
    gives("04 01 | 07 01 0000 | ff", "R1", "R1");
    // The same cell loaded twice.
    gives("04 02 | 04 02 | 07 01 0100 | ff", "R1", "R2");
    // Notes, constants and operations are no cells, whatever their bytes are.
    gives("6e 04 | 01 04050607 | 17 0000 | 07 01 0100 | 6e 05 | ff", "R1", "");
}

#[test]
fn slots_come_in_with_their_entry() {
    // Slot 5, the address from three words, the load: the slot is that of entry 10, whatever 11 and 12 are.
    let address = "0a 05 | 04 01 | 04 02 | 04 03 | 0b 0000 0100 0200 0300";
    gives(&format!("{address} | 0c 0400 | 07 06 0500 | ff"), "R6", "R1 R2 R3 C5");
    // The address is not used; there is no address.
    gives(&format!("{address} | 07 06 0100 | ff"), "R6", "R1 R2 R3 C5");
    gives("0a 05 | 0a 06 | 04 01 | 07 06 0200 | ff", "R6", "R1 C5 C6");
    // An address and a load bring in no slot but theirs.
    gives("0a 00 | 01 00000000 | 0b 0000 0100 0100 0100 | 0c 0200 | 07 06 0300 | ff", "R6", "C0");
}

// Runs.

#[test]
fn from_the_last_strip_back() {
    let one_from_two = "04 02 | 07 01 0000 | ff";
    let three_from_one = "04 01 | 07 03 0000 | ff";
    gives(&format!("{one_from_two} | {three_from_one}"), "R3", "R2");
    gives(&format!("{one_from_two} | {three_from_one}"), "R1", "R2");
    // In the other order the first strip has taken R1 before it is stored.
    gives(&format!("{three_from_one} | {one_from_two}"), "R3", "R1");
    gives(&format!("{three_from_one} | {one_from_two}"), "R1 R3", "R1 R2");
    // What went out is not asked of the strips before.
    gives(&format!("{one_from_two} | 01 00000000 | 07 01 0000 | ff"), "R1", "");
    // Strips that do not matter, between and at both ends.
    let idle = "04 09 | 07 08 0000 | ff";
    gives(&format!("{idle} | {one_from_two} | {idle} | ff | {three_from_one} | {idle}"), "R3", "R2");
    // Long chains: each strip copies a register to the next one, and the last to the first.
    let chain = |strips: usize| -> String {
        (0..strips).map(|n| format!("04 {:02x} | 07 {:02x} 0000 | ff |", n % 255, (n + 1) % 255)).collect()
    };
    gives(&chain(254), "R254", "R0");
    gives(&chain(254), "R253 R254 P3", "R0 P3");
    // P5 is whether R235 equals itself, at the end of 1000 copies.
    gives(&format!("{} 04 eb | 3c 0000 0000 | 08 05 0100 | ff", chain(1000)), "P5 P3", "R0 P3");
}

/// The strip of a record.
fn strip_of(record: Record) -> Vec<u8> {
    translate(&record.to_bytes(), &mut [0; SLOTS]).unwrap()
}

#[test]
fn the_bench_row() {
    // iadd R1, R2, R3, always; mov R4, R1 under P0. Destination from bit 0, a from 8, guard from 16, b from 20.
    let sum = strip_of(Record { kind: 9, form: 0, value: 0, word: 1 | 2 << 8 | 7 << 16 | 3 << 20 });
    let copy = strip_of(Record { kind: 1, form: 0, value: 0, word: 4 | 1 << 20 });
    let run = [sum, copy].concat();
    gives_of(&run, "R4", "R2 R3 R4 P0");
    gives_of(&run, "R1", "R2 R3");
    gives_of(&run, "R4 R1", "R2 R3 R4 P0");
    gives_of(&run, "P0 R9", "P0 R9");
}

#[test]
fn a_constant_of_a_record() {
    // mov R4, c[0x11][0x20]: the slot from bit 34, the place from 20.
    let load = strip_of(Record { kind: 1, form: 1, value: 0, word: 4 | 7 << 16 | 8 << 20 | 0x11 << 34 });
    gives_of(&load, "R4 R5", "R5 C17");
    // Guard 7 negated: the strip is the end alone.
    let never = strip_of(Record { kind: 1, form: 1, value: 0, word: 4 | 15 << 16 | 8 << 20 | 0x11 << 34 });
    assert_eq!(never, [255]);
    gives_of(&never, "R4 R5", "R4 R5");
}

// Bytes.

#[test]
fn listed_is_any_byte_but_0_and_is_answered_as_1() {
    let raw: [u8; CELLS] = std::array::from_fn(|at| at as u8);
    for run in ["", "ff", "04 00 | 07 00 0000 | ff"] {
        let mut cells = raw;
        assert_eq!(both(&bytes(run), &mut cells), Ok(()));
        assert_eq!(cells, raw.map(|byte| u8::from(byte != 0)), "{run}");
    }
    for byte in 1..=255 {
        let mut cells = [0; CELLS];
        cells[place("R1")] = byte;
        cells[place("C3")] = byte;
        assert_eq!(both(&bytes("04 02 | 07 01 0000 | ff"), &mut cells), Ok(()));
        assert_eq!(cells, self::cells("R2 C3"));
    }
}

#[test]
fn refusals_leave_the_bytes() {
    let raw: [u8; CELLS] = std::array::from_fn(|at| (at * 7) as u8);
    for run in
        ["00", "04 02 | 07 01 0000", "04 02 | 07 01 0100 | ff", "04 ff | ff", "0a 20 | ff", "05 07 | ff", "06 04 | ff"]
    {
        let mut cells = raw;
        assert_eq!(both(&bytes(run), &mut cells), Err(7), "{run}");
        assert_eq!(cells, raw);
    }
    // The whole run is tested first: a strip that is wrong at its start, its end, or between.
    let good = "04 02 | 07 01 0000 | ff";
    for run in [format!("{good} | 64"), format!("64 | {good}"), format!("{good} | 05 00 | 64 0000 | ff | {good}")] {
        let mut cells = raw;
        assert_eq!(both(&bytes(&run), &mut cells), Err(7), "{run}");
        assert_eq!(cells, raw);
    }
}

#[test]
fn other_lengths_are_refused() {
    for run in ["", "04 02 | 07 01 0000 | ff", "00"] {
        for len in (0..CELLS).chain([CELLS + 1, CELLS + 2, 2 * CELLS]) {
            let raw: Vec<u8> = (0..len).map(|at| (at * 3) as u8).collect();
            let mut cells = raw.clone();
            assert_eq!(both(&bytes(run), &mut cells), Err(7), "{len}");
            assert_eq!(cells, raw);
        }
    }
}

// Random runs.

/// A cell: the kind of the entry that loads it, and its number.
type Cell = (u8, u8);

fn loaded(entry: &Entry) -> Option<Cell> {
    matches!(entry.kind, kind::LOAD_REGISTER | kind::LOAD_PREDICATE | kind::LOAD_FLAG | kind::SLOT)
        .then_some((entry.kind, entry.immediate as u8))
}

fn stored(entry: &Entry) -> Option<Cell> {
    let of = match entry.kind {
        kind::STORE_REGISTER => kind::LOAD_REGISTER,
        kind::STORE_PREDICATE => kind::LOAD_PREDICATE,
        kind::STORE_FLAG => kind::LOAD_FLAG,
        _ => return None,
    };
    Some((of, entry.immediate as u8))
}

/// All cells in the order of the bytes.
fn all_cells() -> Vec<Cell> {
    let of = |kind: u8, count: u8| (0..count).map(move |number| (kind, number));
    of(4, 255).chain(of(5, 7)).chain(of(6, 4)).chain(of(10, 32)).collect()
}

/// The second definition: entries instead of bytes, sets instead of lists, as the rule reads.
fn by_sets(strips: &[Vec<Entry>], mut list: BTreeSet<Cell>) -> BTreeSet<Cell> {
    for strip in strips.iter().rev() {
        let loads: BTreeSet<Cell> = strip.iter().filter_map(loaded).collect();
        let stores: BTreeSet<Cell> = strip.iter().filter_map(stored).collect();
        if list.is_disjoint(&stores) {
            continue;
        }
        if !strip.iter().any(|entry| entry.kind == kind::OPEN) {
            list = &list - &stores;
        }
        list = &list | &loads;
    }
    list
}

/// A translated strip whose registers are few.
fn translated_near(rng: &mut Rng) -> Vec<Entry> {
    loop {
        let mut record = random_admitted(rng);
        for lo in [0, 8, 20, 39] {
            record.word = with_field(record.word, lo, 8, rng.below(4) as u64);
        }
        if let Ok(entries) = translate_entries(&record.to_bytes(), &mut [0; SLOTS]) {
            return entries;
        }
    }
}

#[test]
fn random_runs_by_the_second_definition() {
    let mut rng = Rng::new(11);
    let all = all_cells();
    let (mut grown, mut shrunk, mut same) = (0, 0, 0);
    for _ in 0..20_000 {
        let strips: Vec<Vec<Entry>> = (0..rng.below(12))
            .map(|_| match rng.below(3) {
                0 => random_strip(&mut rng),
                1 => evaluation_strip(&mut rng),
                _ => translated_near(&mut rng),
            })
            .collect();
        let run: Vec<u8> = strips.iter().flat_map(|strip| encode(strip, Layout::Wide)).collect();
        let rare = rng.pick(&[1, 2, 8, 64, 512]);
        let raw: [u8; CELLS] = std::array::from_fn(|_| if rng.one_in(rare) { 1 + rng.below(255) as u8 } else { 0 });
        let asked: BTreeSet<Cell> = all.iter().zip(raw).filter(|(_, byte)| *byte != 0).map(|(cell, _)| *cell).collect();
        let expected = by_sets(&strips, asked.clone());
        let mut found = raw;
        assert_eq!(both(&run, &mut found), Ok(()));
        let bytes: Vec<u8> = all.iter().map(|cell| u8::from(expected.contains(cell))).collect();
        assert_eq!(&found[..], bytes);
        grown += usize::from(!expected.is_subset(&asked));
        shrunk += usize::from(!asked.is_subset(&expected));
        same += usize::from(expected == asked);
    }
    assert!(grown > 2000 && shrunk > 1000 && same > 1000, "{grown} {shrunk} {same}");
}

/// Dead words load and store nothing, so a run with them gives the list that it gives without them.
#[test]
fn dead_words_leave_the_list() {
    let mut rng = Rng::new(13);
    let mut dead = 0;
    for _ in 0..5000 {
        let records: Vec<Record> = (0..rng.below(12))
            .map(|_| if rng.one_in(2) { dead_word(&mut rng) } else { random_admitted(&mut rng) })
            .collect();
        let run_of = |records: &mut dyn Iterator<Item = &Record>| -> Vec<u8> {
            records.flat_map(|record| translate(&record.to_bytes(), &mut [0; SLOTS]).unwrap()).collect()
        };
        let with = run_of(&mut records.iter());
        let without = run_of(&mut records.iter().filter(|record| !record.never_runs()));
        dead += with.len() - without.len();
        let asked: [u8; CELLS] = std::array::from_fn(|_| u8::from(rng.one_in(8)));
        let (mut found, mut expected) = (asked, asked);
        assert_eq!((both(&with, &mut found), both(&without, &mut expected)), (Ok(()), Ok(())));
        assert_eq!(found, expected);
    }
    assert!(dead > 10_000, "{dead}");
}

#[test]
fn random_damage_is_refused_or_answered() {
    let mut rng = Rng::new(12);
    let (mut refused, mut answered) = (0, 0);
    for _ in 0..20_000 {
        let mut run = encode(&evaluation_strip(&mut rng), Layout::Wide);
        damage(&mut rng, &mut run);
        let raw: [u8; CELLS] = std::array::from_fn(|_| rng.next_u64() as u8);
        let mut cells = raw;
        match both(&run, &mut cells) {
            Ok(()) => {
                answered += 1;
                assert!(oracle::shape::shape_ok(&run, Layout::Wide));
                assert!(cells.iter().all(|&byte| byte <= 1));
            }
            Err(number) => {
                refused += 1;
                assert_eq!((number, cells), (7, raw));
            }
        }
    }
    assert!(refused > 5000 && answered > 1000, "{refused} {answered}");
}
