//! The converter of #102: every body both ways against bytes written out by hand, its refusals on both sides of their
//! limits, and random runs there and back.
//!
//! In the hex of strips a space stands between kind, immediate and references; `|` is for the eye.

use oracle::convert::{convert, convert_plain};
use oracle::evaluate::{State, evaluate};
use oracle::format::{Entry, Immediate, Layout, Value, encode, kind, signature};
use oracle::generate::random_admitted;
use oracle::rng::Rng;
use oracle::shape::shape_ok;
use oracle::starts::{random_list_len, random_state, random_words};
use oracle::strips::{damage, evaluation_strip, near_miss, random_bytes, random_strip};
use oracle::{SLOTS, translate_entries};

/// What stands in the room before a call.
const UNUSED: u8 = 0xa5;

fn bytes(hex: &str) -> Vec<u8> {
    let digits: Vec<u8> = hex.chars().filter_map(|c| c.to_digit(16)).map(|d| d as u8).collect();
    assert!(digits.len().is_multiple_of(2), "{hex}");
    digits.chunks(2).map(|pair| pair[0] << 4 | pair[1]).collect()
}

/// The run in the other layout, or the refusal, with a room of so many bytes. What must be as it was is.
#[track_caller]
fn converted(run: &[u8], layout: Layout, room_len: usize) -> Result<Vec<u8>, u8> {
    let mut room = vec![UNUSED; room_len];
    let answer = convert(run, layout, &mut room);
    let mut again = vec![UNUSED; room_len];
    assert_eq!((convert_plain(run, layout, &mut again), &again), (answer, &room), "both converters: {run:02x?}");
    assert!(room[answer.unwrap_or(0)..].iter().all(|byte| *byte == UNUSED), "{run:02x?}: {answer:?}, {room:02x?}");
    answer.map(|len| room[..len].to_vec())
}

/// The run becomes the other one, with all the rooms that there are to try.
#[track_caller]
fn becomes(run: &[u8], layout: Layout, other: &[u8]) {
    for more in [0, 1, 100] {
        assert_eq!(converted(run, layout, other.len() + more), Ok(other.to_vec()), "{layout:?} {run:02x?}");
    }
    for short in (0..other.len()).rev().take(3).chain([0]).filter(|short| *short < other.len()) {
        assert_eq!(converted(run, layout, short), Err(6), "{layout:?} {run:02x?} into {short}");
    }
}

/// The two are the same run in the two layouts.
#[track_caller]
fn both(wide: &str, narrow: &str) {
    let (wide, narrow) = (bytes(wide), bytes(narrow));
    becomes(&wide, Layout::Wide, &narrow);
    becomes(&narrow, Layout::Narrow, &wide);
    let mut rng = Rng::new(1);
    for words in [&[][..], &[5; 40]] {
        let state = random_state(&mut rng);
        let ends = evaluate(&wide, Layout::Wide, &state, words);
        assert_eq!(ends, evaluate(&narrow, Layout::Narrow, &state, words), "{wide:02x?}");
    }
}

#[track_caller]
fn bad(hex: &str, layout: Layout) {
    for room in [0, 1, 1000] {
        assert_eq!(converted(&bytes(hex), layout, room), Err(7), "{layout:?} {hex}");
    }
}

#[test]
fn every_body() {
    // Without references both are the same bytes: bare kinds, a word, cells, a slot and a note.
    for same in ["", "ff", "ff ff ff", "02 | 03 | ff", "01 78563412 | 04 fe | 05 06 | 06 03 | 0a 1f | 6e 05 | ff"] {
        both(same, same);
    }
    // A store: the kind, a cell, one reference.
    both("04 09 | 07 fe 0000 | ff", "04 09 | 07 fe 00 | ff");
    both("02 | 05 03 | 08 06 0100 | ff", "02 | 05 03 | 08 06 01 | ff");
    both("06 02 | 03 | 09 00 0100 | ff", "06 02 | 03 | 09 00 01 | ff");
    // Four references: an address and an insert.
    both(
        "01 00000000 | 0a 00 | 01 09000000 | 01 03000000 | 0b 0100 0000 0200 0300 | 0c 0400 | 07 01 0500 | ff",
        "01 00000000 | 0a 00 | 01 09000000 | 01 03000000 | 0b 01 00 02 03 | 0c 04 | 07 01 05 | ff",
    );
    both(
        "04 00 | 04 01 | 01 08000000 | 01 10000000 | 5d 0000 0100 0200 0300 | 07 02 0400 | ff",
        "04 00 | 04 01 | 01 08000000 | 01 10000000 | 5d 00 01 02 03 | 07 02 04 | ff",
    );
    // Three: a select and both extracts.
    both(
        "05 00 | 04 01 | 04 02 | 5a 0000 0100 0200 | 07 03 0300 | ff",
        "05 00 | 04 01 | 04 02 | 5a 00 01 02 | 07 03 03 | ff",
    );
    for kind in ["5b", "5c"] {
        let values = "04 00 | 01 04000000 | 01 07000000";
        both(
            &format!("{values} | {kind} 0000 0100 0200 | 07 00 0300 | ff"),
            &format!("{values} | {kind} 00 01 02 | 07 00 03 | ff"),
        );
    }
    // Two: words to a word, words to a truth, truths.
    both("04 00 | 04 01 | 28 0100 0000 | 07 00 0200 | ff", "04 00 | 04 01 | 28 01 00 | 07 00 02 | ff");
    both("04 00 | 04 01 | 45 0000 0100 | 08 00 0200 | ff", "04 00 | 04 01 | 45 00 01 | 08 00 02 | ff");
    both("05 00 | 05 01 | 53 0100 0000 | 08 00 0200 | ff", "05 00 | 05 01 | 53 01 00 | 08 00 02 | ff");
    // One: of a word, of a truth, and a block.
    both("04 00 | 15 0000 | 07 00 0100 | ff", "04 00 | 15 00 | 07 00 01 | ff");
    both("05 00 | 50 0000 | 08 01 0100 | ff", "05 00 | 50 00 | 08 01 01 | ff");
    both("05 00 | 64 0000 | 03 | 08 00 0100 | 65 | ff", "05 00 | 64 00 | 03 | 08 00 01 | 65 | ff");
    // Strips one after another, the last value of a strip with the most of them.
    both("02 | 08 00 0000 | ff | ff | 04 00 | 14 0000 | ff", "02 | 08 00 00 | ff | ff | 04 00 | 14 00 | ff");
    both(&format!("{} 08 00 3d00 | ff", "02".repeat(62)), &format!("{} 08 00 3d | ff", "02".repeat(62)));
}

#[test]
fn every_kind() {
    // Word 0, truth 1, slot 2, address 3.
    let number_of = |sort: &Value| match sort {
        Value::Word => 0,
        Value::Truth => 1,
        Value::Slot => 2,
        Value::Address => 3,
    };
    let start = [
        Entry::new(kind::WORD, 0, &[]),
        Entry::new(kind::TRUE, 0, &[]),
        Entry::new(kind::SLOT, 0, &[]),
        Entry::new(kind::ADDRESS, 0, &[2, 0, 0, 0]),
    ];
    for kind in (0..=254).filter(|kind| *kind != kind::CLOSE) {
        let Some(signature) = signature(kind) else { continue };
        let refs: Vec<u16> = signature.operands.iter().map(number_of).collect();
        let least = if let Immediate::Byte(least, _) = signature.immediate { least.into() } else { 0 };
        let mut strip = start.to_vec();
        strip.push(Entry::new(kind, least, &refs));
        if kind == kind::OPEN {
            strip.push(Entry::new(kind::CLOSE, 0, &[]));
        }
        strip.push(Entry::new(kind::END, 0, &[]));
        for layout in Layout::ALL {
            becomes(&encode(&strip, layout), layout, &encode(&strip, layout.other()));
        }
    }
}

#[test]
fn refusals() {
    // A wide reference keeps its upper byte: 0x0100 is not 0.
    for reference in ["0100", "4000", "ff00", "0001", "0080", "00ff", "ffff"] {
        bad(&format!("02 | 08 00 {reference} | ff"), Layout::Wide);
    }
    // A narrow one is a number below 64 or none.
    for reference in ["01", "3f", "40", "7f", "80", "ff"] {
        bad(&format!("02 | 08 00 {reference} | ff"), Layout::Narrow);
    }
    // The shape of the layout that is named, and of no other.
    bad("02 | 08 00 00 | ff", Layout::Wide);
    bad("02 | 08 00 0000 | ff", Layout::Narrow);
    // The whole run is looked at before anything is written.
    bad("02 | 08 00 0000 | ff | 04 ff | ff", Layout::Wide);
    bad("02 | 08 00 00 | ff | 04 ff | ff", Layout::Narrow);
    for layout in Layout::ALL {
        bad("00", layout);
        bad("02", layout);
        // No bytes become no bytes, also in a room of none.
        assert_eq!(converted(&[], layout, 0), Ok(vec![]));
    }
}

#[test]
fn the_same_bytes_in_both_layouts_mean_two_things() {
    let loads = "04 00 | 04 01 | 04 02 | 04 03 | 04 04 | 04 05 | 04 06 | 04 07";
    let run = bytes(&format!("{loads} 28 00 00 07 00 07 28 08 00 ff"));
    let mut start = State::default();
    start.registers[0] = 0x100;
    start.registers[7] = 0x20;
    // Wide: R40 = R0 + R7.
    becomes(&run, Layout::Wide, &bytes(&format!("{loads} | 28 00 07 | 07 28 08 | ff")));
    let mut end = start.clone();
    end.registers[40] = 0x120;
    assert_eq!(evaluate(&run, Layout::Wide, &start, &[]), Ok(end));
    // Narrow: a sum that nothing uses, R0 = R7, another such sum.
    becomes(&run, Layout::Narrow, &bytes(&format!("{loads} | 28 0000 0000 | 07 00 0700 | 28 0800 0000 | ff")));
    let mut end = start.clone();
    end.registers[0] = 0x20;
    assert_eq!(evaluate(&run, Layout::Narrow, &start, &[]), Ok(end));
}

/// Strips of one run: translated, made for evaluation, or of any sort.
fn random_strips(rng: &mut Rng) -> Vec<Vec<Entry>> {
    (0..rng.below(5))
        .map(|_| match rng.below(3) {
            0 => translate_entries(&random_admitted(rng).to_bytes(), &mut [0; SLOTS]).unwrap(),
            1 => evaluation_strip(rng),
            _ => random_strip(rng),
        })
        .collect()
}

#[test]
fn random_runs() {
    let mut rng = Rng::new(14);
    let words = random_words(&mut rng);
    for _ in 0..20_000 {
        let strips = random_strips(&mut rng);
        let [wide, narrow] = Layout::ALL.map(|layout| strips.iter().flat_map(|strip| encode(strip, layout)).collect());
        let (wide, narrow): (Vec<u8>, Vec<u8>) = (wide, narrow);
        becomes(&wide, Layout::Wide, &narrow);
        becomes(&narrow, Layout::Narrow, &wide);
        let state = random_state(&mut rng);
        let len = random_list_len(&mut rng, &wide, Layout::Wide, &state, &words);
        let [wide, narrow] = [(wide, Layout::Wide), (narrow, Layout::Narrow)]
            .map(|(run, layout)| evaluate(&run, layout, &state, &words[..len]));
        assert_eq!(wide, narrow);
    }
}

#[test]
fn bytes_that_are_mostly_no_run() {
    let mut rng = Rng::new(15);
    for layout in Layout::ALL {
        let (mut accepted, mut refused) = (0, 0);
        for _ in 0..60_000 {
            let entries = random_strip(&mut rng);
            let mut damaged = encode(&entries, layout);
            damage(&mut rng, &mut damaged);
            let cross = translate_entries(&random_admitted(&mut rng).to_bytes(), &mut [0; SLOTS]).unwrap();
            let cross = encode(&cross, layout.other());
            for run in [near_miss(&mut rng, entries, layout), damaged, random_bytes(&mut rng), cross] {
                let answer = converted(&run, layout, 2 * run.len());
                assert_eq!(answer.is_ok(), shape_ok(&run, layout), "{layout:?} {run:02x?}");
                match answer {
                    Ok(other) => {
                        accepted += 1;
                        becomes(&other, layout.other(), &run);
                    }
                    Err(number) => {
                        refused += 1;
                        assert_eq!(number, 7);
                    }
                }
            }
        }
        assert!(accepted > 10_000 && refused > 10_000, "{accepted} {refused}");
    }
}
