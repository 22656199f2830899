//! The shape test, cause by cause and on both sides of each limit, and against a second, slower definition. Every run is
//! tested as a whole and in blocks.

use oracle::format::{Immediate, Layout, Value, encode, kind, signature};
use oracle::generate::random_admitted;
use oracle::rng::Rng;
use oracle::shape::{Blocks, Fed, shape_ok};
use oracle::strips::{damage, near_miss, random_bytes, random_strip};
use oracle::{SLOTS, translate_entries};

fn bytes(hex: &str) -> Vec<u8> {
    let digits: Vec<u8> = hex.chars().filter_map(|c| c.to_digit(16)).map(|d| d as u8).collect();
    assert!(digits.len().is_multiple_of(2), "{hex}");
    digits.chunks(2).map(|pair| pair[0] << 4 | pair[1]).collect()
}

#[track_caller]
fn good(hex: &str) {
    assert!(well_formed(&bytes(hex), Layout::Wide), "{hex}");
}

#[track_caller]
fn bad(hex: &str) {
    assert!(!well_formed(&bytes(hex), Layout::Wide), "{hex}");
}

/// The verdict, by both definitions and in blocks of some sizes.
#[track_caller]
fn well_formed(run: &[u8], layout: Layout) -> bool {
    let verdict = shape_ok(run, layout);
    assert_eq!(verdict, by_causes(run, layout), "{layout:?} {run:02x?}");
    for size in [1, 3, 8] {
        let (_, ends) = in_blocks(run.chunks(size), layout);
        assert_eq!(ends, verdict, "{layout:?} {run:02x?} in blocks of {size}");
    }
    verdict
}

/// All that blocks led to, one after another, and whether the run ends after them.
#[track_caller]
fn in_blocks<'a>(run: impl Iterator<Item = &'a [u8]>, layout: Layout) -> (Fed, bool) {
    let mut blocks = Blocks::new(layout);
    let mut all = Fed::default();
    for block in run {
        let fed = blocks.feed(block);
        assert!(!all.refused || fed == Fed { refused: true, ..Fed::default() }, "a refused run stays refused");
        all = Fed { passed: all.passed + fed.passed, strips: all.strips + fed.strips, refused: fed.refused };
    }
    (all, blocks.ends())
}

#[test]
fn runs() {
    good("");
    good("ff");
    good("ff ff");
    good("02 ff 03 ff");
    bad("ff 00");
    bad("ff 02");
    // References do not reach back over an end.
    bad("02 ff 50 0000 ff");
}

#[test]
fn unknown_kinds() {
    let known: Vec<u8> = (0..=255).filter(|&k| signature(k).is_some()).collect();
    let mut expected: Vec<u8> =
        (1..=12).chain(20..=27).chain(40..=52).chain(60..=69).chain(80..=83).chain(90..=93).collect();
    expected.extend([100, 101, 110, 255]);
    assert_eq!(known, expected);
    // A row of values of each sort, so that no reference is at fault: word 0, truth 1, slot 2, address 3.
    let start = bytes("04 00 02 0a 00 0b 0200 0000 0000 0000");
    for kind in 0..=255 {
        if !known.contains(&kind) {
            for tail in [&[][..], &[0; 1], &[0; 2], &[0; 4], &[0; 8]] {
                let mut strip = start.clone();
                strip.push(kind);
                strip.extend(tail);
                strip.push(255);
                assert!(!shape_ok(&strip, Layout::Wide), "{kind}");
            }
        }
    }
}

#[test]
fn cut_bodies() {
    for whole in [
        "01 00000000",
        "04 00",
        "05 00",
        "06 00",
        "0a 00",
        "04 00 07 00 0000",
        "02 08 00 0000",
        "02 09 00 0000",
        "0a 00 04 00 0b 0000 0100 0100 0100",
        "0a 00 04 00 0b 0000 0100 0100 0100 0c 0200",
        "04 00 14 0000",
        "04 00 28 0000 0000",
        "04 00 3c 0000 0000",
        "02 50 0000",
        "02 51 0000 0000",
        "02 04 00 5a 0000 0100 0100",
        "04 00 5b 0000 0000 0000",
        "04 00 5d 0000 0000 0000 0000",
        "6e 01",
    ] {
        good(&format!("{whole} ff"));
        let whole = bytes(whole);
        // Nothing in front of an end is a strip, and neither is any shorter piece.
        for len in 1..=whole.len() {
            assert!(!shape_ok(&whole[..len], Layout::Wide), "{:02x?}", &whole[..len]);
        }
    }
    bad("02 64");
    bad("02 64 00");
    good("02 64 0000 65 ff");
}

#[test]
fn no_end_within_64_entries() {
    for (entries, well) in [(62, true), (63, true), (64, false), (65, false), (200, false)] {
        for entry in ["02", "6e 01", "01 00000000", "05 06"] {
            let strip = format!("{} ff", entry.repeat(entries));
            if well { good(&strip) } else { bad(&strip) }
        }
        // The count starts anew after an end.
        let strip = format!("02 ff {} ff", "02".repeat(entries));
        if well { good(&strip) } else { bad(&strip) }
    }
    // Open and close count too.
    good(&format!("02 64 0000 {} 65 ff", "03".repeat(60)));
    bad(&format!("02 64 0000 {} 65 ff", "03".repeat(61)));
    // The 64th entry may be the close only if the end came before, that is never.
    bad(&format!("02 64 0000 {} 65", "03".repeat(61)));
    // References to the last of 62 values.
    good(&format!("{} 08 00 3d00 ff", "02".repeat(62)));
    bad(&format!("{} 08 00 3e00 ff", "02".repeat(62)));
    bad(&format!("{} 08 00 3f00 ff", "02".repeat(62)));
    bad(&format!("{} 08 00 4000 ff", "02".repeat(62)));
}

#[test]
fn cells_slots_and_notes() {
    for (kind, most) in [("04", 254), ("05", 6), ("06", 3), ("0a", 31)] {
        for cell in 0..=255 {
            let strip = format!("{kind} {cell:02x} ff");
            if cell <= most { good(&strip) } else { bad(&strip) }
        }
    }
    for (value, kind, most) in [("04 00", "07", 254), ("02", "08", 6), ("02", "09", 3)] {
        for cell in 0..=255 {
            let strip = format!("{value} {kind} {cell:02x} 0000 ff");
            if cell <= most { good(&strip) } else { bad(&strip) }
        }
    }
    for note in 0..=255 {
        let strip = format!("6e {note:02x} ff");
        if (1..=5).contains(&note) { good(&strip) } else { bad(&strip) }
    }
}

/// Word 0, truth 1, slot 2, address 3.
const ONE_OF_EACH: &str = "04 00 | 02 | 0a 00 | 0b 0200 0000 0000 0000";
const NUMBER_OF: [(Value, u16); 4] = [(Value::Word, 0), (Value::Truth, 1), (Value::Slot, 2), (Value::Address, 3)];

#[test]
fn references_of_every_kind() {
    for kind in 0..=255u8 {
        let Some(signature) = signature(kind) else { continue };
        if signature.operands.is_empty() {
            continue;
        }
        let right: Vec<u16> =
            signature.operands.iter().map(|wanted| NUMBER_OF.iter().find(|n| n.0 == *wanted).unwrap().1).collect();
        let strip = |refs: &[u16]| {
            let mut strip = bytes(ONE_OF_EACH);
            strip.push(kind);
            if signature.immediate != Immediate::None {
                strip.push(0);
            }
            strip.extend(refs.iter().flat_map(|r| r.to_le_bytes()));
            if kind == kind::OPEN {
                strip.push(kind::CLOSE);
            }
            strip.push(kind::END);
            strip
        };
        assert!(shape_ok(&strip(&right), Layout::Wide), "kind {kind}");
        for place in 0..right.len() {
            // Each other value, the entry's own number, and numbers far beyond.
            for wrong in
                [0, 1, 2, 3, 4, 5, 63, 64, 65, 127, 128, 255, 256, 0x100 | right[place], 0x8000, 0xff00, 0xffff]
            {
                if wrong != right[place] {
                    let mut refs = right.clone();
                    refs[place] = wrong;
                    assert!(!shape_ok(&strip(&refs), Layout::Wide), "kind {kind}, reference {place} to {wrong}");
                }
            }
        }
    }
}

#[test]
fn results_of_every_kind() {
    for kind in 0..=255u8 {
        let Some(signature) = signature(kind) else { continue };
        if kind == kind::END || kind == kind::CLOSE {
            continue;
        }
        let refs = signature.operands.iter().map(|wanted| NUMBER_OF.iter().find(|n| n.0 == *wanted).unwrap().1);
        let mut strip = bytes(ONE_OF_EACH);
        strip.push(kind);
        match signature.immediate {
            Immediate::None => {}
            Immediate::Word => strip.extend([0; 4]),
            Immediate::Byte(least, _) => strip.push(least),
        }
        strip.extend(refs.flat_map(u16::to_le_bytes));
        // The new value has number 4. Each use takes one sort of value.
        let uses = [
            (Value::Word, "14 0400"),
            (Value::Truth, "50 0400"),
            (Value::Slot, "0b 0400 0000 0000 0000"),
            (Value::Address, "0c 0400"),
        ];
        for (sort, using) in uses {
            let mut strip = strip.clone();
            strip.extend(bytes(using));
            strip.extend(if kind == kind::OPEN { &[kind::CLOSE, kind::END][..] } else { &[kind::END] });
            assert_eq!(shape_ok(&strip, Layout::Wide), signature.result == Some(sort), "kind {kind} as {sort:?}");
        }
    }
}

#[test]
fn blocks() {
    good("02 64 0000 65 ff");
    good("02 64 0000 6e 01 65 ff");
    good("02 64 0000 03 08 00 0100 65 ff");
    good("02 08 00 0000 64 0000 65 ff");
    // An open without close.
    bad("02 64 0000 ff");
    bad("02 64 0000 02 ff");
    // A close without open.
    bad("65 ff");
    bad("02 65 ff");
    bad("02 65 64 0000 ff");
    bad("02 64 0000 65 ff 65 ff");
    // A close not directly before the end.
    bad("02 64 0000 65 02 ff");
    bad("02 64 0000 65 6e 01 ff");
    bad("02 64 0000 65 65 ff");
    bad("02 64 0000 65");
    // More than one open.
    bad("02 64 0000 64 0000 65 ff");
    bad("02 64 0000 64 0000 65 65 ff");
    bad("02 64 0000 65 64 0000 65 ff");
    bad("02 64 0000 64 0000 ff");
    // Each strip has its own block.
    good("02 64 0000 65 ff 02 64 0000 65 ff");
    bad("02 64 0000 65 ff 02 64 0000 ff");
}

#[test]
fn a_bad_last_strip_refuses_the_run() {
    let run = format!("{} 04 ff ff", "02 ff".repeat(1000));
    bad(&run);
    good(&format!("{} 04 fe ff", "02 ff".repeat(1000)));
}

// A second definition: the run is cut into entries by their signatures alone, then each cause is asked for by itself.

struct Parsed {
    kind: u8,
    byte: Option<u8>,
    refs: Vec<usize>,
}

/// The entry at the start of `rest`, or `None` for an unknown kind or a cut body.
fn parse<'a>(rest: &mut &'a [u8], layout: Layout) -> Option<Parsed> {
    let mut take = |n: usize| -> Option<&'a [u8]> {
        let (head, tail) = rest.split_at_checked(n)?;
        *rest = tail;
        Some(head)
    };
    let kind = take(1)?[0];
    let signature = signature(kind)?;
    let byte = match signature.immediate {
        Immediate::None => None,
        Immediate::Word => take(4).map(|_| None)?,
        Immediate::Byte(..) => Some(take(1)?[0]),
    };
    let mut refs = Vec::new();
    for _ in signature.operands {
        refs.push(match layout {
            Layout::Wide => {
                let pair = take(2)?;
                usize::from(pair[0]) + 256 * usize::from(pair[1])
            }
            Layout::Narrow => take(1)?[0].into(),
        });
    }
    Some(Parsed { kind, byte, refs })
}

fn by_causes(run: &[u8], layout: Layout) -> bool {
    let mut rest = run;
    while !rest.is_empty() {
        let mut strip = Vec::new();
        while strip.last().is_none_or(|e: &Parsed| e.kind != kind::END) {
            match parse(&mut rest, layout) {
                Some(entry) if strip.len() < 64 => strip.push(entry),
                _ => return false,
            }
        }
        if !(immediates_fit(&strip) && references_fit(&strip) && block_fits(&strip)) {
            return false;
        }
    }
    true
}

fn immediates_fit(strip: &[Parsed]) -> bool {
    strip.iter().all(|entry| match (entry.kind, entry.byte) {
        (4 | 7, Some(cell)) => cell != 255,
        (5 | 8, Some(cell)) => cell < 7,
        (6 | 9, Some(cell)) => cell < 4,
        (10, Some(slot)) => slot < 32,
        (110, Some(note)) => note != 0 && note < 6,
        (_, byte) => byte.is_none(),
    })
}

fn references_fit(strip: &[Parsed]) -> bool {
    let mut values: Vec<Value> = Vec::new();
    for entry in strip {
        let signature = signature(entry.kind).unwrap();
        let fit = entry.refs.iter().zip(signature.operands).all(|(r, wanted)| values.get(*r) == Some(wanted));
        if !fit {
            return false;
        }
        values.extend(signature.result);
    }
    true
}

fn places(strip: &[Parsed], kind: u8) -> Vec<usize> {
    (0..strip.len()).filter(|&at| strip[at].kind == kind).collect()
}

fn block_fits(strip: &[Parsed]) -> bool {
    match (&places(strip, kind::OPEN)[..], &places(strip, kind::CLOSE)[..]) {
        ([], []) => true,
        ([open], [close]) => open < close && close + 2 == strip.len(),
        _ => false,
    }
}

#[test]
fn the_two_definitions_agree() {
    let mut rng = Rng::new(3);
    for layout in Layout::ALL {
        let mut verdicts = [[0u32; 2]; 7];
        let mut compare = |class: usize, run: &[u8]| verdicts[class][usize::from(well_formed(run, layout))] += 1;
        for _ in 0..40_000 {
            let entries = random_strip(&mut rng);
            let mut strip = encode(&entries, layout);
            compare(0, &strip);
            compare(1, &near_miss(&mut rng, entries, layout));
            damage(&mut rng, &mut strip);
            compare(2, &strip);
            let entries = translate_entries(&random_admitted(&mut rng).to_bytes(), &mut [0; SLOTS]).unwrap();
            let mut translated = encode(&entries, layout);
            compare(3, &translated);
            damage(&mut rng, &mut translated);
            compare(4, &translated);
            compare(5, &random_bytes(&mut rng));
            // The bytes of the other layout.
            compare(6, &encode(&entries, layout.other()));
        }
        for (class, [refused, accepted]) in verdicts.iter().enumerate() {
            if matches!(class, 0 | 3) {
                assert_eq!(*refused, 0, "class {class}");
            } else {
                assert!(*refused > 100 && *accepted > 100, "class {class}: {refused} refused, {accepted} accepted");
            }
        }
        for a in 0..=255 {
            well_formed(&[a], layout);
            for b in 0..=255 {
                well_formed(&[a, b], layout);
            }
        }
    }
}

// The same for what is passed: entry by entry, whether it may stand where it does.

/// Bytes and strips that are passed, and whether an entry is refused.
fn passed_by_causes(run: &[u8], layout: Layout) -> Fed {
    let mut fed = Fed::default();
    let mut strip = Vec::new();
    let mut rest = run;
    while let Some(kind) = rest.first() {
        match parse(&mut rest, layout) {
            Some(entry) => strip.push(entry),
            // Of no kind, or cut.
            None => return Fed { refused: signature(*kind).is_none(), ..fed },
        }
        if !(immediates_fit(&strip) && references_fit(&strip) && last_may_stand(&strip)) {
            return Fed { refused: true, ..fed };
        }
        fed.passed = run.len() - rest.len();
        if *kind == kind::END {
            fed.strips += 1;
            strip.clear();
        }
    }
    fed
}

/// As to the number of entries, the block and the end.
fn last_may_stand(strip: &[Parsed]) -> bool {
    let last = strip.len() - 1;
    let ends = strip[last].kind == kind::END;
    let block = match (&places(strip, kind::OPEN)[..], &places(strip, kind::CLOSE)[..]) {
        ([], []) => true,
        ([_], []) => !ends,
        ([open], [close]) => open < close && (*close == last || close + 1 == last && ends),
        _ => false,
    };
    block && (strip.len() < 64 || strip.len() == 64 && ends)
}

#[test]
fn what_is_passed_does_not_hang_on_the_blocks() {
    let mut rng = Rng::new(5);
    for layout in Layout::ALL {
        let mut refused = 0;
        for _ in 0..3_000 {
            let entries = random_strip(&mut rng);
            let mut run = encode(&random_strip(&mut rng), layout);
            run.extend(match rng.below(4) {
                0 => encode(&entries, layout),
                1 => random_bytes(&mut rng),
                _ => near_miss(&mut rng, entries, layout),
            });
            if rng.one_in(2) {
                damage(&mut rng, &mut run);
            }
            let right = passed_by_causes(&run, layout);
            refused += u32::from(right.refused);
            for size in 1..=10 {
                let (fed, _) = in_blocks(run.chunks(size), layout);
                assert_eq!(fed, right, "{layout:?} {run:02x?} in blocks of {size}");
            }
            // Blocks of any size, also of no bytes.
            let mut rest = &run[..];
            let block = || {
                let size = rng.below(12).min(rest.len());
                rest.split_off(..size).filter(|block| !block.is_empty() || !rest.is_empty())
            };
            let (fed, ends) = in_blocks(std::iter::from_fn(block), layout);
            assert_eq!((fed, ends), (right, by_causes(&run, layout)), "{layout:?} {run:02x?}");
        }
        assert!((1_000..2_500).contains(&refused), "{refused}");
    }
}

/// What each block leads to: bytes passed, strips ended, refused.
#[track_caller]
fn feeds(layout: Layout, blocks: &[(&str, (usize, usize, bool))], ends: bool) {
    let mut test = Blocks::new(layout);
    for (at, &(block, (passed, strips, refused))) in blocks.iter().enumerate() {
        assert_eq!(test.feed(&bytes(block)), Fed { passed, strips, refused }, "block {at}: {block}");
    }
    assert_eq!(test.ends(), ends);
}

#[test]
fn entries_are_passed_when_they_are_whole() {
    let (wide, narrow) = (Layout::Wide, Layout::Narrow);
    feeds(wide, &[], true);
    feeds(wide, &[("", (0, 0, false))], true);
    feeds(wide, &[("ff", (1, 1, false)), ("", (0, 0, false)), ("ff ff", (2, 2, false))], true);
    feeds(wide, &[("02", (1, 0, false)), ("ff", (1, 1, false))], true);
    feeds(wide, &[("ff 02", (2, 1, false))], false);
    feeds(
        wide,
        &[("02 01", (1, 0, false)), ("000000", (0, 0, false)), ("", (0, 0, false)), ("00", (5, 0, false))],
        false,
    );
    // The longest entry, cut at each of its bytes.
    let start = "0a 00 04 00";
    let address = "0b 0000 0100 0100 0100";
    let digits: String = address.split(' ').collect();
    for cut in 1..9 {
        let (first, second) = digits.split_at(2 * cut);
        feeds(
            wide,
            &[(&format!("{start} {first}"), (4, 0, false)), (&format!("{second} ff ff"), (11, 2, false))],
            true,
        );
    }
    feeds(narrow, &[("0a 00 04 00 0b 00 01 01", (4, 0, false)), ("01 ff 02", (7, 1, false))], false);
}

#[test]
fn entries_are_refused_when_they_are_whole() {
    let layout = Layout::Wide;
    let refused = (0, 0, true);
    // An unknown kind has no more bytes to wait for.
    feeds(layout, &[("02 00", (1, 0, true)), ("ff", refused), ("", refused)], false);
    feeds(layout, &[("02 ff", (2, 1, false)), ("02 0d", (1, 0, true)), ("", refused)], false);
    // A cell out of range in a store whose reference is not there yet.
    feeds(layout, &[("02 04 00 08 07", (3, 0, false)), ("00", (0, 0, false)), ("00 ff", refused)], false);
    feeds(layout, &[("02 ff 28 ff", (2, 1, false)), ("ff ff", (0, 0, false)), ("ff", refused), ("ff", refused)], false);
    // After the close, and where a strip has 63 entries, whatever is not the end.
    feeds(layout, &[("02 64 0000 65", (5, 0, false)), ("01", (0, 0, false)), ("00000000", refused)], false);
    feeds(layout, &[("02 64 0000 65", (5, 0, false)), ("65", refused)], false);
    feeds(layout, &[("02 64 0000 65", (5, 0, false)), ("", (0, 0, false)), ("ff", (1, 1, false))], true);
    let most = "02".repeat(63);
    feeds(layout, &[(&most, (63, 0, false)), ("02", refused)], false);
    feeds(layout, &[(&most, (63, 0, false)), ("04", (0, 0, false)), ("00", refused)], false);
    feeds(layout, &[(&most, (63, 0, false)), ("ff", (1, 1, false))], true);
    // The block is open where a 64th entry must come, and neither close nor end may.
    let open = format!("02 64 0000 {}", "03".repeat(61));
    for last in ["65", "ff"] {
        feeds(layout, &[(&open, (65, 0, false)), (last, refused)], false);
    }
}

#[test]
fn random_strips_use_every_kind_and_reach_the_limits() {
    let mut rng = Rng::new(4);
    let mut kinds = [false; 256];
    let mut most = 0;
    let mut cells = std::collections::HashSet::new();
    for _ in 0..20_000 {
        let entries = random_strip(&mut rng);
        most = most.max(entries.len());
        for entry in &entries {
            kinds[usize::from(entry.kind)] = true;
            cells.insert((entry.kind, entry.immediate));
        }
    }
    for kind in 0..=255 {
        assert_eq!(kinds[usize::from(kind)], signature(kind).is_some(), "kind {kind}");
    }
    assert_eq!(most, 64);
    for limit in [(4, 254), (5, 6), (6, 3), (7, 254), (8, 6), (9, 3), (10, 31), (110, 1), (110, 5)] {
        assert!(cells.contains(&limit), "{limit:?}");
    }
}
