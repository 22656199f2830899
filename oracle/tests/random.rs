//! Many random records: no panic, every strip well-formed, the known maxima, refusals that touch nothing.

use oracle::format::{Layout, encode, value_count};
use oracle::generate::{random_admitted, random_record, with_field};
use oracle::lean::Lean;
use oracle::record::{NAMES, Record};
use oracle::rng::Rng;
use oracle::shape::shape_ok;
use oracle::{SLOTS, translate, translate_entries, translate_into};

#[test]
fn strips_of_random_records_are_well_formed() {
    let mut rng = Rng::new(7);
    let mut accepted = [0u32; NAMES.len() + 1];
    let mut refused = [0u32; 6];
    let mut run = Vec::new();
    let (mut entries_most, mut values_most, mut bytes_most) = (0, 0, 0);
    for _ in 0..300_000 {
        let record = random_record(&mut rng);
        let mut marks = [0; SLOTS];
        match translate_entries(&record.to_bytes(), &mut marks) {
            Ok(entries) => {
                let strip = encode(&entries, Layout::Wide);
                assert!(shape_ok(&strip, Layout::Wide), "{record:?}");
                entries_most = entries_most.max(entries.len());
                values_most = values_most.max(value_count(&entries));
                bytes_most = bytes_most.max(strip.len());
                accepted[usize::from(record.kind)] += 1;
                run.extend(strip);
            }
            Err(number) => {
                assert_eq!(marks, [0; SLOTS]);
                refused[usize::from(number)] += 1;
            }
        }
    }
    assert!(shape_ok(&run, Layout::Wide));
    assert!(accepted[1..].iter().all(|&n| n > 1000), "{accepted:?}");
    assert!(refused[2..].iter().all(|&n| n > 100), "{refused:?}");
    assert!(entries_most <= 53 && values_most <= 45 && bytes_most <= 239, "{entries_most} {values_most} {bytes_most}");
}

#[test]
fn the_longest_strip() {
    // iadd, ra 255, form Cbuf, guard P0 negated, extend (43), CC (47), both signs (48, 49), saturate (50).
    let word = 1 | 255 << 8 | 8 << 16 | 1 << 43 | 1 << 47 | 1 << 48 | 1 << 49 | 1 << 50;
    let record = Record { kind: 9, form: 1, value: 0, word };
    let entries = translate_entries(&record.to_bytes(), &mut [0; SLOTS]).unwrap();
    assert_eq!((entries.len(), value_count(&entries), encode(&entries, Layout::Wide).len()), (53, 45, 239));
}

#[test]
fn the_room_decides_refusal_6() {
    let mut rng = Rng::new(8);
    for _ in 0..3000 {
        let record = random_admitted(&mut rng).to_bytes();
        let mut marks = [1; SLOTS];
        let strip = translate(&record, &mut marks).unwrap();
        let before: Vec<u8> = (0..strip.len() + 5).map(|_| rng.next_u64() as u8).collect();

        let mut room = before[..strip.len() - 1].to_vec();
        let mut kept = [1; SLOTS];
        assert_eq!(translate_into(&record, &mut kept, &mut room), Err(6));
        assert_eq!((&room[..], kept), (&before[..strip.len() - 1], [1; SLOTS]));

        for len in [strip.len(), strip.len() + 5] {
            let mut room = before[..len].to_vec();
            let mut raised = [1; SLOTS];
            assert_eq!(translate_into(&record, &mut raised, &mut room), Ok(strip.len()));
            assert_eq!((&room[..strip.len()], &room[strip.len()..]), (&strip[..], &before[strip.len()..len]));
            assert_eq!(raised, marks);
        }
    }
}

#[test]
fn refusals_in_order() {
    let lane = 0xf0c8 << 48;
    let byte3 = 1 << 10 | 3 << 41;
    // Predicate 7, predicate 0 negated (bit 19 alone), and predicate 7 negated.
    let (always, negated, never) = (0x7_0000, 0x8_0000, 0xf_0000);
    let cases = [
        (0, 3, lane, byte3, 2),
        (31, 0, 0, 0, 2),
        (255, 255, 0, 0, 2),
        (1, 3, lane, 0, 3),
        (24, 255, 0, byte3, 3),
        (1, 0, lane, 0, 4),
        (1, 2, lane, always | 0xff, 4),
        (1, 1, lane, negated, 4),
        (24, 0, lane, byte3, 5),
        (24, 1, 0, byte3 | always | 0xff, 5),
        (24, 2, 0, byte3 | negated, 5),
        // Under the guard that never runs 2 and 3 hold as under any other.
        (0, 3, lane, byte3 | never, 2),
        (31, 0, lane, never, 2),
        (255, 1, 0, byte3 | never, 2),
        (1, 3, lane, never, 3),
        (24, 255, 0, byte3 | never, 3),
    ];
    for (kind, form, value, word, number) in cases {
        let record = Record { kind, form, value, word }.to_bytes();
        let mut marks = [9; SLOTS];
        let mut room = [0xaa; 8];
        assert_eq!(translate_into(&record, &mut marks, &mut room), Err(number), "{kind} {form}");
        assert_eq!((marks, room), ([9; SLOTS], [0xaa; 8]));
        // 6 comes last.
        assert_eq!(translate_into(&record, &mut marks, &mut []), Err(number));
    }
    for len in (0..18).chain([19, 36]) {
        assert_eq!(translate(&vec![1; len], &mut [0; SLOTS]), Err(1));
    }
    // A dead word of another length too.
    let mut dead = Record { kind: 1, form: 0, value: lane, word: never }.to_bytes().to_vec();
    assert_eq!(translate(&dead[..17], &mut [0; SLOTS]), Err(1));
    dead.push(0);
    assert_eq!(translate(&dead, &mut [0; SLOTS]), Err(1));
    // Near misses are admitted: another size code, another byte, another kind, another value.
    for (kind, value, word) in [
        (24, 0, 3 << 41),
        (24, 0, 1 << 10 | 2 << 41),
        (24, 0, 2 << 10 | 3 << 41),
        (26, 0, byte3),
        (1, lane ^ 1, 0),
        (2, lane, 0),
    ] {
        assert!(translate(&Record { kind, form: 0, value, word }.to_bytes(), &mut [0; SLOTS]).is_ok());
    }
}

/// 4 and 5 hold under every guard but predicate 7 negated. There the strip is the end alone, no mark is raised, and only
/// an empty room is too short.
#[test]
fn dead_words_are_the_end_alone() {
    let lane = 0xf0c8 << 48;
    let byte3 = 1 << 10 | 3 << 41;
    for guard in 0..16 {
        for form in 0..3 {
            for (kind, value, word, number) in [(1, lane, 0, 4), (1, lane, !0, 4), (24, 0, byte3, 5), (24, lane, !0, 5)]
            {
                // Where all bits are set the size code is 3, so both fields are put in again.
                let word = with_field(with_field(word, 10, 2, 1), 41, 2, 3);
                let record = Record { kind, form, value, word: with_field(word, 16, 4, guard) };
                assert_eq!(record.never_runs(), guard == 15);
                let mut marks = [9; SLOTS];
                let mut room = [0xaa; 8];
                let answer = translate_into(&record.to_bytes(), &mut marks, &mut room);
                assert_eq!(marks, [9; SLOTS]);
                let mut lean_room = [0xaa; 8];
                assert_eq!(Lean::default().translate_into(&record.to_bytes(), &mut marks, &mut lean_room), answer);
                assert_eq!((marks, lean_room), ([9; SLOTS], room));
                let with_no_room = translate_into(&record.to_bytes(), &mut marks, &mut []);
                assert_eq!(marks, [9; SLOTS]);
                if guard == 15 {
                    assert_eq!((answer, with_no_room), (Ok(1), Err(6)), "{record:?}");
                    assert_eq!(room, [255, 0xaa, 0xaa, 0xaa, 0xaa, 0xaa, 0xaa, 0xaa]);
                } else {
                    assert_eq!((answer, with_no_room), (Err(number), Err(number)), "{record:?}");
                    assert_eq!(room, [0xaa; 8]);
                }
            }
        }
    }
}

/// Through the refusals as well, the strip is the end alone exactly where the record never runs.
#[test]
fn only_dead_words_are_the_end_alone() {
    let mut rng = Rng::new(9);
    let (mut dead, mut others) = ([0; 3], 0);
    for _ in 0..300_000 {
        let record = random_admitted(&mut rng);
        let mut marks = [0; SLOTS];
        let strip = translate(&record.to_bytes(), &mut marks).unwrap();
        if record.never_runs() {
            assert_eq!((&strip[..], marks), (&[255][..], [0; SLOTS]), "{record:?}");
            let sort = match (record.is_system_value_mov(), record.is_half_at_byte_3()) {
                (true, _) => 0,
                (_, true) => 1,
                _ => 2,
            };
            dead[sort] += 1;
        } else if strip == [255] {
            panic!("{record:?}");
        } else {
            others += 1;
        }
    }
    assert!(dead.iter().all(|&n| n > 3000) && others > 200_000, "{dead:?} {others}");
}
