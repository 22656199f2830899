//! The text over the lean builder writes what it writes over the recorder, and refuses what it refuses.

use oracle::generate::random_record;
use oracle::lean::Lean;
use oracle::rng::Rng;
use oracle::{SLOTS, translate_into};

#[test]
fn lean_strips_are_the_recorded_ones() {
    let mut rng = Rng::new(11);
    let mut lean = Lean::default();
    let (mut marks, mut lean_marks) = ([0; SLOTS], [0; SLOTS]);
    let mut refused = [0u32; 7];
    for index in 0..300_000 {
        if index % 200 == 0 {
            marks = std::array::from_fn(|_| rng.below(0x1_0008) as u32);
            lean_marks = marks;
        }
        let record = random_record(&mut rng).to_bytes();
        let len = if rng.one_in(4) { rng.below(240) } else { 240 };
        let (mut room, mut lean_room) = ([0xa5; 240], [0xa5; 240]);
        let answer = translate_into(&record, &mut marks, &mut room[..len]);
        assert_eq!(lean.translate_into(&record, &mut lean_marks, &mut lean_room[..len]), answer, "{record:?}");
        assert_eq!((room, marks), (lean_room, lean_marks), "{record:?}");
        refused[usize::from(answer.err().unwrap_or(0))] += 1;
    }
    assert!([0, 2, 3, 4, 5, 6].iter().all(|&number| refused[number] > 100), "{refused:?}");
}
