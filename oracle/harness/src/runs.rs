//! Makers of random runs that more than one comparison uses.

use oracle::format::{Entry, Layout, encode, kind};
use oracle::generate::{random_admitted, with_field};
use oracle::rng::Rng;
use oracle::strips::{damage, evaluation_strip, near_miss, random_strip};
use oracle::{SLOTS, translate_entries};

/// Makes one random run in the layout.
pub type Make = fn(&mut Rng, Layout) -> Vec<u8>;

/// Numbers that name no layout, some of them with the last byte of one that does.
pub const NO_LAYOUT: [u32; 8] = [2, 3, 255, 256, 257, 0x8000_0000, 0x8000_0001, u32::MAX];

/// The layout and the class of a run, by its index: they take turns.
pub fn turn(index: u64, classes: usize) -> (Layout, usize) {
    let layouts = Layout::ALL.len() as u64;
    (Layout::ALL[(index % layouts) as usize], (index / layouts % classes as u64) as usize)
}

pub fn translated_strip(rng: &mut Rng, layout: Layout) -> Vec<u8> {
    let record = random_admitted(rng);
    encode(&translate_entries(&record.to_bytes(), &mut [0; SLOTS]).expect("an admitted record"), layout)
}

/// A translated strip with few registers, so that one strip loads what another stores.
pub fn translated_near(rng: &mut Rng, layout: Layout) -> Vec<u8> {
    loop {
        let mut record = random_admitted(rng);
        for lo in [0, 8, 20, 39] {
            record.word = with_field(record.word, lo, 8, rng.pick(&[0, 1, 2, 3, 4, 255]));
        }
        // Some kinds have modes in these fields, so the record may be refused now.
        if let Ok(strip) = translate_entries(&record.to_bytes(), &mut [0; SLOTS]) {
            return encode(&strip, layout);
        }
    }
}

/// Up to six translated strips.
pub fn translated(rng: &mut Rng, layout: Layout) -> Vec<u8> {
    (0..1 + rng.below(6)).flat_map(|_| translated_strip(rng, layout)).collect()
}

/// Up to forty translated strips.
pub fn long_translated(rng: &mut Rng, layout: Layout) -> Vec<u8> {
    (0..1 + rng.below(40)).flat_map(|_| translated_strip(rng, layout)).collect()
}

/// Up to four strips made for evaluation.
pub fn made(rng: &mut Rng, layout: Layout) -> Vec<u8> {
    (0..1 + rng.below(4)).flat_map(|_| encode(&evaluation_strip(rng), layout)).collect()
}

/// Up to three strips of any values.
pub fn of_any_values(rng: &mut Rng, layout: Layout) -> Vec<u8> {
    (0..1 + rng.below(3)).flat_map(|_| encode(&random_strip(rng), layout)).collect()
}

/// A near miss of such a strip.
pub fn near_miss_of(rng: &mut Rng, layout: Layout, strip: fn(&mut Rng) -> Vec<Entry>) -> Vec<u8> {
    let entries = strip(rng);
    near_miss(rng, entries, layout)
}

/// A run with a few bytes changed.
pub fn damaged(rng: &mut Rng, layout: Layout, make: Make) -> Vec<u8> {
    let mut run = make(rng, layout);
    damage(rng, &mut run);
    run
}

/// A few well-formed strips, and then one that may be none.
pub fn last_damaged(rng: &mut Rng, layout: Layout) -> Vec<u8> {
    let mut run = translated(rng, layout);
    run.extend(of_any_values(rng, layout));
    let mut last = if rng.one_in(2) { translated_strip(rng, layout) } else { near_miss_of(rng, layout, random_strip) };
    if rng.one_in(2) {
        damage(rng, &mut last);
    }
    run.extend(last);
    run
}

/// A strip that is well-formed in both layouts and means two things. Wide: loads, an operation, a store. Narrow: loads,
/// an operation, a store or an operation, and an operation.
pub fn of_both_layouts(rng: &mut Rng, _: Layout) -> Vec<u8> {
    let mut operation = || 40 + rng.below(13) as u8;
    let (first, second, third) = (operation(), operation(), operation());
    // Wide, this is a reference; narrow, it is a kind, and the upper byte and the next kind are its body.
    let turning = rng.pick(&[kind::STORE_REGISTER, third]);
    let loads = turning + 1 + rng.below(4) as u8;
    let mut run: Vec<u8> = (0..loads).flat_map(|_| [kind::LOAD_REGISTER, rng.below(255) as u8]).collect();
    run.extend([first, rng.below(loads.into()) as u8, 0, turning, 0]);
    run.extend([kind::STORE_REGISTER, second, rng.below(usize::from(loads) + 1) as u8, 0, kind::END]);
    run
}

/// One or two strips of the other layout.
pub fn of_the_other_layout(rng: &mut Rng, layout: Layout) -> Vec<u8> {
    (0..1 + rng.below(2)).flat_map(|_| translated_strip(rng, layout.other())).collect()
}
