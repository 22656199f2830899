//! Random starts of evaluations: states, and lists of constant words.

use crate::SLOTS;
use crate::evaluate::{Refusal, SLOT_WORDS, State, element, evaluate};
use crate::format::Layout;
use crate::rng::Rng;

/// Words that addresses can name.
pub const ALL_WORDS: usize = SLOTS * SLOT_WORDS;

/// Words at the limits of signed and unsigned numbers, shift counts and fields.
const CORNERS: [u32; 16] = [
    0,
    1,
    2,
    31,
    32,
    33,
    0x80,
    0xff,
    0x7fff,
    0x8000,
    0xffff,
    0x7fff_ffff,
    0x8000_0000,
    0x8000_0001,
    0xffff_fffe,
    0xffff_ffff,
];

/// A word: often a corner or a small number.
pub fn corner_word(rng: &mut Rng) -> u32 {
    match rng.below(4) {
        0 | 1 => rng.pick(&CORNERS),
        2 => rng.below(64) as u32,
        _ => rng.next_u64() as u32,
    }
}

pub fn random_state(rng: &mut Rng) -> State {
    State {
        registers: std::array::from_fn(|_| corner_word(rng)),
        predicates: std::array::from_fn(|_| rng.one_in(2)),
        flags: std::array::from_fn(|_| rng.one_in(2)),
    }
}

/// Words to lend, a few more than addresses can name. A list is the first ones of them.
pub fn random_words(rng: &mut Rng) -> Vec<u32> {
    (0..ALL_WORDS + 8).map(|_| corner_word(rng)).collect()
}

/// How many of the words to lend to the run: none, some, just enough, one less than that, or all.
pub fn random_list_len(rng: &mut Rng, run: &[u8], layout: Layout, state: &State, words: &[u32]) -> usize {
    match rng.below(16) {
        0 => 0,
        1 => rng.below(65),
        2..=5 => rng.below(5000),
        6..=10 => enough(run, layout, state, words),
        11 => enough(run, layout, state, words).saturating_sub(1),
        12..=14 => ALL_WORDS,
        _ => words.len(),
    }
}

/// The length of the shortest list with which the run is not refused for lack of a word. A run that is refused for
/// another reason gets what it needs up to there.
fn enough(run: &[u8], layout: Layout, state: &State, words: &[u32]) -> usize {
    let mut len = 0;
    // Each round lengthens the list, so there is a last one.
    loop {
        let needed = match evaluate(run, layout, state, &words[..len]) {
            Err(Refusal::Constant { slot, vec, comp }) => {
                element(slot.into(), 0, vec, comp).map_or(0, |element| element + 1)
            }
            _ => 0,
        };
        if needed <= len {
            return len;
        }
        len = needed;
    }
}
