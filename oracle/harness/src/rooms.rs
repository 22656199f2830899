//! Rooms to lend for bytes or words whose number is known, and what was answered for each sort of room.

use oracle::rng::Rng;

/// The sorts by name. The first three are long enough, the others are not.
const SORTS: [&str; 6] = ["exact", "one more", "roomy", "one short", "shorter", "empty"];
const LONG_ENOUGH: usize = 3;

/// A room to lend.
#[derive(Clone, Copy)]
pub struct Room {
    sort: usize,
    pub len: usize,
}

impl Room {
    /// A room for so many elements, with at most `most`. More than half of the rooms are long enough.
    pub fn random(rng: &mut Rng, needed: usize, most: usize) -> Room {
        let sort = if rng.one_in(2) { rng.below(LONG_ENOUGH) } else { rng.below(SORTS.len()) };
        let len = match sort {
            0 => needed,
            1 => needed + 1,
            2 => needed + rng.below(most - needed + 1),
            3 => needed.saturating_sub(1),
            4 => rng.below(needed.max(1)),
            _ => 0,
        };
        Room { sort, len }
    }
}

/// For each sort, how often a room was accepted for at least one element, and refused.
pub struct Rooms {
    /// The number of the refusal.
    refusal: u32,
    counts: [[u64; 2]; SORTS.len()],
}

impl Rooms {
    pub fn new(refusal: u32) -> Rooms {
        Rooms { refusal, counts: [[0; 2]; SORTS.len()] }
    }

    pub fn count(&mut self, room: Room, number: u32) {
        if number == 0 {
            self.counts[room.sort][0] += 1;
        } else if number == self.refusal {
            self.counts[room.sort][1] += 1;
        }
    }

    /// Prints the counts, and says whether they are as they ought to be.
    pub fn report(&self) -> bool {
        let mut fine = true;
        println!("{:<24} {:>9} {:>9}", "room", "accepted", self.refusal);
        for (at, (name, [accepted, refused])) in SORTS.iter().zip(self.counts).enumerate() {
            let right = if at < LONG_ENOUGH { accepted > 0 && refused == 0 } else { accepted == 0 && refused > 0 };
            println!("{name:<24} {accepted:>9} {refused:>9}{}", if right { "" } else { "  <- wrong" });
            fine &= right;
        }
        fine
    }
}
