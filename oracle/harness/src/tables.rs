//! Tables of ids to lend to the writer of SPIR-V words, each with its bound, and what was answered for each sort.

use oracle::rng::Rng;
use oracle::words::{MAX_ID, table};

/// A sort of tables and bounds: whether some are accepted, and whether some are refused with 10.
struct Sort {
    name: &'static str,
    accepted: bool,
    refused: bool,
    /// Changes a bound and a table that are accepted, given how many new ids there are.
    change: fn(&mut Rng, u32, &mut Lending),
}

impl Sort {
    const fn good(name: &'static str, change: fn(&mut Rng, u32, &mut Lending)) -> Sort {
        Sort { name, accepted: true, refused: false, change }
    }

    const fn bad(name: &'static str, change: fn(&mut Rng, u32, &mut Lending)) -> Sort {
        Sort { name, accepted: false, refused: true, change }
    }

    /// Accepted for strips that make no id alone.
    const fn without_ids(name: &'static str, change: fn(&mut Rng, u32, &mut Lending)) -> Sort {
        Sort { name, accepted: true, refused: true, change }
    }
}

const SORTS: [Sort; 14] = [
    Sort::good("right", |_, _, _| {}),
    Sort::good("bound next", |_, _, lending| lending.bound = lending.highest() + 1),
    Sort::good("last new id at the limit", |_, new, lending| lending.bound = MAX_ID + 1 - new),
    Sort::without_ids("last new id above it", |rng, new, lending| {
        lending.bound = MAX_ID + 2 - new + rng.pick(&[0, 0, 1, new]);
    }),
    Sort::without_ids("highest id at the limit", |rng, _, lending| {
        lending.table[rng.below(table::LEN)] = MAX_ID;
        lending.bound = MAX_ID + 1;
    }),
    // The last new id passes 32 bits for some.
    Sort::without_ids("bound near 2^32", |rng, new, lending| {
        lending.bound = u32::MAX - rng.below(2 * new as usize + 2) as u32
    }),
    Sort::bad("bound too low", |rng, _, lending| {
        let highest = lending.highest();
        let any = rng.below(highest as usize) as u32;
        lending.bound = rng.pick(&[0, 1, any, highest - 1, highest, highest]);
    }),
    Sort::bad("of another length", |rng, _, lending| {
        let any = rng.below(3 * table::LEN);
        let len = rng.pick(&[0, 1, 4, 302, 302, 304, 304, 305, 606, any]);
        lending.table.resize(if len == table::LEN { 0 } else { len }, lending.bound.wrapping_sub(1));
    }),
    Sort::bad("an id is 0", |rng, _, lending| lending.table[rng.below(table::LEN)] = 0),
    Sort::bad("an id at the bound", |rng, _, lending| lending.table[rng.below(table::LEN)] = lending.bound),
    Sort::bad("an id above the bound", |rng, _, lending| {
        let more = rng.below(MAX_ID.saturating_sub(lending.bound) as usize + 1) as u32;
        lending.table[rng.below(table::LEN)] = lending.bound + 1 + rng.pick(&[0, more]);
    }),
    Sort::bad("an id above the limit", |rng, _, lending| {
        let any = rng.below((u32::MAX - MAX_ID - 2) as usize) as u32;
        let id = MAX_ID + 1 + rng.pick(&[0, 0, any]);
        lending.table[rng.below(table::LEN)] = id;
        lending.bound = rng.pick(&[id + 1, u32::MAX]);
    }),
    Sort::bad("an id twice in a role", |rng, _, lending| lending.repeat(rng, true)),
    Sort::bad("an id twice in two roles", |rng, _, lending| lending.repeat(rng, false)),
];

/// What the id at the place is for.
fn role(place: usize) -> usize {
    match place {
        ..table::REGISTERS => place,
        table::REGISTERS..table::PREDICATES => table::REGISTERS,
        table::PREDICATES..table::FLAGS => table::PREDICATES,
        table::FLAGS..table::SLOTS => table::FLAGS,
        _ => table::SLOTS,
    }
}

/// A table of ids and the bound above them.
pub struct Lending {
    sort: usize,
    pub bound: u32,
    pub table: Vec<u32>,
}

impl Lending {
    /// For a strip that makes so many new ids.
    pub fn random(rng: &mut Rng, new: u32) -> Lending {
        let least = table::LEN as u32 + 1;
        let most = MAX_ID + 1 - new;
        let any = least + rng.below((most - least) as usize) as u32;
        let bound = rng.pick(&[least, most, any, any]);
        let sort = if rng.one_in(2) { 0 } else { rng.below(SORTS.len()) };
        let mut lending = Lending { sort, bound, table: ids(rng, bound - 1) };
        (SORTS[sort].change)(rng, new, &mut lending);
        lending
    }

    fn highest(&self) -> u32 {
        self.table.iter().copied().max().expect("a table that is not empty")
    }

    /// An id at a second place, in the same role or in another one.
    fn repeat(&mut self, rng: &mut Rng, same_role: bool) {
        loop {
            let [from, to] = [(); 2].map(|()| rng.below(table::LEN));
            if from != to && (role(from) == role(to)) == same_role {
                self.table[to] = self.table[from];
                return;
            }
        }
    }
}

/// Ids from 1 to `most`, no two alike: rising, or in any order.
fn ids(rng: &mut Rng, most: u32) -> Vec<u32> {
    let step = most / table::LEN as u32;
    let mut ids: Vec<u32> = (0..table::LEN as u32).map(|at| at * step + 1 + rng.below(step as usize) as u32).collect();
    if !rng.one_in(3) {
        shuffle(rng, &mut ids);
    }
    ids
}

pub fn shuffle(rng: &mut Rng, ids: &mut [u32]) {
    for at in (1..ids.len()).rev() {
        ids.swap(at, rng.below(at + 1));
    }
}

/// For each sort, how often its ids passed, and were refused with 10.
#[derive(Default)]
pub struct Tables([[u64; 2]; SORTS.len()]);

impl Tables {
    pub fn count(&mut self, lending: &Lending, number: u32) {
        match number {
            0 | 11 => self.0[lending.sort][0] += 1,
            10 => self.0[lending.sort][1] += 1,
            _ => {}
        }
    }

    /// Prints the counts, and says whether they are as they ought to be.
    pub fn report(&self) -> bool {
        let mut fine = true;
        println!("{:<24} {:>9} {:>9}", "table and bound", "passed", "10");
        for (Sort { name, accepted, refused, .. }, counts) in SORTS.iter().zip(self.0) {
            let right = counts.map(|times| times > 0) == [*accepted, *refused];
            let [passed, ten] = counts;
            println!("{name:<24} {passed:>9} {ten:>9}{}", if right { "" } else { "  <- wrong" });
            fine &= right;
        }
        fine
    }
}
