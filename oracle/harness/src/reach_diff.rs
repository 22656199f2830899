//! The differential test of reach: the same runs and asked cells through plain Rust and through the library.

use oracle::format::{Layout, encode};
use oracle::print::hex;
use oracle::reach::{CELLS, CONSTANTS, FLAGS, PREDICATES, reach};
use oracle::rng::Rng;
use oracle::strips::{damage, evaluation_strip, random_bytes, random_strip};

use crate::ffi;
use crate::runs::{Make, damaged, near_miss_of, translated_near, translated_strip};

/// Differences that are printed, and how many bytes of a run.
const SHOWN: u64 = 20;
const SHOWN_BYTES: usize = 600;

/// The cells lie in a longer buffer, which is compared too.
const MARGIN: usize = 64;
const MOST_CELLS: usize = 2 * CELLS;
type Buffer = [u8; MARGIN + MOST_CELLS + MARGIN];

struct Class {
    name: &'static str,
    /// Whether there must be answers 0, or none.
    accepts: bool,
    /// Whether there must be answers 7, or none.
    refuses: bool,
    /// Whether lists must gain and lose cells.
    moves: bool,
    /// Whether the cells have another length than they ought to have.
    wrong_len: bool,
    make: Make,
}

impl Class {
    /// Runs that are well-formed.
    const fn good(name: &'static str, make: Make) -> Class {
        Class { name, accepts: true, refuses: false, moves: true, wrong_len: false, make }
    }

    /// Runs of which some are not well-formed.
    const fn mixed(name: &'static str, make: Make) -> Class {
        Class { refuses: true, ..Class::good(name, make) }
    }
}

const CLASSES: [Class; 12] = [
    Class::good("translated", translated),
    Class::good("translated, few cells", few_cells),
    Class::good("hand-made", made),
    Class::good("of any values", of_any_values),
    Class::good("of all sorts", all_sorts),
    Class::mixed("near miss", near_misses),
    Class::mixed("translated, damaged", |rng, layout| damaged(rng, layout, few_cells)),
    Class::mixed("hand-made, damaged", |rng, layout| damaged(rng, layout, made)),
    Class::mixed("one strip damaged", one_damaged),
    // Too short to move much.
    Class { moves: false, ..Class::mixed("random bytes", |rng, _| random_bytes(rng)) },
    // Reach reads the wide layout. The same bytes are a run there too if nothing refers to a value.
    Class { moves: false, ..Class::mixed("of the narrow layout", |rng, layout| all_sorts(rng, layout.other())) },
    Class {
        name: "other length of cells",
        accepts: false,
        refuses: true,
        moves: false,
        wrong_len: true,
        make: all_sorts,
    },
];

/// How many strips a run has: mostly a few, at times none or some hundred.
fn strip_count(rng: &mut Rng) -> usize {
    match rng.below(64) {
        0 => 0,
        1 => rng.below(300),
        2..=9 => rng.below(40),
        _ => 1 + rng.below(6),
    }
}

fn run_of(rng: &mut Rng, layout: Layout, make: Make) -> Vec<u8> {
    (0..strip_count(rng)).flat_map(|_| make(rng, layout)).collect()
}

fn translated(rng: &mut Rng, layout: Layout) -> Vec<u8> {
    run_of(rng, layout, translated_strip)
}

fn few_cells(rng: &mut Rng, layout: Layout) -> Vec<u8> {
    run_of(rng, layout, translated_near)
}

fn made(rng: &mut Rng, layout: Layout) -> Vec<u8> {
    run_of(rng, layout, |rng, layout| encode(&evaluation_strip(rng), layout))
}

fn of_any_values(rng: &mut Rng, layout: Layout) -> Vec<u8> {
    run_of(rng, layout, |rng, layout| encode(&random_strip(rng), layout))
}

fn any_strip(rng: &mut Rng, layout: Layout) -> Vec<u8> {
    match rng.below(8) {
        0 => encode(&random_strip(rng), layout),
        1 | 2 => encode(&evaluation_strip(rng), layout),
        3 => translated_strip(rng, layout),
        _ => translated_near(rng, layout),
    }
}

fn all_sorts(rng: &mut Rng, layout: Layout) -> Vec<u8> {
    run_of(rng, layout, any_strip)
}

/// A near miss among strips of all sorts.
fn near_misses(rng: &mut Rng, layout: Layout) -> Vec<u8> {
    let made = if rng.one_in(2) { evaluation_strip } else { random_strip };
    let strip = near_miss_of(rng, layout, made);
    among(rng, layout, &strip)
}

fn one_damaged(rng: &mut Rng, layout: Layout) -> Vec<u8> {
    let mut strip = any_strip(rng, layout);
    damage(rng, &mut strip);
    among(rng, layout, &strip)
}

fn among(rng: &mut Rng, layout: Layout, strip: &[u8]) -> Vec<u8> {
    let before = (0..rng.below(3)).flat_map(|_| any_strip(rng, layout)).collect::<Vec<u8>>();
    let after = (0..rng.below(3)).flat_map(|_| any_strip(rng, layout)).collect::<Vec<u8>>();
    [&before, strip, &after].concat()
}

fn listed_byte(rng: &mut Rng) -> u8 {
    let any = 1 + rng.below(255) as u8;
    rng.pick(&[1, 1, 2, 128, 255, any, any, any])
}

/// Random cells: none, all, some of every sort, or a few of those that strips name most.
fn asked(rng: &mut Rng, cells: &mut [u8]) {
    cells.fill(0);
    let rare = match rng.below(16) {
        0 => return,
        1 => 1,
        2..=8 => {
            for _ in 0..1 + rng.below(4) {
                let at = match rng.below(8) {
                    0 => PREDICATES + rng.below(7),
                    1 => FLAGS + rng.below(4),
                    2 => CONSTANTS + rng.below(4),
                    _ => rng.below(5),
                };
                if let Some(cell) = cells.get_mut(at) {
                    *cell = listed_byte(rng);
                }
            }
            return;
        }
        _ => rng.pick(&[2, 4, 8, 16, 40, 100, 300]),
    };
    for cell in cells {
        if rng.one_in(rare) {
            *cell = listed_byte(rng);
        }
    }
}

/// Mostly near the right length.
fn wrong_len(rng: &mut Rng) -> usize {
    let any = rng.below(MOST_CELLS + 1);
    let len = rng.pick(&[0, 1, PREDICATES, CONSTANTS, CELLS - 1, CELLS + 1, MOST_CELLS, any, any]);
    if len == CELLS { CELLS + 2 } else { len }
}

fn name_of(at: usize) -> String {
    match at {
        CELLS.. => format!("byte {at} of the cells"),
        CONSTANTS.. => format!("slot {}", at - CONSTANTS),
        FLAGS.. => format!("flag {}", at - FLAGS),
        PREDICATES.. => format!("predicate {}", at - PREDICATES),
        _ => format!("register {at}"),
    }
}

/// The first byte in which the two differ.
fn first_difference(plain: &Buffer, library: &Buffer) -> String {
    match (0..plain.len()).find(|&at| plain[at] != library[at]) {
        Some(at) => {
            let name = at.checked_sub(MARGIN).map_or_else(|| "a byte before the cells".to_owned(), name_of);
            format!("{name} is {}, in the library {}", plain[at], library[at])
        }
        None => "equal cells".to_owned(),
    }
}

/// Counts of one class.
#[derive(Default)]
struct Tally {
    accepted: u64,
    /// Accepted runs whose list has cells that were not asked, and lacks some that were.
    gained: u64,
    lost: u64,
    refused: u64,
    different: u64,
}

impl Tally {
    fn compare(&mut self, name: &str, run: &[u8], asked: &Buffer, len: usize) -> Option<String> {
        let lent = MARGIN..MARGIN + len;
        let mut plain = *asked;
        let plain_number = reach(run, &mut plain[lent.clone()]).err().map_or(0, u32::from);
        let mut library = *asked;
        let number = ffi::reach(run, &mut library[lent.clone()]);
        if plain_number == 0 {
            let changes = |from: &Buffer, to: &Buffer| lent.clone().any(|at| from[at] == 0 && to[at] != 0);
            self.accepted += 1;
            self.gained += u64::from(changes(asked, &plain));
            self.lost += u64::from(changes(&plain, asked));
        } else {
            self.refused += 1;
        }
        if number == plain_number && library == plain {
            return None;
        }
        self.different += 1;
        let difference = first_difference(&plain, &library);
        let (bytes, start) = (run.len(), hex(&run[..run.len().min(SHOWN_BYTES)]));
        Some(format!(
            "({name}): plain {plain_number}, library {number}; {difference}; {len} cells, run of {bytes} bytes {start}"
        ))
    }

    /// Prints the counts, and says whether they are as they ought to be.
    fn report(&self, class: &Class) -> bool {
        let Tally { accepted, gained, lost, refused, different } = *self;
        let mut complaint = String::new();
        for (answer, times, ought) in [(0, accepted, class.accepts), (7, refused, class.refuses)] {
            match (times > 0, ought) {
                (false, true) => complaint += &format!("  <- lacks answer {answer}"),
                (true, false) => complaint += &format!("  <- holds answer {answer}"),
                _ => {}
            }
        }
        if class.moves && (gained == 0 || lost == 0) {
            complaint += "  <- no list gains, or none loses";
        }
        let name = class.name;
        println!("{name:<22} {accepted:>9} {gained:>9} {lost:>9} {refused:>9} {different:>10}{complaint}");
        complaint.is_empty() && different == 0
    }
}

/// Compares on `count` random runs, shared out among the classes. True if there is no difference and every class has
/// the answers that it ought to have.
pub fn run(count: u64, seed: u64) -> bool {
    let mut rng = Rng::new(seed);
    let mut shown = 0;
    let mut tallies: [Tally; CLASSES.len()] = Default::default();
    for index in 0..count {
        let at = (index % CLASSES.len() as u64) as usize;
        let class = &CLASSES[at];
        let run = (class.make)(&mut rng, Layout::Wide);
        let len = if class.wrong_len { wrong_len(&mut rng) } else { CELLS };
        let mut buffer: Buffer = [rng.next_u64() as u8; size_of::<Buffer>()];
        asked(&mut rng, &mut buffer[MARGIN..MARGIN + len]);
        if let Some(difference) = tallies[at].compare(class.name, &run, &buffer, len) {
            shown += 1;
            if shown <= SHOWN {
                println!("difference at run {index} {difference}");
            }
        }
    }

    if shown > SHOWN {
        println!("{} more differences", shown - SHOWN);
    }
    println!("{:<22} {:>9} {:>9} {:>9} {:>9} {:>10}", "", "accepted", "gained", "lost", "7", "different");
    let mut fine = true;
    for (class, tally) in CLASSES.iter().zip(&tallies) {
        fine &= tally.report(class);
    }
    println!("gained, lost: accepted runs whose list has cells that were not asked, or lacks some that were");
    println!("{}", if fine { "no difference" } else { "FAILED" });
    fine
}
