//! The differential test of translation: the same records, marks and rooms through the oracle and through the library.

use oracle::generate::{dead_word, random_admitted, random_record, with_field};
use oracle::record::{I2I, MOV, MOV_SYSTEM_VALUE, NAMES, RECORD_LEN, Record};
use oracle::rng::Rng;

use crate::answers::complaint;
use crate::dead::Dead;
use crate::pair::{Pair, ROOM};
use crate::rooms::{Room, Rooms};

/// Differences that are printed in full.
const SHOWN: u64 = 20;

/// Marks start anew about once in so many records.
const MARKS_LAST: usize = 200;

/// The answers: 0 for a record that is translated, and the refusals 1 to 6.
const ANSWERS: usize = 7;

struct Class {
    name: &'static str,
    /// The answers that must occur.
    must: &'static [u32],
    /// Further answers that may occur.
    may: &'static [u32],
    /// Whether the marks that are lent have another length than they ought to have.
    wrong_marks: bool,
    make: fn(&mut Rng) -> Vec<u8>,
}

const CLASSES: [Class; 8] = [
    Class { name: "random bytes", must: &[0, 1, 2, 3, 6], may: &[4, 5], wrong_marks: false, make: bytes },
    Class { name: "known kind", must: &[0, 3, 4, 5, 6], may: &[], wrong_marks: false, make: known_kind },
    Class { name: "random record", must: &[0, 2, 3, 4, 5, 6], may: &[], wrong_marks: false, make: any },
    Class { name: "admitted", must: &[0, 6], may: &[], wrong_marks: false, make: admitted },
    Class { name: "near refusal 4", must: &[0, 2, 3, 4, 6], may: &[], wrong_marks: false, make: near_system_value_mov },
    Class { name: "near refusal 5", must: &[0, 2, 3, 5, 6], may: &[], wrong_marks: false, make: near_byte_three },
    Class { name: "dead word", must: &[0, 2, 3, 6], may: &[], wrong_marks: false, make: dead },
    Class { name: "marks too long or short", must: &[1], may: &[], wrong_marks: true, make: any },
];

/// Mostly 18 bytes, else up to 40.
fn bytes(rng: &mut Rng) -> Vec<u8> {
    let len = if rng.one_in(4) { rng.below(41) } else { RECORD_LEN };
    let mut bytes: Vec<u8> = (0..len).map(|_| rng.next_u64() as u8).collect();
    // Few random bytes are a kind and a form: at times the first two are small.
    if rng.one_in(2) {
        for byte in bytes.iter_mut().take(2) {
            *byte %= 40;
        }
    }
    bytes
}

fn any(rng: &mut Rng) -> Vec<u8> {
    random_record(rng).to_bytes().to_vec()
}

fn known_kind(rng: &mut Rng) -> Vec<u8> {
    let kind = 1 + rng.below(NAMES.len()) as u8;
    let form = if rng.one_in(8) { rng.next_u64() as u8 } else { rng.below(4) as u8 };
    Record { kind, form, ..random_record(rng) }.to_bytes().to_vec()
}

fn admitted(rng: &mut Rng) -> Vec<u8> {
    random_admitted(rng).to_bytes().to_vec()
}

/// A record with about one of the things that its refusal asks for wrong, under any guard.
fn near(rng: &mut Rng, mut record: Record, kind: u8) -> Vec<u8> {
    record.kind = match rng.below(12) {
        0 => rng.pick(&[0, 31, 255]),
        1 => kind - 1,
        2 => kind + 1,
        _ => kind,
    };
    record.form = if rng.one_in(8) { rng.pick(&[3, 4, 255]) } else { rng.below(3) as u8 };
    if rng.one_in(3) {
        record.word = with_field(record.word, 16, 4, rng.pick(&[7, 15, 0, 8]));
    }
    record.to_bytes().to_vec()
}

/// Refusal 4: mov of a system value, or with one bit of it changed.
fn near_system_value_mov(rng: &mut Rng) -> Vec<u8> {
    let value = if rng.one_in(2) { MOV_SYSTEM_VALUE } else { MOV_SYSTEM_VALUE ^ 1 << rng.below(64) };
    let record = Record { value, ..random_record(rng) };
    near(rng, record, MOV)
}

/// Refusal 5: i2i of a half from byte 3 on, or with one of the two fields different.
fn near_byte_three(rng: &mut Rng) -> Vec<u8> {
    let mut record = random_record(rng);
    let (size, byte) = match rng.below(4) {
        0 => (rng.below(4) as u64, 3),
        1 => (1, rng.below(4) as u64),
        _ => (1, 3),
    };
    record.word = with_field(record.word, 10, 2, size);
    record.word = with_field(record.word, 41, 2, byte);
    near(rng, record, I2I)
}

/// A record under the guard that never runs: mov of a system value, i2i of a half from byte 3 on, or any other kind. At
/// times its kind or form is none.
fn dead(rng: &mut Rng) -> Vec<u8> {
    let mut record = dead_word(rng);
    match rng.below(16) {
        0 => record.kind = rng.pick(&[0, 31, 255]),
        1 => record.form = rng.pick(&[3, 4, 255]),
        _ => {}
    }
    record.to_bytes().to_vec()
}

/// Counts of one class.
#[derive(Default)]
struct Tally {
    answers: [u64; ANSWERS],
    different: u64,
}

impl Tally {
    /// Prints the counts, and says whether they are as they ought to be.
    fn report(&self, class: &Class) -> bool {
        let complaint = complaint((0..).zip(self.answers), class.must, class.may);
        print!("{:<24}", class.name);
        for times in self.answers {
            print!(" {times:>9}");
        }
        println!(" {:>10}{complaint}", self.different);
        complaint.is_empty() && self.different == 0
    }
}

/// Compares on `count` random records, shared out among the classes. True if there is no difference, every class and room
/// has the answers that it ought to have, and dead words of every sort were accepted.
pub fn run(count: u64, seed: u64) -> bool {
    let mut rng = Rng::new(seed);
    let mut pair = Pair::new(&mut rng);
    let mut shown = 0;
    let mut tallies: [Tally; CLASSES.len()] = Default::default();
    let mut rooms = Rooms::new(6);
    let mut dead = Dead::default();
    for index in 0..count {
        let at = (index % CLASSES.len() as u64) as usize;
        let class = &CLASSES[at];
        let record = (class.make)(&mut rng);
        if rng.one_in(MARKS_LAST) {
            pair.restart(&mut rng);
        }
        let room = Room::random(&mut rng, pair.strip_len(&record), ROOM);
        let (number, difference) = if class.wrong_marks {
            let marks_len = rng.pick(&[0, 1, 4, 32, 64, 124, 127, 129, 132, 255, 256, 512]);
            pair.wrong_marks(&record, room.len, marks_len)
        } else {
            pair.translate(&record, room.len)
        };
        tallies[at].answers[number as usize] += 1;
        rooms.count(room, number);
        if let (0, Some(record)) = (number, Record::parse(&record)) {
            dead.count(&record);
        }
        if let Some(difference) = difference {
            tallies[at].different += 1;
            shown += 1;
            if shown <= SHOWN {
                println!("difference at record {index} ({}): {difference}", class.name);
            }
        }
    }

    if shown > SHOWN {
        println!("{} more differences", shown - SHOWN);
    }
    print!("{:<24} {:>9}", "", "accepted");
    for number in 1..ANSWERS {
        print!(" {number:>9}");
    }
    println!(" {:>10}", "different");
    let mut fine = true;
    for (class, tally) in CLASSES.iter().zip(&tallies) {
        fine &= tally.report(class);
    }
    fine &= rooms.report();
    fine &= dead.report();
    println!("{}", if fine { "no difference" } else { "FAILED" });
    fine
}
