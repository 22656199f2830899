//! One record through the oracle and through the library, with use marks that both carry from record to record.

use oracle::print::hex;
use oracle::rng::Rng;
use oracle::{Marks, SLOTS, translate_into};

use crate::ffi;

/// The use marks as the library takes them: little-endian words.
pub type MarkBytes = [u8; 4 * SLOTS];

/// The longest room that is lent. The longest strip has 239 bytes.
pub const ROOM: usize = 320;

/// The longest list of marks that is lent where another length than 128 is tried.
const LONGEST_MARKS: usize = 16 * SLOTS;

/// The length before a call. It must stand there after a refusal.
const NO_LENGTH: usize = 0x5a5a_5a5a_5a5a_5a5a;

pub fn mark_bytes(marks: &Marks) -> MarkBytes {
    let mut bytes = [0; 4 * SLOTS];
    for (to, mark) in bytes.chunks_exact_mut(4).zip(marks) {
        to.copy_from_slice(&mark.to_le_bytes());
    }
    bytes
}

/// Marks to start from: nothing used, part of a slot used, or any word.
pub fn random_marks(rng: &mut Rng) -> Marks {
    std::array::from_fn(|_| match rng.below(4) {
        0 => 0,
        1 => rng.next_u64() as u32,
        2 => rng.below(0x1_0008) as u32,
        _ => rng.below(0x1000) as u32,
    })
}

/// What a call answers, and the lists that it was lent. The room is the whole one, also after the part that is lent.
#[derive(PartialEq, Eq)]
struct Answer {
    number: u32,
    length: usize,
    marks: MarkBytes,
    room: [u8; ROOM],
}

impl Answer {
    /// The first thing in which the library's answer is another.
    fn first_difference(&self, library: &Answer) -> String {
        let place = |ours: &[u8], theirs: &[u8]| (0..ours.len()).find(|&at| ours[at] != theirs[at]);
        if self.number != library.number {
            return format!("number {}, in the library {}", self.number, library.number);
        }
        if self.length != library.length {
            return format!("length {}, in the library {}", self.length, library.length);
        }
        if let Some(at) = place(&self.room, &library.room) {
            return format!("room byte {at} is {:02x}, in the library {:02x}", self.room[at], library.room[at]);
        }
        if let Some(at) = place(&self.marks, &library.marks) {
            return format!("marks byte {at} is {:02x}, in the library {:02x}", self.marks[at], library.marks[at]);
        }
        "no difference".to_owned()
    }
}

/// The marks of both, and what stands in the rooms before a call.
pub struct Pair {
    marks: Marks,
    library_marks: MarkBytes,
    pattern: [u8; ROOM],
}

impl Pair {
    pub fn new(rng: &mut Rng) -> Pair {
        let marks = random_marks(rng);
        let pattern = std::array::from_fn(|_| rng.next_u64() as u8);
        Pair { marks, library_marks: mark_bytes(&marks), pattern }
    }

    /// Starts again from other marks.
    pub fn restart(&mut self, rng: &mut Rng) {
        self.marks = random_marks(rng);
        self.library_marks = mark_bytes(&self.marks);
    }

    /// The length of the record's strip, or 0 if it is refused.
    pub fn strip_len(&self, record: &[u8]) -> usize {
        let mut marks = self.marks;
        translate_into(record, &mut marks, &mut [0; ROOM]).unwrap_or(0)
    }

    /// Both translate the record into a room of so many bytes. The number, and what differs.
    pub fn translate(&mut self, record: &[u8], room_len: usize) -> (u32, Option<String>) {
        let mut room = self.pattern;
        let (number, length) = match translate_into(record, &mut self.marks, &mut room[..room_len]) {
            Ok(length) => (0, length),
            Err(number) => (number.into(), NO_LENGTH),
        };
        let right = Answer { number, length, marks: mark_bytes(&self.marks), room };

        let mut library = Answer { number: 0, length: NO_LENGTH, marks: self.library_marks, room: self.pattern };
        let Answer { marks, room, length, .. } = &mut library;
        library.number = ffi::translate(record, marks, &mut room[..room_len], length);
        // From here on both have the oracle's marks again, so that one difference is not told many times.
        self.library_marks = right.marks;
        (number, difference(&right, &library, record, room_len))
    }

    /// The library is lent marks of another length, and must answer 1 whatever the record is.
    pub fn wrong_marks(&mut self, record: &[u8], room_len: usize, marks_len: usize) -> (u32, Option<String>) {
        let right = Answer { number: 1, length: NO_LENGTH, marks: self.library_marks, room: self.pattern };
        let mut lent = [0; LONGEST_MARKS];
        for part in lent.chunks_exact_mut(self.library_marks.len()) {
            part.copy_from_slice(&self.library_marks);
        }
        let before = lent;
        let mut library = Answer { number: 0, length: NO_LENGTH, marks: self.library_marks, room: self.pattern };
        let Answer { room, length, .. } = &mut library;
        library.number = ffi::translate(record, &mut lent[..marks_len], &mut room[..room_len], length);
        if lent != before {
            return (1, Some(format!("{marks_len} bytes of marks written to; record {}", hex(record))));
        }
        (1, difference(&right, &library, record, room_len))
    }
}

fn difference(right: &Answer, library: &Answer, record: &[u8], room_len: usize) -> Option<String> {
    (right != library).then(|| format!("{}; room {room_len}, record {}", right.first_difference(library), hex(record)))
}
