//! Random strips: well-formed ones that no record gives, some of them suited to evaluation or to the writer of SPIR-V
//! words, near misses, and damaged bytes.

use crate::format::{Entry, Immediate, Layout, MAX_ENTRIES, Value, encode, kind, signature, value_count};
use crate::rng::Rng;
use crate::starts::corner_word;

/// Bytes at the limits of kinds, cells, slots and notes.
pub const TELLING_BYTES: [u8; 48] = [
    0, 1, 2, 3, 4, 5, 6, 7, 8, 9, 10, 11, 12, 13, 19, 20, 27, 28, 31, 32, 39, 40, 52, 53, 59, 60, 61, 62, 63, 64, 69,
    70, 79, 80, 83, 84, 89, 90, 93, 94, 99, 100, 101, 102, 110, 120, 254, 255,
];

/// The entry kinds that may stand anywhere.
const PLAIN_KINDS: [u8; 52] = {
    let mut kinds = [0; 52];
    let mut found = 0;
    let mut kind = 0;
    while kind < 255 {
        if signature(kind).is_some() && kind != kind::OPEN && kind != kind::CLOSE {
            kinds[found] = kind;
            found += 1;
        }
        kind += 1;
    }
    assert!(found == kinds.len());
    kinds
};

/// The values of a strip so far: how many there are, and the numbers of each sort.
#[derive(Default)]
struct Values {
    count: u16,
    numbers: [Vec<u16>; 4],
}

impl Values {
    /// A reference to a value of the sort, often the first or the last one; `None` if there is none.
    fn pick(&self, rng: &mut Rng, wanted: Value) -> Option<u16> {
        let fitting = &self.numbers[wanted as usize];
        match rng.below(4) {
            0 => fitting.first().copied(),
            1 => fitting.last().copied(),
            _ if fitting.is_empty() => None,
            _ => Some(rng.pick(fitting)),
        }
    }

    /// An entry of the kind with fitting operands; `None` if an operand is lacking.
    fn entry(&mut self, rng: &mut Rng, kind: u8) -> Option<Entry> {
        let signature = signature(kind)?;
        let mut refs = [0; 4];
        for (to, wanted) in refs.iter_mut().zip(signature.operands) {
            *to = self.pick(rng, *wanted)?;
        }
        let immediate = match signature.immediate {
            Immediate::None => 0,
            Immediate::Word => rng.next_u64() as u32,
            Immediate::Byte(least, most) => match rng.below(4) {
                0 => least.into(),
                1 => most.into(),
                _ => u32::from(least) + rng.below(usize::from(most - least) + 1) as u32,
            },
        };
        if let Some(sort) = signature.result {
            self.numbers[sort as usize].push(self.count);
            self.count += 1;
        }
        Some(Entry::new(kind, immediate, &refs[..signature.operands.len()]))
    }

    fn has_truth(&self) -> bool {
        !self.numbers[Value::Truth as usize].is_empty()
    }
}

fn random_kind(rng: &mut Rng) -> u8 {
    if rng.one_in(6) { rng.pick(&[kind::SLOT, kind::ADDRESS, kind::LOAD_AT]) } else { rng.pick(&PLAIN_KINDS) }
}

/// How long a strip is and where its open stands.
struct Plan {
    total: usize,
    /// Entries before the close and the end.
    last_inner: usize,
    /// `usize::MAX` if there is no open.
    open_at: usize,
}

impl Plan {
    fn random(rng: &mut Rng) -> Plan {
        let total = match rng.below(6) {
            0 => MAX_ENTRIES,
            1 => 1 + rng.below(8),
            _ => 1 + rng.below(MAX_ENTRIES),
        };
        // An open needs a truth before it and a close after it.
        let opens = total >= 4 && rng.one_in(2);
        let last_inner = if opens { total - 2 } else { total - 1 };
        let open_at = if opens { 1 + rng.below(last_inner - 1) } else { usize::MAX };
        Plan { total, last_inner, open_at }
    }
}

/// A well-formed strip. All entry kinds and all limits occur, and one strip in six has 64 entries.
pub fn random_strip(rng: &mut Rng) -> Vec<Entry> {
    let Plan { total, last_inner, open_at } = Plan::random(rng);
    let mut values = Values::default();
    let mut entries = Vec::with_capacity(total);
    while entries.len() < last_inner {
        let wanted = if entries.len() == open_at {
            kind::OPEN
        } else if entries.len() + 1 == open_at && !values.has_truth() {
            rng.pick(&[kind::TRUE, kind::FALSE, kind::LOAD_PREDICATE, kind::LOAD_FLAG])
        } else {
            random_kind(rng)
        };
        entries.extend(values.entry(rng, wanted));
    }
    finish(&mut entries);
    entries
}

/// Adds the close, if there is an open, and the end.
fn finish(entries: &mut Vec<Entry>) {
    if entries.iter().any(|entry| entry.kind == kind::OPEN) {
        entries.push(Entry::new(kind::CLOSE, 0, &[]));
    }
    entries.push(Entry::new(kind::END, 0, &[]));
}

/// What is known of a value without running the strip.
#[derive(Clone, Copy)]
pub(crate) struct Known {
    pub sort: Value,
    /// The bits of a constant word, or 1 or 0 for a constant truth.
    pub constant: Option<u32>,
    /// Whether it is defined whatever the state and the list are.
    pub sure: bool,
}

impl Known {
    /// What is known of the value of an entry after `values`; `None` if it makes none.
    pub fn of(kind: u8, immediate: u32, refs: &[u16], values: &[Known]) -> Option<Known> {
        let constant = match kind {
            kind::WORD => Some(immediate),
            kind::TRUE => Some(1),
            kind::FALSE => Some(0),
            _ => None,
        };
        let sort = signature(kind).expect("known").result?;
        Some(Known { sort, constant, sure: is_sure(kind, refs, values) })
    }
}

fn is_sure(kind: u8, refs: &[u16], values: &[Known]) -> bool {
    let sure = |r: u16| values[usize::from(r)].sure;
    let constant = |r: u16| values[usize::from(r)].constant;
    match (kind, refs) {
        (90, [condition, a, b]) => match constant(*condition) {
            Some(0) => sure(*b),
            Some(_) => sure(*a),
            None => refs.iter().all(|r| sure(*r)),
        },
        (43..=45, [_, count]) => refs.iter().all(|r| sure(*r)) && constant(*count).is_some_and(|n| n < 32),
        (91..=93, [.., offset, length]) => {
            refs.iter().all(|r| sure(*r))
                && matches!((constant(*offset), constant(*length)), (Some(o), Some(l)) if o <= 32 && l <= 32 - o)
        }
        _ => refs.iter().all(|r| sure(*r)),
    }
}

/// Makes a strip whose values are mostly defined and whose addresses are mostly in range.
struct Maker<'a> {
    rng: &'a mut Rng,
    entries: Vec<Entry>,
    values: Vec<Known>,
    /// Once in so many times a store or an open takes a value that may be undefined. Addresses are four times as
    /// careful, since each has many ways to be refused.
    care: usize,
}

impl Maker<'_> {
    /// Adds an entry and gives the number that its value has, if it makes one.
    fn add(&mut self, kind: u8, immediate: u32, refs: &[u16]) -> u16 {
        let number = self.values.len() as u16;
        self.values.extend(Known::of(kind, immediate, refs, &self.values));
        self.entries.push(Entry::new(kind, immediate, refs));
        number
    }

    /// A value of the sort that is surely defined, or not surely; any if there is none such.
    fn pick(&mut self, sort: Value, sure: bool) -> Option<u16> {
        self.pick_where(|known| known.sort == sort && known.sure == sure)
            .or_else(|| self.pick_where(|known| known.sort == sort))
    }

    fn pick_where(&mut self, fitting: impl Fn(&Known) -> bool) -> Option<u16> {
        let count = self.values.iter().filter(|known| fitting(known)).count();
        if count == 0 {
            return None;
        }
        // Late values are taken more often, so that long chains arise.
        let late = count - 1 - self.rng.below(count.min(4));
        let place = if self.rng.one_in(2) { late } else { self.rng.below(count) };
        let mut numbers = (0..).zip(&self.values).filter(|(_, known)| fitting(known)).map(|(number, _)| number);
        numbers.nth(place)
    }

    fn has_sure_truth(&self) -> bool {
        self.values.iter().any(|known| known.sort == Value::Truth && known.sure)
    }

    fn careless(&mut self) -> bool {
        self.rng.one_in(self.care)
    }

    /// An entry of the kind with fitting operands, if there are such.
    fn plain(&mut self, kind: u8, sure: bool) -> Option<()> {
        let signature = signature(kind).expect("known");
        let mut refs = [0; 4];
        for (to, wanted) in refs.iter_mut().zip(signature.operands) {
            *to = self.pick(*wanted, sure)?;
        }
        let immediate = match signature.immediate {
            Immediate::None => 0,
            Immediate::Word => corner_word(self.rng),
            // A few cells only, so that later loads meet earlier stores.
            Immediate::Byte(least, most) => match self.rng.below(8) {
                0 => most.into(),
                1 => u32::from(least) + self.rng.below(usize::from(most - least) + 1) as u32,
                _ => u32::from(least) + self.rng.below(4) as u32,
            },
        };
        self.add(kind, immediate, &refs[..signature.operands.len()]);
        Some(())
    }

    /// A shift by a constant.
    fn shift(&mut self) -> Option<()> {
        let base = self.pick(Value::Word, true)?;
        let any = self.rng.below(32) as u32;
        let count = self.rng.pick(&[any, any, any, any, 0, 1, 16, 31, 31, 32, 33, 0xffff_ffff]);
        let count = self.add(kind::WORD, count, &[]);
        let kind = self.rng.pick(&[43, 44, 45]);
        self.add(kind, 0, &[base, count]);
        Some(())
    }

    /// A field taken out or put in at a constant place.
    fn field(&mut self) -> Option<()> {
        let base = self.pick(Value::Word, true)?;
        let insert = self.pick(Value::Word, true)?;
        let place = self.rng.below(33) as u32;
        let within = self.rng.below(33 - place as usize) as u32;
        let (offset, length) = self.rng.pick(&[
            (place, within),
            (place, within),
            (place, within),
            (place, 32 - place),
            (place, 33 - place),
            (8 * (place % 4), 8),
            (16 * (place % 2), 16),
            (0, 32),
            (32, 0),
            (33, 0),
            // Sums that come out small if they wrap.
            (0xffff_fff0, 0x20),
            (place, place.wrapping_neg()),
        ]);
        let offset = self.add(kind::WORD, offset, &[]);
        let length = self.add(kind::WORD, length, &[]);
        match self.rng.pick(&[91, 92, 93]) {
            93 => self.add(93, 0, &[base, insert, offset, length]),
            kind => self.add(kind, 0, &[base, offset, length]),
        };
        Some(())
    }

    /// An address and mostly a load at it.
    fn constant(&mut self) -> Option<()> {
        let slot = match self.rng.below(16) {
            0 => 1,
            1 => 31,
            2 => self.rng.below(32) as u32,
            _ => 0,
        };
        let care = 4 * self.care;
        let zero = if self.rng.one_in(care) { corner_word(self.rng) } else { 0 };
        let mut vec = match self.rng.below(16) {
            0 => 4095,
            1 => self.rng.below(4096) as u32,
            _ => self.rng.below(16) as u32,
        };
        if self.rng.one_in(care) {
            // The product with 4 wraps to 0 for the third.
            vec = self.rng.pick(&[4096, 4097, 0x4000_0000, u32::MAX]);
        }
        let mut comp = self.rng.below(4) as u32;
        if self.rng.one_in(care) {
            comp = self.rng.pick(&[4, 5, 0x8000_0000, u32::MAX]);
        }
        let slot = self.add(kind::SLOT, slot, &[]);
        let mut refs = [slot, 0, 0, 0];
        for (to, word) in refs[1..].iter_mut().zip([zero, vec, comp]) {
            *to = self.add(kind::WORD, word, &[]);
        }
        if self.rng.one_in(care) {
            let which = 1 + self.rng.below(3);
            refs[which] = self.pick(Value::Word, false)?;
        }
        let address = self.add(kind::ADDRESS, 0, &refs);
        if !self.rng.one_in(8) {
            self.add(kind::LOAD_AT, 0, &[address]);
        }
        Some(())
    }

    /// A truth that needs no operand.
    fn truth(&mut self) -> Option<()> {
        let kind = self.rng.pick(&[kind::TRUE, kind::FALSE, kind::LOAD_PREDICATE, kind::LOAD_FLAG]);
        self.plain(kind, true)
    }

    /// An operation with one undefined operand among defined ones, and a store of its result. The defined ones are
    /// often such that the result would not depend on the other, for instance 0 in a product.
    fn undefined_operand(&mut self) -> Option<()> {
        let kinds: Vec<u8> = PLAIN_KINDS.into_iter().filter(|kind| (20..=93).contains(kind)).collect();
        let kind = self.rng.pick(&kinds);
        let signature = signature(kind).expect("known");
        let count = self.add(kind::WORD, 32, &[]);
        let mut undefined = self.add(43, 0, &[count, count]);
        let place = self.rng.below(signature.operands.len());
        if signature.operands[place] == Value::Truth {
            undefined = self.add(60, 0, &[undefined, undefined]);
        }
        let truth = self.rng.pick(&[kind::TRUE, kind::FALSE]);
        let truth = self.add(truth, 0, &[]);
        let word = self.rng.pick(&[0, 0, u32::MAX]);
        let word = self.add(kind::WORD, word, &[]);
        // Both operands may be the undefined one: a difference of equals.
        let same = self.rng.one_in(4);
        let mut refs = [0; 4];
        for (at, wanted) in signature.operands.iter().enumerate() {
            refs[at] = match wanted {
                _ if at == place || same && *wanted == signature.operands[place] => undefined,
                Value::Truth => truth,
                _ => word,
            };
        }
        let result = self.add(kind, 0, &refs[..signature.operands.len()]);
        let (store, most) = match signature.result {
            Some(Value::Word) => (kind::STORE_REGISTER, 254),
            _ => self.rng.pick(&[(kind::STORE_PREDICATE, 6), (kind::STORE_FLAG, 3)]),
        };
        let cell = self.rng.below(most + 1) as u32;
        self.add(store, cell, &[result]);
        Some(())
    }

    /// A store of a value that is mostly defined.
    fn store(&mut self, room: usize) -> Option<()> {
        let sure = !self.careless();
        if !sure && room >= 7 && self.rng.one_in(2) {
            return self.undefined_operand();
        }
        let kind = self.rng.pick(&[
            kind::STORE_REGISTER,
            kind::STORE_REGISTER,
            kind::STORE_REGISTER,
            kind::STORE_PREDICATE,
            kind::STORE_FLAG,
        ]);
        self.plain(kind, sure)
    }

    /// One entry, or a few that belong together if there is room for them. Now and then nothing, for lack of operands.
    fn piece(&mut self, room: usize) {
        let _ = match self.rng.below(16) {
            0 if room >= 6 => self.constant(),
            1 if room >= 2 => self.shift(),
            2 if room >= 3 => self.field(),
            0..=4 => self.store(room),
            5 => self.plain(kind::WORD, true),
            6 => self.plain(kind::LOAD_REGISTER, true),
            7 => self.truth(),
            _ => {
                let kind = self.rng.pick(&PLAIN_KINDS);
                // Addresses and stores have their own pieces; here they would often be refused.
                let refuses = matches!(kind, kind::ADDRESS | 7..=9) && !self.careless();
                let sure = !self.rng.one_in(4);
                if refuses { None } else { self.plain(kind, sure) }
            }
        };
    }
}

/// A well-formed strip for evaluation: all entry kinds, most values defined, most addresses in range, so that many
/// strips run to their end. Undefined values, addresses out of range and skipped blocks occur too.
pub fn evaluation_strip(rng: &mut Rng) -> Vec<Entry> {
    let Plan { total, last_inner, open_at } = Plan::random(rng);
    let care = rng.pick(&[4, 16, 64, 256]);
    let mut maker = Maker { rng, entries: Vec::with_capacity(total), values: Vec::new(), care };
    while maker.entries.len() < last_inner {
        let place = maker.entries.len();
        if place == open_at {
            let sure = !maker.careless();
            maker.plain(kind::OPEN, sure);
        } else if place + 1 == open_at && !maker.has_sure_truth() {
            maker.truth();
        } else {
            // No piece reaches over the place before the open, which may have to hold its truth.
            let stops = [open_at - 1, open_at, last_inner];
            let stop = stops.into_iter().find(|&stop| stop > place).expect("the place is an inner one");
            maker.piece(stop.min(last_inner) - place);
        }
    }
    let mut entries = maker.entries;
    finish(&mut entries);
    entries
}

/// A word as the writer of SPIR-V words sees it.
#[derive(Clone, Copy)]
struct Typed {
    number: u16,
    signed: bool,
    /// Whether it has the id of the constant 0, if it is unsigned.
    zero: bool,
}

/// Makes a strip with words of both signs.
struct Typist<'a> {
    rng: &'a mut Rng,
    entries: Vec<Entry>,
    values: Values,
    words: Vec<Typed>,
    /// Once in so many times an entry takes a word that words cannot say there.
    care: usize,
}

impl Typist<'_> {
    /// An entry of the kind. Selects, inserts, register stores and addresses mostly take words of fitting signs, and the
    /// constant 0. Nothing, for lack of operands.
    fn add(&mut self, kind: u8) -> Option<()> {
        let signature = signature(kind).expect("known");
        let careful = !self.rng.one_in(self.care);
        let mut typed = [None; 4];
        let mut refs = [0; 4];
        for (at, wanted) in signature.operands.iter().enumerate() {
            if *wanted != Value::Word {
                refs[at] = self.values.pick(self.rng, *wanted)?;
                continue;
            }
            let fits = |word: &Typed| match (kind, at) {
                (kind::STORE_REGISTER, _) => !word.signed,
                (kind::ADDRESS, 1) => word.zero && !word.signed,
                (90, 2) | (93, 1) => typed[at - 1].is_some_and(|before: Typed| before.signed == word.signed),
                _ => true,
            };
            let fitting: Vec<Typed> = self.words.iter().filter(|word| !careful || fits(word)).copied().collect();
            if fitting.is_empty() {
                return None;
            }
            // Late values are taken more often, so that casts of casts arise.
            let late = fitting.len() - 1 - self.rng.below(fitting.len().min(3));
            let place = if self.rng.one_in(2) { late } else { self.rng.below(fitting.len()) };
            typed[at] = Some(fitting[place]);
            refs[at] = fitting[place].number;
        }
        let immediate = match signature.immediate {
            Immediate::None => 0,
            // Few values, so that many stand there more than once.
            Immediate::Word => self.rng.pick(&[0, 0, 0, 1, 2, 16, 0xff, 0x8000_0000, u32::MAX]),
            Immediate::Byte(least, most) => u32::from(least) + self.rng.below(usize::from(most - least) + 1) as u32,
        };
        if let Some(sort) = signature.result {
            let number = self.values.count;
            self.values.numbers[sort as usize].push(number);
            self.values.count += 1;
            if sort == Value::Word {
                let first = typed.into_iter().flatten().next();
                self.words.push(match (kind, first) {
                    (kind::CAST_I, _) => Typed { number, signed: true, zero: false },
                    (kind::CAST_U, Some(first)) => Typed { number, signed: false, zero: first.zero && !first.signed },
                    (_, Some(first)) => Typed { number, signed: first.signed, zero: false },
                    (_, None) => Typed { number, signed: false, zero: kind == kind::WORD && immediate == 0 },
                });
            }
        }
        self.entries.push(Entry::new(kind, immediate, &refs[..signature.operands.len()]));
        Some(())
    }
}

/// A well-formed strip for the writer of SPIR-V words: words of both signs, casts of casts, constants that stand there
/// more than once, addresses. Most can be said in words; odd zeros and signs that differ occur too.
pub fn words_strip(rng: &mut Rng) -> Vec<Entry> {
    const TRUTHS: [u8; 4] = [kind::TRUE, kind::FALSE, kind::LOAD_PREDICATE, kind::LOAD_FLAG];
    let Plan { total, last_inner, open_at } = Plan::random(rng);
    let care = rng.pick(&[2, 16, 64, 256]);
    let (values, words) = (Values::default(), Vec::new());
    let mut typist = Typist { rng, entries: Vec::with_capacity(total), values, words, care };
    while typist.entries.len() < last_inner {
        let place = typist.entries.len();
        let wanted = if place == open_at {
            kind::OPEN
        } else if place + 1 == open_at && !typist.values.has_truth() {
            typist.rng.pick(&TRUTHS)
        } else {
            match typist.rng.below(16) {
                0..=2 => kind::WORD,
                3 => kind::LOAD_REGISTER,
                4 => typist.rng.pick(&TRUTHS),
                5..=7 => typist.rng.pick(&[kind::CAST_I, kind::CAST_U]),
                8 => typist.rng.pick(&[90, 93]),
                9 => kind::STORE_REGISTER,
                _ => random_kind(typist.rng),
            }
        };
        // Without operands nothing is added, and another kind is tried.
        let _ = typist.add(wanted);
    }
    let mut entries = typist.entries;
    finish(&mut entries);
    entries
}

/// A strip that misses the format by one detail: a limit passed by one, a reference to its own number or to a value of
/// another kind, a block that is not opened or closed as it should be, one entry too many. Some stay well-formed.
pub fn near_miss(rng: &mut Rng, mut entries: Vec<Entry>, layout: Layout) -> Vec<u8> {
    let at = rng.below(entries.len());
    let entry = entries[at];
    let own = value_count(&entries[..at]) as u16;
    match rng.below(10) {
        0 => {
            let beyond = match signature(entry.kind).expect("known").immediate {
                Immediate::Byte(least, most) => {
                    rng.pick(&[u32::from(most) + 1, u32::from(least.saturating_sub(1)), 255])
                }
                _ => entry.immediate,
            };
            entries[at] = Entry::new(entry.kind, beyond, entry.refs());
        }
        1..=3 if !entry.refs().is_empty() => {
            let mut refs = entry.refs().to_vec();
            let which = rng.below(refs.len());
            let any = rng.below(usize::from(own) + 1) as u16;
            let right = refs[which];
            let miss = rng.pick(&[own, own.wrapping_sub(1), own + 1, any, right | 0x100, right ^ 0x40, right | 0x80]);
            // What the layout has no room for is dropped.
            refs[which] = miss & (u16::MAX >> (16 - 8 * layout.ref_len()));
            entries[at] = Entry::new(entry.kind, entry.immediate, &refs);
        }
        4 => entries.insert(at, Entry::new(kind::CLOSE, 0, &[])),
        5 => {
            entries.remove(at);
        }
        6 => entries.retain(|e| e.kind != kind::CLOSE),
        7 => entries.insert(at, Entry::new(kind::NOTE, 1 + rng.below(5) as u32, &[])),
        8 => entries.insert(at, Entry::new(kind::OPEN, 0, &[rng.below(usize::from(own) + 1) as u16])),
        _ => {
            let other = rng.below(entries.len());
            entries.swap(at, other);
        }
    }
    encode(&entries, layout)
}

/// Changes bytes without looking at their meaning.
pub fn damage(rng: &mut Rng, bytes: &mut Vec<u8>) {
    for _ in 0..1 + rng.below(2) {
        if bytes.is_empty() {
            bytes.push(rng.pick(&TELLING_BYTES));
            continue;
        }
        let at = rng.below(bytes.len());
        match rng.below(7) {
            0 => bytes[at] ^= 1 << rng.below(8),
            1 => bytes[at] = rng.pick(&TELLING_BYTES),
            2 => bytes.truncate(at),
            3 => {
                bytes.remove(at);
            }
            4 => bytes.insert(at, rng.pick(&TELLING_BYTES)),
            5 => bytes[at] = bytes[at].wrapping_add(rng.pick(&[1, 255])),
            _ => {
                let end = at + rng.below((bytes.len() - at).min(8)) + 1;
                let piece = bytes[at..end].to_vec();
                bytes.splice(at..at, piece);
            }
        }
    }
}

/// Up to 12 bytes, half of them telling ones.
pub fn random_bytes(rng: &mut Rng) -> Vec<u8> {
    let len = rng.below(13);
    (0..len).map(|_| if rng.one_in(2) { rng.pick(&TELLING_BYTES) } else { rng.next_u64() as u8 }).collect()
}
