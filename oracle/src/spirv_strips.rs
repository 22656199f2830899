//! Random strips for the writer of SPIR-V words (#105): well-formed, of all entry kinds, with casts of casts and words of
//! both signs. Most have words; a few are left as the writer refuses them with 17.

use crate::format::{Entry, MAX_ENTRIES, Value, kind};
use crate::rng::Rng;
use crate::strips::{Known, evaluation_strip, random_strip};

const SELECT: u8 = 90;
const INSERT: u8 = 93;

/// The values so far: what is known of each, and how the writer types it.
#[derive(Default)]
struct Values {
    known: Vec<Known>,
    typed: Vec<Typed>,
}

#[derive(Clone, Copy)]
struct Typed {
    sort: Value,
    /// Whether it is a word of the signed type.
    signed: bool,
    /// Whether its id is that of the constant 0.
    zero: bool,
}

impl Typed {
    fn is_word(self, signed: bool) -> bool {
        self.sort == Value::Word && self.signed == signed
    }
}

impl Values {
    fn add(&mut self, entry: &Entry) {
        if let Some(known) = Known::of(entry.kind, entry.immediate, entry.refs(), &self.known) {
            self.known.push(known);
            self.typed.push(typed(known.sort, entry, &self.typed));
        }
    }
}

/// A strip, half of them made for evaluation. References that would be refused with 17 are mostly turned to other values,
/// and more values are stored.
pub fn spirv_strip(rng: &mut Rng) -> Vec<Entry> {
    let mut made = if rng.one_in(2) { random_strip(rng) } else { evaluation_strip(rng) };
    if made.len() < MAX_ENTRIES {
        // A zero that every address may take.
        for entry in &mut made {
            let refs: Vec<u16> = entry.refs().iter().map(|r| r + 1).collect();
            *entry = Entry::new(entry.kind, entry.immediate, &refs);
        }
        made.insert(0, Entry::new(kind::WORD, 0, &[]));
    }
    let mut entries = Vec::with_capacity(MAX_ENTRIES);
    let mut values = Values::default();
    let end = made.iter().position(|entry| matches!(entry.kind, kind::CLOSE | kind::END)).expect("an end");
    for entry in &made[..end] {
        let entry = repaired(rng, *entry, &values.typed);
        values.add(&entry);
        entries.push(entry);
    }
    let last = &made[end..];
    store_values(rng, &mut entries, &mut values, MAX_ENTRIES - last.len());
    entries.extend(last);
    entries
}

/// Stores some of the computed values that are surely defined, so that it is seen what they are. A signed word is cast.
fn store_values(rng: &mut Rng, entries: &mut Vec<Entry>, values: &mut Values, most: usize) {
    let stored =
        |known: &Known| known.sure && known.constant.is_none() && matches!(known.sort, Value::Word | Value::Truth);
    let numbers: Vec<u16> = (0..).zip(&values.known).filter(|(_, known)| stored(known)).map(|(n, _)| n).collect();
    while !numbers.is_empty() && entries.len() + 2 <= most && !rng.one_in(8) {
        let mut number = rng.pick(&numbers);
        let Typed { sort, signed, .. } = values.typed[usize::from(number)];
        if signed {
            let cast = Entry::new(kind::CAST_U, 0, &[number]);
            number = values.typed.len() as u16;
            values.add(&cast);
            entries.push(cast);
        }
        let (store, cells) = match sort {
            Value::Word => (kind::STORE_REGISTER, 255),
            _ => rng.pick(&[(kind::STORE_PREDICATE, 7), (kind::STORE_FLAG, 4)]),
        };
        entries.push(Entry::new(store, rng.below(cells) as u32, &[number]));
    }
}

/// The entry, with more casts than chance gives, and references that the writer takes.
fn repaired(rng: &mut Rng, entry: Entry, values: &[Typed]) -> Entry {
    let mut to = entry.kind;
    if matches!(to, 20..=27) && rng.one_in(2) {
        to = rng.pick(&[kind::CAST_I, kind::CAST_U]);
    }
    let mut refs = entry.refs().to_vec();
    if !rng.one_in(256) {
        let of = |place: usize| values[usize::from(refs[place])];
        match to {
            kind::STORE_REGISTER => turn(rng, &mut refs, 0, values, |value| value.is_word(false)),
            SELECT => {
                let signed = of(1).signed;
                turn(rng, &mut refs, 2, values, |value| value.is_word(signed));
            }
            INSERT => {
                let signed = of(0).signed;
                turn(rng, &mut refs, 1, values, |value| value.is_word(signed));
            }
            kind::ADDRESS => turn(rng, &mut refs, 1, values, |value| value.zero),
            _ => {}
        }
    }
    Entry::new(to, entry.immediate, &refs)
}

/// Turns a reference to a value that fits, if there is one, where it does not name such a value already.
fn turn(rng: &mut Rng, refs: &mut [u16], place: usize, values: &[Typed], fits: impl Fn(Typed) -> bool) {
    if fits(values[usize::from(refs[place])]) {
        return;
    }
    let fitting: Vec<u16> = (0..).zip(values).filter(|(_, value)| fits(**value)).map(|(number, _)| number).collect();
    if !fitting.is_empty() {
        refs[place] = rng.pick(&fitting);
    }
}

fn typed(sort: Value, entry: &Entry, values: &[Typed]) -> Typed {
    let operands = entry.refs().iter().map(|r| values[usize::from(*r)]);
    let first = operands.clone().find(|value| value.sort == Value::Word);
    let signed = match entry.kind {
        kind::CAST_I => true,
        kind::CAST_U | kind::LOAD_AT => false,
        _ => sort == Value::Word && first.is_some_and(|value| value.signed),
    };
    let zero = match entry.kind {
        kind::WORD => entry.immediate == 0,
        // A cast to the type that its operand has already takes the operand's id.
        kind::CAST_U => first.is_some_and(|value| value.zero && !value.signed),
        _ => false,
    };
    Typed { sort, signed, zero }
}
