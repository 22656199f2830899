//! The strip format of 01: which entry kinds there are, how long a body is, what it refers to and what it makes. The two
//! layouts of #102 differ in the length of a reference alone.

/// How the entries of a run lie in bytes. Who reads a run is told its layout: the same bytes may be well-formed in both
/// and mean two things.
#[derive(Clone, Copy, Debug, PartialEq, Eq)]
pub enum Layout {
    /// A reference in 2 bytes, little-endian: what translation writes and reach reads.
    Wide = 0,
    /// A reference in 1 byte: the shelf copy.
    Narrow = 1,
}

/// Bytes of a reference in the two layouts.
pub const WIDE: usize = Layout::Wide.ref_len();
pub const NARROW: usize = Layout::Narrow.ref_len();

impl Layout {
    pub const ALL: [Layout; 2] = [Layout::Wide, Layout::Narrow];

    /// The number that callers of the library give.
    pub const fn number(self) -> u32 {
        self as u32
    }

    /// The layout with this number, or `None` if there is none: then no run is well-formed.
    pub fn from_number(number: u32) -> Option<Layout> {
        Layout::ALL.into_iter().find(|layout| layout.number() == number)
    }

    pub const fn name(self) -> &'static str {
        match self {
            Layout::Wide => "wide",
            Layout::Narrow => "narrow",
        }
    }

    pub const fn other(self) -> Layout {
        match self {
            Layout::Wide => Layout::Narrow,
            Layout::Narrow => Layout::Wide,
        }
    }

    /// Bytes of a reference.
    pub const fn ref_len(self) -> usize {
        match self {
            Layout::Wide => 2,
            Layout::Narrow => 1,
        }
    }
}

/// Kinds of values that a reference can name.
#[derive(Clone, Copy, Debug, PartialEq, Eq)]
pub enum Value {
    Word,
    Truth,
    Slot,
    Address,
}

/// What stands in an entry's body before the references.
#[derive(Clone, Copy, Debug, PartialEq, Eq)]
pub enum Immediate {
    None,
    /// A whole word, 4 bytes.
    Word,
    /// One byte between the two limits, both allowed.
    Byte(u8, u8),
}

/// What the entries of one kind take and make.
#[derive(Clone, Copy, Debug, PartialEq, Eq)]
pub struct Signature {
    pub immediate: Immediate,
    /// What each reference must name, in order.
    pub operands: &'static [Value],
    /// The kind of the value that the entry makes, if it makes one.
    pub result: Option<Value>,
}

/// Entry kinds by name. Arithmetic kinds have no name here; the recorder gives their numbers next to the method names.
pub mod kind {
    pub const WORD: u8 = 1;
    pub const TRUE: u8 = 2;
    pub const FALSE: u8 = 3;
    pub const LOAD_REGISTER: u8 = 4;
    pub const LOAD_PREDICATE: u8 = 5;
    pub const LOAD_FLAG: u8 = 6;
    pub const STORE_REGISTER: u8 = 7;
    pub const STORE_PREDICATE: u8 = 8;
    pub const STORE_FLAG: u8 = 9;
    pub const SLOT: u8 = 10;
    pub const ADDRESS: u8 = 11;
    pub const LOAD_AT: u8 = 12;
    pub const CAST_I: u8 = 23;
    pub const CAST_U: u8 = 24;
    pub const OPEN: u8 = 100;
    pub const CLOSE: u8 = 101;
    pub const NOTE: u8 = 110;
    pub const END: u8 = 255;
}

/// No strip has more entries, the end included.
pub const MAX_ENTRIES: usize = 64;

/// The signature of a kind, or `None` if there is no such kind.
pub const fn signature(kind: u8) -> Option<Signature> {
    use Value::{Address, Slot, Truth, Word};
    const REGISTER: Immediate = Immediate::Byte(0, 254);
    const PREDICATE: Immediate = Immediate::Byte(0, 6);
    const FLAG: Immediate = Immediate::Byte(0, 3);
    const SLOT: Immediate = Immediate::Byte(0, 31);
    const NOTE: Immediate = Immediate::Byte(1, 5);
    let (immediate, operands, result): (Immediate, &'static [Value], Option<Value>) = match kind {
        1 => (Immediate::Word, &[], Some(Word)),
        2 | 3 => (Immediate::None, &[], Some(Truth)),
        4 => (REGISTER, &[], Some(Word)),
        5 => (PREDICATE, &[], Some(Truth)),
        6 => (FLAG, &[], Some(Truth)),
        7 => (REGISTER, &[Word], None),
        8 => (PREDICATE, &[Truth], None),
        9 => (FLAG, &[Truth], None),
        10 => (SLOT, &[], Some(Slot)),
        11 => (Immediate::None, &[Slot, Word, Word, Word], Some(Address)),
        12 => (Immediate::None, &[Address], Some(Word)),
        20..=27 => (Immediate::None, &[Word], Some(Word)),
        40..=52 => (Immediate::None, &[Word, Word], Some(Word)),
        60..=69 => (Immediate::None, &[Word, Word], Some(Truth)),
        80 => (Immediate::None, &[Truth], Some(Truth)),
        81..=83 => (Immediate::None, &[Truth, Truth], Some(Truth)),
        90 => (Immediate::None, &[Truth, Word, Word], Some(Word)),
        91 | 92 => (Immediate::None, &[Word, Word, Word], Some(Word)),
        93 => (Immediate::None, &[Word, Word, Word, Word], Some(Word)),
        100 => (Immediate::None, &[Truth], None),
        101 => (Immediate::None, &[], None),
        110 => (NOTE, &[], None),
        255 => (Immediate::None, &[], None),
        _ => return None,
    };
    Some(Signature { immediate, operands, result })
}

/// Bytes of an entry of each kind, 1 where there is no such kind. A reference takes `ref_len`.
pub(crate) const fn entry_lens(ref_len: usize) -> [u8; 256] {
    let mut lens = [1; 256];
    let mut kind = 0;
    while kind < lens.len() {
        if let Some(signature) = signature(kind as u8) {
            let immediate = match signature.immediate {
                Immediate::None => 0,
                Immediate::Word => 4,
                Immediate::Byte(..) => 1,
            };
            lens[kind] += immediate + (ref_len * signature.operands.len()) as u8;
        }
        kind += 1;
    }
    lens
}

/// The same for each layout, by its number.
pub const ENTRY_LENS: [[u8; 256]; Layout::ALL.len()] = [entry_lens(WIDE), entry_lens(NARROW)];

/// The bytes of a run that are not read yet. A reference takes `REF` of them.
#[derive(Clone, Copy)]
pub(crate) struct Rest<'a, const REF: usize>(pub &'a [u8]);

impl<const REF: usize> Rest<'_, REF> {
    /// Splits off a kind.
    #[inline(always)]
    pub fn kind(&mut self) -> Option<u8> {
        let (kind, after) = self.0.split_first()?;
        self.0 = after;
        Some(*kind)
    }

    /// Splits off a body: the bytes of an immediate, then references, each as its number.
    #[inline(always)]
    pub fn body<const BYTES: usize, const REFS: usize>(&mut self) -> Option<([u8; BYTES], [u16; REFS])> {
        let (body, after) = self.0.split_at_checked(BYTES + REFS * REF)?;
        self.0 = after;
        let (bytes, refs) = body.split_first_chunk()?;
        let refs: &[[u8; REF]; REFS] = refs.as_chunks().0.first_chunk()?;
        let number = |bytes: [u8; REF]| bytes.iter().rev().fold(0, |number, byte| number << 8 | u16::from(*byte));
        Some((*bytes, refs.map(number)))
    }
}

/// One entry of a strip.
#[derive(Clone, Copy, PartialEq, Eq)]
pub struct Entry {
    pub kind: u8,
    /// The word of a constant, or the byte that names a cell, a slot or a note; else 0.
    pub immediate: u32,
    refs: [u16; 4],
    ref_count: u8,
}

impl Entry {
    pub fn new(kind: u8, immediate: u32, refs: &[u16]) -> Entry {
        let mut all = [0; 4];
        all[..refs.len()].copy_from_slice(refs);
        Entry { kind, immediate, refs: all, ref_count: refs.len() as u8 }
    }

    /// The numbers of the values that the entry refers to.
    pub fn refs(&self) -> &[u16] {
        &self.refs[..self.ref_count as usize]
    }

    /// Appends the entry's bytes: the kind, the immediate, the references in `REF` bytes each, little-endian.
    fn write<const REF: usize>(&self, out: &mut Vec<u8>) {
        let signature = signature(self.kind).expect("entries have known kinds");
        out.push(self.kind);
        match signature.immediate {
            Immediate::None => {}
            Immediate::Word => out.extend_from_slice(&self.immediate.to_le_bytes()),
            Immediate::Byte(..) => out.push(self.immediate as u8),
        }
        for r in self.refs() {
            let bytes = r.to_le_bytes();
            let (kept, dropped) = bytes.split_at(REF);
            assert!(dropped.iter().all(|byte| *byte == 0), "reference {r} in {REF} bytes");
            out.extend_from_slice(kept);
        }
    }
}

impl std::fmt::Debug for Entry {
    fn fmt(&self, f: &mut std::fmt::Formatter<'_>) -> std::fmt::Result {
        write!(f, "{}[{:#x}]{:?}", self.kind, self.immediate, self.refs())
    }
}

/// The bytes of a strip. Panics if a reference is too large for the layout.
pub fn encode(entries: &[Entry], layout: Layout) -> Vec<u8> {
    match layout {
        Layout::Wide => encode_strip::<WIDE>(entries),
        Layout::Narrow => encode_strip::<NARROW>(entries),
    }
}

fn encode_strip<const REF: usize>(entries: &[Entry]) -> Vec<u8> {
    let mut out = Vec::with_capacity(entries.len() * 5);
    for entry in entries {
        entry.write::<REF>(&mut out);
    }
    out
}

/// How many of the entries make a value.
pub fn value_count(entries: &[Entry]) -> usize {
    entries.iter().filter(|e| signature(e.kind).is_some_and(|s| s.result.is_some())).count()
}
