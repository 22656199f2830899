//! The shape test of 01 (refusal 7) in plain Rust: one pass over the bytes, a few words of state. The bytes are there as
//! a whole, or come in blocks ([`Blocks`]).
//!
//! This is the partner of the ported test in comparisons of answers and of speed.

use crate::format::{Layout, MAX_ENTRIES, NARROW, Rest, WIDE, entry_lens};

/// Whether the bytes are a run of well-formed strips in the layout. No bytes are an empty run, which is well-formed.
pub fn shape_ok(run: &[u8], layout: Layout) -> bool {
    match layout {
        Layout::Wide => shape_ok_watched::<WIDE>(run, &mut ()),
        Layout::Narrow => shape_ok_watched::<NARROW>(run, &mut ()),
    }
}

/// Bytes of the longest entry: a kind and four references in the wide layout.
const LONGEST_ENTRY: usize = 1 + 4 * WIDE;

/// The test of a run that comes in blocks, however it is cut. What is kept between them has a fixed size.
pub struct Blocks {
    layout: Layout,
    strip: Strip,
    /// An entry of which the blocks so far hold the first `kept` bytes, but not all.
    entry: [u8; LONGEST_ENTRY],
    kept: usize,
    refused: bool,
}

/// What a block led to.
#[derive(Clone, Copy, Debug, Default, PartialEq, Eq)]
pub struct Fed {
    /// Bytes of the entries that were passed. An entry that is cut is passed as a whole, in the block that completes it.
    pub passed: usize,
    /// Strips that ended.
    pub strips: usize,
    /// Whether the run is refused, by this block or an earlier one. What was passed lies before the refused entry.
    pub refused: bool,
}

impl Blocks {
    pub fn new(layout: Layout) -> Blocks {
        Blocks { layout, strip: Strip::default(), entry: [0; LONGEST_ENTRY], kept: 0, refused: false }
    }

    /// Goes on with the next bytes of the run.
    pub fn feed(&mut self, block: &[u8]) -> Fed {
        match self.layout {
            Layout::Wide => self.feed_in::<WIDE>(block),
            Layout::Narrow => self.feed_in::<NARROW>(block),
        }
    }

    /// Whether the blocks so far are a well-formed run.
    pub fn ends(&self) -> bool {
        !self.refused && self.kept == 0 && self.strip.is_empty()
    }

    fn feed_in<const REF: usize>(&mut self, block: &[u8]) -> Fed {
        let mut fed = Fed { refused: self.refused, ..Fed::default() };
        let mut rest = block;
        if self.kept > 0 {
            // The cut entry comes first. It gets what it lacks, or as much as there is.
            let len = entry_len::<REF>(self.entry[0]);
            let (more, after) = block.split_at(block.len().min(len - self.kept));
            self.entry[self.kept..][..more.len()].copy_from_slice(more);
            self.kept += more.len();
            if self.kept < len {
                return fed;
            }
            self.kept = 0;
            let entry = self.entry;
            self.pass::<REF>(&entry[..len], &mut fed);
            rest = after;
        }
        if !fed.refused {
            let cut = self.pass::<REF>(rest, &mut fed);
            self.entry[..cut.len()].copy_from_slice(cut);
            self.kept = cut.len();
        }
        self.refused = fed.refused;
        fed
    }

    /// Passes entries up to the end of the bytes, or up to one that is refused or cut. Gives the bytes of one that is cut.
    #[inline(never)]
    fn pass<'a, const REF: usize>(&mut self, bytes: &'a [u8], fed: &mut Fed) -> &'a [u8] {
        let mut rest = Rest::<REF>(bytes);
        // Taken out for the loop, so that it can stay in registers.
        let mut strip = std::mem::take(&mut self.strip);
        while let Some(&kind) = rest.0.first() {
            let mut after = rest;
            match strip.pass(&mut after, &mut ()) {
                Some(ended) => fed.strips += usize::from(ended),
                None => {
                    // Whole, or of no kind: more bytes do not help.
                    fed.refused = rest.0.len() >= entry_len::<REF>(kind);
                    break;
                }
            }
            rest = after;
        }
        self.strip = strip;
        fed.passed += bytes.len() - rest.0.len();
        if fed.refused { &[] } else { rest.0 }
    }
}

/// Bytes of an entry of the kind, 1 if there is no such kind.
fn entry_len<const REF: usize>(kind: u8) -> usize {
    let lens = const { &entry_lens(REF) };
    lens[usize::from(kind)].into()
}

/// What is told of the entries while their shape is tested, strip by strip. What is told before the test fails is not to
/// be relied on.
pub(crate) trait Watch {
    /// A constant: its kind, and the bits of a word, else 0.
    fn constant(&mut self, _kind: u8, _bits: u32) {}
    fn load_register(&mut self, _register: u8) {}
    fn load_predicate(&mut self, _predicate: u8) {}
    fn load_flag(&mut self, _flag: u8) {}
    fn load_slot(&mut self, _slot: u8) {}
    fn store_register(&mut self, _register: u8) {}
    fn store_predicate(&mut self, _predicate: u8) {}
    fn store_flag(&mut self, _flag: u8) {}
    fn refs(&mut self, _count: usize) {}
    fn open(&mut self) {}
    fn end(&mut self) {}
}

/// Nothing is watched.
impl Watch for () {}

/// The same as [`shape_ok`] for who needs to know what the strips hold, so that the bytes are read once.
#[inline(always)]
pub(crate) fn shape_ok_watched<const REF: usize>(run: &[u8], watch: &mut impl Watch) -> bool {
    let mut rest = Rest::<REF>(run);
    while !rest.0.is_empty() {
        match skip_strip(rest, watch) {
            Some(after) => rest = after,
            None => return false,
        }
    }
    true
}

/// Whether the bytes are exactly one well-formed strip. At most 63 entries before its end are told of.
#[inline(always)]
pub(crate) fn one_strip_watched<const REF: usize>(bytes: &[u8], watch: &mut impl Watch) -> bool {
    skip_strip(Rest::<REF>(bytes), watch).is_some_and(|after| after.0.is_empty())
}

/// What lies after the first strip, or `None` if its shape is wrong.
fn skip_strip<'a, const REF: usize>(mut rest: Rest<'a, REF>, watch: &mut impl Watch) -> Option<Rest<'a, REF>> {
    let mut strip = Strip::default();
    while !strip.pass(&mut rest, watch)? {}
    Some(rest)
}

/// The values of a strip so far. Each kind of value has a mask with a bit for each of its numbers. A strip has at most
/// 63 values, since the end is one of its 64 entries.
#[derive(Default)]
struct Values {
    count: u32,
    words: u64,
    truths: u64,
    slots: u64,
    addresses: u64,
}

impl Values {
    /// The bit of the next number.
    #[inline(always)]
    fn next(&mut self) -> u64 {
        let bit = 1 << self.count;
        self.count += 1;
        bit
    }

    #[inline(always)]
    fn add_word(&mut self) {
        self.words |= self.next();
    }

    #[inline(always)]
    fn add_truth(&mut self) {
        self.truths |= self.next();
    }
}

/// Whether the reference names a value of the mask. Numbers not given yet have no bit in any mask.
#[inline(always)]
fn is(mask: u64, reference: u16) -> bool {
    reference < 64 && mask >> reference & 1 == 1
}

/// `Some` if the condition holds.
#[inline(always)]
fn need(condition: bool) -> Option<()> {
    condition.then_some(())
}

/// Splits off a body and tells of its references.
#[inline(always)]
fn body<const REF: usize, const BYTES: usize, const REFS: usize>(
    rest: &mut Rest<REF>,
    watch: &mut impl Watch,
) -> Option<([u8; BYTES], [u16; REFS])> {
    watch.refs(REFS);
    rest.body()
}

/// The entries of a strip so far.
struct Strip {
    /// How many entries may still come, the end among them.
    left: usize,
    open: bool,
    values: Values,
}

impl Default for Strip {
    fn default() -> Strip {
        Strip { left: MAX_ENTRIES, open: false, values: Values::default() }
    }
}

impl Strip {
    /// No entry yet.
    fn is_empty(&self) -> bool {
        self.left == MAX_ENTRIES
    }

    /// Passes the next entry and says whether it is the end. `None` if it is cut, or its shape is wrong there; a cut one
    /// leaves the strip as it is.
    #[inline(always)]
    fn pass<const REF: usize>(&mut self, rest: &mut Rest<REF>, watch: &mut impl Watch) -> Option<bool> {
        let v = &mut self.values;
        match rest.kind()? {
            1 => {
                let (word, []) = body(rest, watch)?;
                watch.constant(1, u32::from_le_bytes(word));
                v.add_word();
            }
            kind @ (2 | 3) => {
                watch.constant(kind, 0);
                v.add_truth();
            }
            4 => {
                let ([cell], []) = body(rest, watch)?;
                need(cell <= 254)?;
                watch.load_register(cell);
                v.add_word();
            }
            5 => {
                let ([cell], []) = body(rest, watch)?;
                need(cell <= 6)?;
                watch.load_predicate(cell);
                v.add_truth();
            }
            6 => {
                let ([cell], []) = body(rest, watch)?;
                need(cell <= 3)?;
                watch.load_flag(cell);
                v.add_truth();
            }
            7 => {
                let ([cell], [a]) = body(rest, watch)?;
                need(cell <= 254 && is(v.words, a))?;
                watch.store_register(cell);
            }
            8 => {
                let ([cell], [a]) = body(rest, watch)?;
                need(cell <= 6 && is(v.truths, a))?;
                watch.store_predicate(cell);
            }
            9 => {
                let ([cell], [a]) = body(rest, watch)?;
                need(cell <= 3 && is(v.truths, a))?;
                watch.store_flag(cell);
            }
            10 => {
                let ([slot], []) = body(rest, watch)?;
                need(slot <= 31)?;
                watch.load_slot(slot);
                v.slots |= v.next();
            }
            11 => {
                let ([], [a, b, c, d]) = body(rest, watch)?;
                need(is(v.slots, a) && is(v.words, b) && is(v.words, c) && is(v.words, d))?;
                v.addresses |= v.next();
            }
            12 => {
                let ([], [a]) = body(rest, watch)?;
                need(is(v.addresses, a))?;
                v.add_word();
            }
            20..=27 => {
                let ([], [a]) = body(rest, watch)?;
                need(is(v.words, a))?;
                v.add_word();
            }
            40..=52 => {
                let ([], [a, b]) = body(rest, watch)?;
                need(is(v.words, a) && is(v.words, b))?;
                v.add_word();
            }
            60..=69 => {
                let ([], [a, b]) = body(rest, watch)?;
                need(is(v.words, a) && is(v.words, b))?;
                v.add_truth();
            }
            80 => {
                let ([], [a]) = body(rest, watch)?;
                need(is(v.truths, a))?;
                v.add_truth();
            }
            81..=83 => {
                let ([], [a, b]) = body(rest, watch)?;
                need(is(v.truths, a) && is(v.truths, b))?;
                v.add_truth();
            }
            90 => {
                let ([], [a, b, c]) = body(rest, watch)?;
                need(is(v.truths, a) && is(v.words, b) && is(v.words, c))?;
                v.add_word();
            }
            91 | 92 => {
                let ([], [a, b, c]) = body(rest, watch)?;
                need(is(v.words, a) && is(v.words, b) && is(v.words, c))?;
                v.add_word();
            }
            93 => {
                let ([], [a, b, c, d]) = body(rest, watch)?;
                need(is(v.words, a) && is(v.words, b) && is(v.words, c) && is(v.words, d))?;
                v.add_word();
            }
            100 => {
                let ([], [a]) = body(rest, watch)?;
                need(!self.open && is(v.truths, a))?;
                self.open = true;
                watch.open();
            }
            // The close must stand directly before the end: after it one entry may come.
            101 => {
                need(self.open)?;
                self.open = false;
                self.left = self.left.min(2);
            }
            110 => {
                let ([note], []) = body(rest, watch)?;
                need((1..=5).contains(&note))?;
            }
            255 => {
                need(!self.open)?;
                watch.end();
                *self = Strip::default();
                return Some(true);
            }
            _ => return None,
        }
        // The last entry that may come must be the end.
        self.left -= 1;
        need(self.left > 0)?;
        Some(false)
    }
}
