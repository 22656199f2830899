//! The writer of #105 in plain Rust: one strip in the wide layout as SPIR-V words, or refusal 7, 17, 10 or 11.
//!
//! This is the partner of the ported writer in comparisons of answers and of speed. Opcodes and the order of operands are
//! those of the SPIR-V specification and of GLSL.std.450.

use crate::format::{MAX_ENTRIES, Rest, WIDE, kind};
use crate::shape::{Watch, one_strip_watched};

/// Where the ids stand in the table that a caller lends: the types of unsigned and signed words and of truths, the slots'
/// pointer type, the import of GLSL.std.450, then 255 registers, 7 predicates, 4 flags and 32 slots.
pub mod table {
    pub const UNSIGNED: usize = 0;
    pub const SIGNED: usize = 1;
    pub const TRUTH: usize = 2;
    pub const POINTER: usize = 3;
    pub const GLSL: usize = 4;
    pub const REGISTERS: usize = 5;
    pub const PREDICATES: usize = REGISTERS + 255;
    pub const FLAGS: usize = PREDICATES + 7;
    pub const SLOTS: usize = FLAGS + 4;
    pub const LEN: usize = SLOTS + 32;
}

/// No id is higher.
pub const MAX_ID: u32 = 4_194_302;

/// Words of the longest instruction of an entry. An open has more, but with its close not more than two such.
const LONGEST: usize = 7;

/// No strip becomes more words.
pub const MAX_WORDS: usize = MAX_ENTRIES * LONGEST;

/// What is handed back with the words.
#[derive(Clone, Copy, Debug, Default, PartialEq, Eq)]
pub struct Written {
    pub words: usize,
    /// How many of the words are the list of constants, with which they begin.
    pub constants: usize,
    /// The first id that is free after them.
    pub next: u32,
}

/// Writes the words of a strip at the start of `room`, new ids from `bound` on, or gives the refusal number: 7 if the
/// bytes are not exactly one well-formed strip, 17 if words cannot say it, 10 for the ids, 11 if the room is too short. A
/// refusal leaves the room as it is; otherwise the room after the words stays as it is.
pub fn to_spirv(strip: &[u8], bound: u32, table: &[u32], room: &mut [u32]) -> Result<Written, u8> {
    let mut constants = Constants::default();
    if !one_strip_watched::<WIDE>(strip, &mut constants) {
        return Err(7);
    }
    // What is made with a table of another length is of no use but for 17, which comes before the look at the table.
    let lent = table.try_into().unwrap_or(&[0; table::LEN]);
    let mut writer = Writer::new(lent, bound);
    writer.constants(&constants);
    let list = writer.written;
    writer.body(strip, &constants).expect("a whole strip");
    if writer.unwritable {
        return Err(17);
    }
    // Reckoned in 64 bits. The bound is no id: without new ones it may be any number above the lent ones.
    let new = writer.next.wrapping_sub(bound);
    let new_fit = new == 0 || u64::from(bound) + u64::from(new) - 1 <= MAX_ID.into();
    if table.len() != table::LEN || !new_fit || !table_fits(lent, bound) {
        return Err(10);
    }
    let words = &writer.words[..writer.written];
    room.get_mut(..words.len()).ok_or(11)?.copy_from_slice(words);
    Ok(Written { words: words.len(), constants: list, next: writer.next })
}

/// Whether the ids lie above 0, within the limit and below the bound, each once.
fn table_fits(table: &[u32; table::LEN], bound: u32) -> bool {
    let most = bound.saturating_sub(1).min(MAX_ID);
    // They often rise, and then the first and the last tell. Without a way out early several are compared in one step.
    if table.iter().zip(&table[1..]).fold(true, |rise, (id, next)| rise & (id < next)) {
        return table[0] > 0 && table[table::LEN - 1] <= most;
    }
    table.iter().all(|id| (1..=most).contains(id)) && all_differ(table)
}

/// Whether no id stands there twice. None is 0.
fn all_differ(table: &[u32; table::LEN]) -> bool {
    const BITS: u32 = 10;
    let mut seen = [0; 1 << BITS];
    table.iter().all(|id| {
        let mut at = (id.wrapping_mul(0x9e37_79b1) >> (u32::BITS - BITS)) as usize;
        while seen[at] != 0 && seen[at] != *id {
            at = (at + 1) % seen.len();
        }
        std::mem::replace(&mut seen[at], *id) == 0
    })
}

/// The constants of a strip, each value once, in the order in which it first stands there.
struct Constants {
    /// The kind above the bits.
    values: [u64; MAX_ENTRIES],
    count: usize,
    /// For each entry of a constant the place of its value.
    places: [u8; MAX_ENTRIES],
    entries: usize,
}

impl Default for Constants {
    fn default() -> Constants {
        Constants { values: [0; MAX_ENTRIES], count: 0, places: [0; MAX_ENTRIES], entries: 0 }
    }
}

impl Constants {
    fn value(kind: u8, bits: u32) -> u64 {
        u64::from(kind) << u32::BITS | u64::from(bits)
    }

    fn place(&self, value: u64) -> Option<usize> {
        self.values[..self.count].iter().position(|known| *known == value)
    }
}

impl Watch for Constants {
    #[inline(always)]
    fn constant(&mut self, kind: u8, bits: u32) {
        let value = Constants::value(kind, bits);
        let place = self.place(value).unwrap_or_else(|| {
            self.values[self.count] = value;
            self.count += 1;
            self.count - 1
        });
        self.places[self.entries] = place as u8;
        self.entries += 1;
    }
}

/// The opcode of an operation, or the number of its extended instruction.
const OPCODES: [u16; 94] = {
    let mut opcodes = [0; 94];
    let known = [
        (20, 200), // OpNot
        (21, 204), // OpBitReverse
        (22, 205), // OpBitCount
        (25, 5),   // SAbs
        (26, 74),  // FindSMsb
        (27, 75),  // FindUMsb
        (40, 128), // OpIAdd
        (41, 130), // OpISub
        (42, 132), // OpIMul
        (43, 196), // OpShiftLeftLogical
        (44, 194), // OpShiftRightLogical
        (45, 195), // OpShiftRightArithmetic
        (46, 199), // OpBitwiseAnd
        (47, 197), // OpBitwiseOr
        (48, 198), // OpBitwiseXor
        (49, 38),  // UMin
        (50, 39),  // SMin
        (51, 41),  // UMax
        (52, 42),  // SMax
        (60, 170), // OpIEqual
        (61, 171), // OpINotEqual
        (62, 176), // OpULessThan
        (63, 178), // OpULessThanEqual
        (64, 172), // OpUGreaterThan
        (65, 174), // OpUGreaterThanEqual
        (66, 177), // OpSLessThan
        (67, 179), // OpSLessThanEqual
        (68, 173), // OpSGreaterThan
        (69, 175), // OpSGreaterThanEqual
        (80, 168), // OpLogicalNot
        (81, 167), // OpLogicalAnd
        (82, 166), // OpLogicalOr
        (83, 165), // OpLogicalNotEqual
        (90, 169), // OpSelect
        (91, 203), // OpBitFieldUExtract
        (92, 202), // OpBitFieldSExtract
        (93, 201), // OpBitFieldInsert
    ];
    let mut at = 0;
    while at < known.len() {
        opcodes[known[at].0] = known[at].1;
        at += 1;
    }
    opcodes
};

/// Other opcodes.
const EXT_INST: u16 = 12;
const CONSTANT_TRUE: u16 = 41;
const CONSTANT_FALSE: u16 = 42;
const CONSTANT: u16 = 43;
const LOAD: u16 = 61;
const STORE: u16 = 62;
const ACCESS_CHAIN: u16 = 65;
const BITCAST: u16 = 124;
const SELECTION_MERGE: u16 = 247;
const LABEL: u16 = 248;
const BRANCH: u16 = 249;
const BRANCH_CONDITIONAL: u16 = 250;

/// The words of a strip so far, and the ids of its values. The shape test has made sure of every reference.
struct Writer<'a> {
    table: &'a [u32; table::LEN],
    words: [u32; MAX_WORDS],
    written: usize,
    /// The next new id. It may wrap; whether the ids fit is seen from their number.
    next: u32,
    ids: [u32; MAX_ENTRIES],
    count: usize,
    /// A bit for each value that is a signed word.
    signed: u64,
    /// Where the block goes on after its end.
    merge: u32,
    /// Whether 17 holds.
    unwritable: bool,
}

impl Writer<'_> {
    fn new(table: &[u32; table::LEN], bound: u32) -> Writer<'_> {
        Writer {
            table,
            words: [0; MAX_WORDS],
            written: 0,
            next: bound,
            ids: [0; MAX_ENTRIES],
            count: 0,
            signed: 0,
            merge: 0,
            unwritable: false,
        }
    }

    #[inline(always)]
    fn new_id(&mut self) -> u32 {
        let id = self.next;
        self.next = id.wrapping_add(1);
        id
    }

    #[inline(always)]
    fn id(&self, reference: u16) -> u32 {
        self.ids[usize::from(reference) % MAX_ENTRIES]
    }

    #[inline(always)]
    fn is_signed(&self, reference: u16) -> bool {
        self.signed >> (reference % 64) & 1 == 1
    }

    /// The type of a word.
    #[inline(always)]
    fn word_type(&self, signed: bool) -> u32 {
        self.table[if signed { table::SIGNED } else { table::UNSIGNED }]
    }

    /// The strip's next value.
    #[inline(always)]
    fn push(&mut self, id: u32, signed: bool) {
        self.ids[self.count % MAX_ENTRIES] = id;
        self.signed |= u64::from(signed) << (self.count % 64);
        self.count += 1;
    }

    /// An instruction: the number of its words above the opcode, the first operands, and then the others.
    #[inline(always)]
    fn write<const FIRST: usize, const OTHERS: usize>(
        &mut self,
        opcode: u16,
        first: [u32; FIRST],
        others: [u32; OTHERS],
    ) {
        let len = 1 + FIRST + OTHERS;
        let to = &mut self.words[self.written..][..len];
        to[0] = (len as u32) << 16 | u32::from(opcode);
        to[1..=FIRST].copy_from_slice(&first);
        to[1 + FIRST..].copy_from_slice(&others);
        self.written += len;
    }

    /// An instruction with a result, which is the strip's next value.
    #[inline(always)]
    fn result<const OTHERS: usize>(&mut self, opcode: u16, of_type: u32, others: [u32; OTHERS], signed: bool) {
        let id = self.new_id();
        self.write(opcode, [of_type, id], others);
        self.push(id, signed);
    }

    /// An operation to a word, which has the sign of the reference at `first`.
    #[inline(always)]
    fn word<const REFS: usize>(&mut self, kind: u8, refs: [u16; REFS], first: usize) {
        let signed = self.is_signed(refs[first]);
        self.result(OPCODES[usize::from(kind)], self.word_type(signed), refs.map(|r| self.id(r)), signed);
    }

    /// The same by an extended instruction.
    #[inline(always)]
    fn extended<const REFS: usize>(&mut self, kind: u8, refs: [u16; REFS]) {
        let signed = self.is_signed(refs[0]);
        let id = self.new_id();
        let head = [self.word_type(signed), id, self.table[table::GLSL], OPCODES[usize::from(kind)].into()];
        self.write(EXT_INST, head, refs.map(|r| self.id(r)));
        self.push(id, signed);
    }

    /// An operation to a truth.
    #[inline(always)]
    fn truth<const REFS: usize>(&mut self, kind: u8, refs: [u16; REFS]) {
        self.result(OPCODES[usize::from(kind)], self.table[table::TRUTH], refs.map(|r| self.id(r)), false);
    }

    /// A load of the cell that many places after the first of its sort.
    #[inline(always)]
    fn load(&mut self, of_type: usize, first: usize, cell: u8) {
        self.result(LOAD, self.table[of_type], [self.table[first + usize::from(cell)]], false);
    }

    #[inline(always)]
    fn store(&mut self, first: usize, cell: u8, reference: u16) {
        self.write(STORE, [self.table[first + usize::from(cell)]], [self.id(reference)]);
    }

    /// The list of constants.
    fn constants(&mut self, constants: &Constants) {
        let [unsigned, truth] = [table::UNSIGNED, table::TRUTH].map(|place| self.table[place]);
        for value in &constants.values[..constants.count] {
            let id = self.new_id();
            match (value >> u32::BITS) as u8 {
                kind::WORD => self.write(CONSTANT, [unsigned, id], [*value as u32]),
                kind::TRUE => self.write(CONSTANT_TRUE, [truth, id], []),
                _ => self.write(CONSTANT_FALSE, [truth, id], []),
            }
        }
    }

    /// The entries one after another. `None` if one is cut.
    fn body(&mut self, strip: &[u8], constants: &Constants) -> Option<()> {
        let first = self.next.wrapping_sub(constants.count as u32);
        let id_of = |place: usize| first.wrapping_add(place as u32);
        let zero = constants.place(Constants::value(kind::WORD, 0)).map(id_of);
        let mut places = constants.places.iter();
        let mut rest = Rest::<WIDE>(strip);
        loop {
            match rest.kind()? {
                kind @ 1..=3 => {
                    if kind == kind::WORD {
                        let ([_, _, _, _], []) = rest.body()?;
                    }
                    self.push(id_of(usize::from(*places.next()?)), false);
                }
                4 => {
                    let ([cell], []) = rest.body()?;
                    self.load(table::UNSIGNED, table::REGISTERS, cell);
                }
                5 => {
                    let ([cell], []) = rest.body()?;
                    self.load(table::TRUTH, table::PREDICATES, cell);
                }
                6 => {
                    let ([cell], []) = rest.body()?;
                    self.load(table::TRUTH, table::FLAGS, cell);
                }
                7 => {
                    let ([cell], [a]) = rest.body()?;
                    self.unwritable |= self.is_signed(a);
                    self.store(table::REGISTERS, cell, a);
                }
                8 => {
                    let ([cell], [a]) = rest.body()?;
                    self.store(table::PREDICATES, cell, a);
                }
                9 => {
                    let ([cell], [a]) = rest.body()?;
                    self.store(table::FLAGS, cell, a);
                }
                10 => {
                    let ([slot], []) = rest.body()?;
                    self.push(self.table[table::SLOTS + usize::from(slot)], false);
                }
                11 => {
                    let ([], refs) = rest.body::<0, 4>()?;
                    self.unwritable |= Some(self.id(refs[1])) != zero;
                    self.result(ACCESS_CHAIN, self.table[table::POINTER], refs.map(|r| self.id(r)), false);
                }
                12 => {
                    let ([], [a]) = rest.body()?;
                    self.result(LOAD, self.table[table::UNSIGNED], [self.id(a)], false);
                }
                kind @ 20..=22 => {
                    let ([], refs) = rest.body::<0, 1>()?;
                    self.word(kind, refs, 0);
                }
                kind @ (kind::CAST_I | kind::CAST_U) => {
                    let ([], [a]) = rest.body()?;
                    let signed = kind == kind::CAST_I;
                    if signed == self.is_signed(a) {
                        self.push(self.id(a), signed);
                    } else {
                        self.result(BITCAST, self.word_type(signed), [self.id(a)], signed);
                    }
                }
                kind @ 25..=27 => {
                    let ([], refs) = rest.body::<0, 1>()?;
                    self.extended(kind, refs);
                }
                kind @ 40..=48 => {
                    let ([], refs) = rest.body::<0, 2>()?;
                    self.word(kind, refs, 0);
                }
                kind @ 49..=52 => {
                    let ([], refs) = rest.body::<0, 2>()?;
                    self.extended(kind, refs);
                }
                kind @ (60..=69 | 81..=83) => {
                    let ([], refs) = rest.body::<0, 2>()?;
                    self.truth(kind, refs);
                }
                80 => {
                    let ([], refs) = rest.body::<0, 1>()?;
                    self.truth(80, refs);
                }
                90 => {
                    let ([], refs) = rest.body::<0, 3>()?;
                    self.unwritable |= self.is_signed(refs[1]) != self.is_signed(refs[2]);
                    self.word(90, refs, 1);
                }
                kind @ (91 | 92) => {
                    let ([], refs) = rest.body::<0, 3>()?;
                    self.word(kind, refs, 0);
                }
                93 => {
                    let ([], refs) = rest.body::<0, 4>()?;
                    self.unwritable |= self.is_signed(refs[0]) != self.is_signed(refs[1]);
                    self.word(93, refs, 0);
                }
                100 => {
                    let ([], [a]) = rest.body()?;
                    let block = self.new_id();
                    self.merge = self.new_id();
                    // No selection control.
                    self.write(SELECTION_MERGE, [self.merge], [0]);
                    self.write(BRANCH_CONDITIONAL, [self.id(a)], [block, self.merge]);
                    self.write(LABEL, [block], []);
                }
                101 => {
                    self.write(BRANCH, [self.merge], []);
                    self.write(LABEL, [self.merge], []);
                }
                110 => {
                    let ([_], []) = rest.body()?;
                }
                255 => return Some(()),
                _ => return None,
            }
        }
    }
}
