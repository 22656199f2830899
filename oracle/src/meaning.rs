//! The meanings of the thirty instructions, from record and state to state, by whole numbers and truths.
//!
//! Written from the meanings of 01 and the field places that go with them. It knows no strip and shares nothing with
//! the reference text, the evaluator or the port, so that a mistake in one of them shows as a difference. A word is a
//! number from 0 to 2^32 - 1; sums and products are exact, and the remainder is taken at the end.

use std::cmp::Ordering;

use crate::record::Record;

/// Words are smaller than this.
const WORDS: i128 = 1 << 32;
/// Words from here on are negative when they are signed.
const SIGN: i128 = 1 << 31;
/// Halves are smaller than this.
const HALVES: i128 = 1 << 16;
/// The number of words in a constant slot.
const SLOT_WORDS: u64 = 16_384;

/// Registers from 0 to 254; 255 reads 0.
const NO_REGISTER: u64 = 255;
/// Predicates from 0 to 6; 7 reads true.
const NO_PREDICATE: u64 = 7;

/// Forms.
const REG: u8 = 0;
const CBUF: u8 = 1;
const IMM: u8 = 2;

/// Opcode values that make a difference.
const XMAD_CONSTANT_C: u64 = 0x5100 << 48;
const ICMP_CONSTANT_C: u64 = 0x5340 << 48;
const BFI_CONSTANT_C: u64 = 0x53f0 << 48;
const SHF_LEFT_REG: u64 = 0x5bf8 << 48;
const SHF_LEFT_IMM: u64 = 0x36f8 << 48;
const LEA_HIGH_REG: u64 = 0x5bd8 << 48;
const LEA_HIGH_CBUF: u64 = 0x1800 << 48;

/// The number of kind lea, whose opcode value decides whether it reads a constant.
const LEA: u8 = 30;
/// mov32i, csetp, psetp, pset, iadd32i, lop32i, vmnmx, r2p, p2r: these read no constant in any form.
const WITHOUT_CONSTANT: [u8; 9] = [2, 4, 7, 8, 10, 17, 23, 27, 28];

const FLAG_C: usize = 2;

/// What an instruction reads and changes. The flags are Z, S, C, O.
#[derive(Clone, Debug, PartialEq, Eq)]
pub struct State {
    pub registers: [u32; 255],
    pub predicates: [bool; 7],
    pub flags: [bool; 4],
}

/// The state after an instruction. The record must be one that is not refused. A dead word is not, whatever its kind and
/// opcode value, and leaves the state. A constant word that is not lent counts as 0; [`lacking_word`] says where that
/// matters.
pub fn meaning(record: &Record, state: &State, constants: &[u32]) -> State {
    let mut step = Step { record, before: state, constants, after: state.clone() };
    if guard_holds(record, state) {
        step.run();
    }
    step.after
}

/// Whether the guard lets the instruction run.
pub fn guard_holds(record: &Record, state: &State) -> bool {
    truth_of(state, field_of(record, 16, 3)) != (field_of(record, 19, 1) == 1)
}

/// The element of the lent list that the record reads where its guard holds, if it reads one.
pub fn element_read(record: &Record) -> Option<usize> {
    let reads = match record.value {
        LEA_HIGH_CBUF if record.kind == LEA => true,
        LEA_HIGH_REG if record.kind == LEA => false,
        _ => record.form == CBUF && !WITHOUT_CONSTANT.contains(&record.kind),
    };
    reads.then(|| element_named(record))
}

/// The element of the lent list that the fields for slot and word name, read or not.
pub fn element_named(record: &Record) -> usize {
    (field_of(record, 34, 5) * SLOT_WORDS + field_of(record, 20, 14)) as usize
}

/// A constant word by its slot, its vector there and its place in that.
#[derive(Clone, Copy, Debug, PartialEq, Eq)]
pub struct ConstantWord {
    pub slot: u32,
    pub vec: u32,
    pub comp: u32,
}

/// The constant word that the instruction reads and the list does not hold, if it runs and there is one: then there is no
/// state after it.
pub fn lacking_word(record: &Record, state: &State, constants: &[u32]) -> Option<ConstantWord> {
    let element = element_read(record)?;
    let word = field_of(record, 20, 14) as u32;
    (guard_holds(record, state) && element >= constants.len()).then_some(ConstantWord {
        slot: field_of(record, 34, 5) as u32,
        vec: word / 4,
        comp: word % 4,
    })
}

/// The number in `len` bits of the record's word from bit `lo` on.
fn field_of(record: &Record, lo: u32, len: u32) -> u64 {
    record.word / (1 << lo) % (1 << len)
}

fn truth_of(state: &State, predicate: u64) -> bool {
    predicate == NO_PREDICATE || state.predicates[predicate as usize]
}

/// The word for a number: its remainder modulo 2^32.
fn word(number: i128) -> i128 {
    number.rem_euclid(WORDS)
}

/// The number that a word stands for.
fn number(word: i128, signed: bool) -> i128 {
    if signed && word >= SIGN { word - WORDS } else { word }
}

/// The number in `len` bits of a word from bit `lo` on, with the sign of its highest bit if it is signed.
fn part(word: i128, lo: u32, len: u32, signed: bool) -> i128 {
    let (below, limit) = (1 << lo, 1 << len);
    let part = word / below % limit;
    if signed && 2 * part >= limit { part - limit } else { part }
}

/// `base` with `len` bits from bit `lo` on replaced by the low bits of `insert`.
fn replaced(base: i128, insert: i128, lo: u32, len: u32) -> i128 {
    let (below, limit) = (1 << lo, 1 << len);
    base + (insert % limit - base / below % limit) * below
}

fn bit_at(word: i128, place: u32) -> bool {
    word / (1 << place) % 2 == 1
}

/// The word whose bit at each place is what the rule says.
fn by_bits(rule: impl Fn(u32) -> bool) -> i128 {
    (0..32).map(|place| i128::from(rule(place)) << place).sum()
}

fn complement(word: i128, on: bool) -> i128 {
    if on { WORDS - 1 - word } else { word }
}

/// The number with its sign changed, still to be made a word.
fn negated(number: i128, on: bool) -> i128 {
    if on { -number } else { number }
}

fn reversed(word: i128, on: bool) -> i128 {
    if on { by_bits(|place| bit_at(word, 31 - place)) } else { word }
}

/// The eight integer tests by one rule: the code's bits 0, 1, 2 let pass less, equal, greater.
fn passes(code: u64, x: i128, y: i128) -> bool {
    let relation = match x.cmp(&y) {
        Ordering::Less => 0,
        Ordering::Equal => 1,
        Ordering::Greater => 2,
    };
    code / (1 << relation) % 2 == 1
}

/// And, or, and twice exclusive or.
fn combined(code: u64, x: bool, y: bool) -> bool {
    match code {
        0 => x && y,
        1 => x || y,
        _ => x != y,
    }
}

/// The condition tests on the flags.
fn condition(code: u64, [zero, sign, carry, overflow]: [bool; 4]) -> bool {
    let less = sign != overflow;
    match code {
        0 | 16 => false,
        1 | 9 => less,
        2 | 10 => zero,
        3 | 11 => less || zero,
        4 | 12 => !less && !zero,
        5 | 13 => !zero,
        6 | 14 => !less,
        7 => !overflow,
        8 | 23 => overflow,
        17 => !carry,
        18 => !sign,
        19 => !carry || zero,
        20 => carry && !zero,
        21 => sign,
        22 => carry,
        _ => true,
    }
}

/// Two words and a carry of 0 or 1, added.
struct Sum {
    /// Of the unsigned numbers.
    unsigned: i128,
    /// Of the signed numbers.
    signed: i128,
}

impl Sum {
    fn new(a: i128, b: i128, carry: i128) -> Sum {
        Sum { unsigned: a + b + carry, signed: number(a, true) + number(b, true) + carry }
    }

    fn word(&self) -> i128 {
        word(self.unsigned)
    }

    fn clamped(&self) -> i128 {
        word(self.signed.clamp(-SIGN, SIGN - 1))
    }

    fn carries(&self) -> bool {
        self.unsigned >= WORDS
    }

    fn overflows(&self) -> bool {
        self.signed < -SIGN || self.signed >= SIGN
    }
}

/// What iadd and iadd32i are told by their bits.
struct Addition {
    negative_a: bool,
    negative_b: bool,
    extend: bool,
    set_flags: bool,
    saturate: bool,
}

/// An operand of vmnmx.
struct Operand {
    word: i128,
    signed: bool,
}

impl Operand {
    /// The byte, half or whole word that the selector names.
    fn selected(source: i128, selector: u64, signed: bool) -> Operand {
        let chosen = match selector {
            0..=3 => part(source, 8 * selector as u32, 8, signed),
            4 => part(source, 0, 16, signed),
            5 => part(source, 16, 16, signed),
            _ => source,
        };
        Operand { word: word(chosen), signed }
    }

    fn number(&self) -> i128 {
        number(self.word, self.signed)
    }
}

/// One instruction that runs.
struct Step<'a> {
    record: &'a Record,
    before: &'a State,
    constants: &'a [u32],
    after: State,
}

impl Step<'_> {
    fn run(&mut self) {
        match self.record.kind {
            1 => self.mov(),
            2 => self.mov32i(),
            3 => self.sel(),
            4 => self.csetp(),
            5 => self.isetp(),
            6 => self.iset(),
            7 => self.psetp(),
            8 => self.pset(),
            9 => self.iadd(),
            10 => self.iadd32i(),
            11 => self.iadd3(),
            12 => self.iscadd(),
            13 => self.xmad(),
            14 => self.imnmx(),
            15 => self.icmp(),
            16 => self.lop(),
            17 => self.lop32i(),
            18 => self.lop3(),
            19 => self.shl(),
            20 => self.shr(),
            21 => self.bfe(),
            22 => self.bfi(),
            23 => self.vmnmx(),
            24 => self.i2i(),
            25 => self.flo(),
            26 => self.popc(),
            27 => self.r2p(),
            28 => self.p2r(),
            29 => self.shf(),
            LEA => self.lea(),
            kind => panic!("a record of kind {kind} is refused"),
        }
    }

    // The record's fields.

    fn field(&self, lo: u32, len: u32) -> u64 {
        field_of(self.record, lo, len)
    }

    fn bit(&self, place: u32) -> bool {
        self.field(place, 1) == 1
    }

    fn has_form(&self, form: u8) -> bool {
        self.record.form == form
    }

    fn has_value(&self, value: u64) -> bool {
        self.record.value == value
    }

    /// The 32 bits from bit 20 on.
    fn immediate32(&self) -> i128 {
        self.field(20, 32).into()
    }

    /// The 19 bits from bit 20 on, with bit 56 as their sign: a number from -2^19 on.
    fn immediate20(&self) -> i128 {
        i128::from(self.field(20, 19)) - (i128::from(self.field(56, 1)) << 19)
    }

    // Operands.

    fn register(&self, lo: u32) -> i128 {
        match self.field(lo, 8) {
            NO_REGISTER => 0,
            at => self.before.registers[at as usize].into(),
        }
    }

    fn a(&self) -> i128 {
        self.register(8)
    }

    fn register_b(&self) -> i128 {
        self.register(20)
    }

    fn register_c(&self) -> i128 {
        self.register(39)
    }

    fn constant(&self) -> i128 {
        self.constants.get(element_named(self.record)).copied().unwrap_or(0).into()
    }

    /// Operand b by the record's form.
    fn b(&self) -> i128 {
        match self.record.form {
            REG => self.register_b(),
            CBUF => self.constant(),
            _ => word(self.immediate20()),
        }
    }

    /// Operands b and c. Of the constant forms the one with this opcode value takes c from the constant.
    fn b_and_c(&self, constant_c: u64) -> (i128, i128) {
        if self.has_form(CBUF) && self.has_value(constant_c) {
            (self.register_c(), self.constant())
        } else {
            (self.b(), self.register_c())
        }
    }

    /// A predicate, negated if its bit says so.
    fn predicate(&self, lo: u32, negate: u32) -> bool {
        truth_of(self.before, self.field(lo, 3)) != self.bit(negate)
    }

    fn carry(&self) -> i128 {
        self.before.flags[FLAG_C].into()
    }

    // Answers.

    fn set(&mut self, number: i128) {
        let destination = self.field(0, 8);
        if destination != NO_REGISTER {
            self.after.registers[destination as usize] = word(number) as u32;
        }
    }

    fn set_predicate(&mut self, lo: u32, truth: bool) {
        let destination = self.field(lo, 3);
        if destination != NO_PREDICATE {
            self.after.predicates[destination as usize] = truth;
        }
    }

    fn set_flags(&mut self, result: i128, carry: bool, overflow: bool) {
        self.after.flags = [result == 0, result >= SIGN, carry, overflow];
    }

    /// Both answers of csetp, isetp and psetp. The second is stored last.
    fn set_two_predicates(&mut self, test: bool) {
        let (code, with) = (self.field(45, 2), self.predicate(39, 42));
        self.set_predicate(3, combined(code, test, with));
        self.set_predicate(0, combined(code, !test, with));
    }

    /// The answer of iset and pset: a word for true or 0, and flags if asked for.
    fn set_truth_word(&mut self, test: bool) {
        let truth = combined(self.field(45, 2), test, self.predicate(39, 42));
        let result = match (truth, self.bit(44)) {
            (false, _) => 0,
            (true, false) => WORDS - 1,
            (true, true) => 0x3f80_0000,
        };
        if self.bit(47) {
            self.set_flags(result, false, false);
        }
        self.set(result);
    }

    // Copies and choices.

    fn mov(&mut self) {
        self.set(self.b());
    }

    fn mov32i(&mut self) {
        self.set(self.immediate32());
    }

    fn sel(&mut self) {
        self.set(if self.predicate(39, 42) { self.a() } else { self.b() });
    }

    fn imnmx(&mut self) {
        let signed = self.bit(48);
        let (a, b) = (number(self.a(), signed), number(self.b(), signed));
        self.set(if self.predicate(39, 42) { a.min(b) } else { a.max(b) });
    }

    fn icmp(&mut self) {
        let (b, c) = self.b_and_c(ICMP_CONSTANT_C);
        let chosen = if passes(self.field(49, 3), number(c, self.bit(48)), 0) { self.a() } else { b };
        self.set(chosen);
    }

    // Tests.

    fn csetp(&mut self) {
        self.set_two_predicates(condition(self.field(8, 5), self.before.flags));
    }

    fn integer_test(&self) -> bool {
        let signed = self.bit(48);
        passes(self.field(49, 3), number(self.a(), signed), number(self.b(), signed))
    }

    fn isetp(&mut self) {
        self.set_two_predicates(self.integer_test());
    }

    fn iset(&mut self) {
        self.set_truth_word(self.integer_test());
    }

    fn predicate_test(&self) -> bool {
        combined(self.field(24, 2), self.predicate(12, 15), self.predicate(29, 32))
    }

    fn psetp(&mut self) {
        self.set_two_predicates(self.predicate_test());
    }

    fn pset(&mut self) {
        self.set_truth_word(self.predicate_test());
    }

    // Sums and products.

    fn iadd(&mut self) {
        let told = Addition {
            negative_a: self.bit(49),
            negative_b: self.bit(48),
            extend: self.bit(43),
            set_flags: self.bit(47),
            saturate: self.bit(50),
        };
        self.add(self.b(), told);
    }

    fn iadd32i(&mut self) {
        let told = Addition {
            negative_a: self.bit(56),
            negative_b: false,
            extend: self.bit(53),
            set_flags: self.bit(52),
            saturate: self.bit(54),
        };
        self.add(self.immediate32(), told);
    }

    fn add(&mut self, b: i128, told: Addition) {
        let Addition { negative_a, negative_b, extend, .. } = told;
        // Both sign bits without extend negate each operand; otherwise a negative operand is complemented and the carry
        // makes up for it.
        let negates = negative_a && negative_b && !extend;
        let prepared = |operand: i128, negative: bool| match (negative, negates) {
            (false, _) => operand,
            (true, true) => word(-operand),
            (true, false) => complement(operand, true),
        };
        let carry = if extend { self.carry() } else { i128::from(negative_a != negative_b) };
        let sum = Sum::new(prepared(self.a(), negative_a), prepared(b, negative_b), carry);
        if told.set_flags {
            self.set_flags(sum.word(), sum.carries(), sum.overflows());
        }
        self.set(if told.saturate { sum.clamped() } else { sum.word() });
    }

    fn iadd3(&mut self) {
        let by_register = self.has_form(REG);
        // Halves and the shift are there in the register form alone.
        let operand = |source: i128, selector: u32, negate: u32| {
            let chosen = match self.field(selector, 2) {
                1 if by_register => source % HALVES,
                2 if by_register => source / HALVES,
                _ => source,
            };
            word(negated(chosen, self.bit(negate)))
        };
        let (a, b, c) = (operand(self.a(), 35, 51), operand(self.b(), 33, 50), operand(self.register_c(), 31, 49));
        let first = word(a + b);
        let shifted = match self.field(37, 2) {
            1 if by_register => first / HALVES,
            2 if by_register => word(first * HALVES),
            _ => first,
        };
        let carry = if self.bit(48) { self.carry() } else { 0 };
        let sum = Sum::new(shifted, c, carry);
        if self.bit(47) {
            self.set_flags(sum.word(), sum.carries(), sum.overflows());
        }
        self.set(sum.word());
    }

    fn iscadd(&mut self) {
        let (a, b) = (negated(self.a(), self.bit(49)), negated(self.b(), self.bit(48)));
        self.set((a << self.field(39, 5)) + b);
    }

    fn xmad(&mut self) {
        let by_constant = self.has_form(CBUF);
        let constant_c = by_constant && self.has_value(XMAD_CONSTANT_C);
        let (b, c) = if self.has_form(IMM) {
            (self.field(20, 16).into(), self.register_c())
        } else {
            self.b_and_c(XMAD_CONSTANT_C)
        };
        // With a constant the bits that say how lie elsewhere, and the one with c from there has fewer.
        let (high_b, shifts, merges, mode) = if by_constant {
            (self.bit(52), self.bit(55) && !constant_c, self.bit(56) && !constant_c, self.field(50, 2))
        } else {
            (self.bit(35) && !self.has_form(IMM), self.bit(36), self.bit(37), self.field(50, 3))
        };
        let signed_b = self.bit(49) && !self.has_form(IMM);
        let half = |source: i128, high: bool, signed: bool| part(source, if high { 16 } else { 0 }, 16, signed);
        let product = half(self.a(), self.bit(53), self.bit(48)) * half(b, high_b, signed_b);
        let addend = match mode {
            1 => c % HALVES,
            2 => c / HALVES,
            4 => c + b * HALVES,
            _ => c,
        };
        let sum = word(product * if shifts { HALVES } else { 1 } + addend);
        self.set(if merges { sum % HALVES + b * HALVES } else { sum });
    }

    // Bits.

    /// And, or, exclusive or, or b alone.
    fn logic(&self, code: u64, a: i128, b: i128) -> i128 {
        by_bits(|place| match (code, bit_at(a, place), bit_at(b, place)) {
            (0, a, b) => a && b,
            (1, a, b) => a || b,
            (2, a, b) => a != b,
            (_, _, b) => b,
        })
    }

    fn lop(&mut self) {
        let (a, b) = (complement(self.a(), self.bit(39)), complement(self.b(), self.bit(40)));
        let result = self.logic(self.field(41, 2), a, b);
        if self.bit(47) {
            self.set_flags(result, false, false);
        }
        let test = match self.field(44, 2) {
            0 => false,
            1 => true,
            2 => result == 0,
            _ => result != 0,
        };
        self.set_predicate(48, test);
        self.set(result);
    }

    fn lop32i(&mut self) {
        let (a, b) = (complement(self.a(), self.bit(55)), complement(self.immediate32(), self.bit(56)));
        let result = self.logic(self.field(53, 2), a, b);
        if self.bit(52) {
            self.set_flags(result, false, false);
        }
        self.set(result);
    }

    fn lop3(&mut self) {
        let (a, b, c) = (self.a(), self.b(), self.register_c());
        let table = i128::from(if self.has_form(REG) { self.field(28, 8) } else { self.field(48, 8) });
        let digit = |word: i128, place: u32| u32::from(bit_at(word, place));
        self.set(by_bits(|place| bit_at(table, 4 * digit(a, place) + 2 * digit(b, place) + digit(c, place))));
    }

    fn flo(&mut self) {
        let source = complement(self.b(), self.bit(40));
        // The highest bit that is unlike the sign, which is 0 for an unsigned word.
        let sign = self.bit(48) && source >= SIGN;
        self.set(match (0..32).rev().find(|&place| bit_at(source, place) != sign) {
            None => -1,
            Some(place) if self.bit(41) => i128::from(31 - place),
            Some(place) => i128::from(place),
        });
    }

    fn popc(&mut self) {
        let source = complement(self.b(), self.bit(40));
        self.set((0..32).filter(|&place| bit_at(source, place)).count() as i128);
    }

    // Shifts and fields.

    /// The count of shl and shr: modulo 32, or as it is up to 32.
    fn shift_count(&self) -> i128 {
        if self.bit(39) { self.b() % 32 } else { self.b().min(32) }
    }

    fn shl(&mut self) {
        self.set(self.a() << self.shift_count());
    }

    fn shr(&mut self) {
        let source = number(reversed(self.a(), self.bit(40)), self.bit(48));
        // Rounded down, so that a negative number ends at -1.
        self.set(source.div_euclid(1 << self.shift_count()));
    }

    fn shf(&mut self) {
        let double = self.register_c() * WORDS + self.a();
        let count = if self.bit(50) { self.b() % 32 } else { self.b().min(32) };
        let left = self.has_value(SHF_LEFT_REG) || self.has_value(SHF_LEFT_IMM);
        self.set(if left { (double << count) / WORDS } else { double >> count });
    }

    fn lea(&mut self) {
        let double = self.register_c() * WORDS + self.a();
        self.set(if self.has_value(LEA_HIGH_REG) {
            (double << self.field(28, 5)) / WORDS + self.register_b()
        } else if self.has_value(LEA_HIGH_CBUF) {
            (double << self.field(51, 5)) / WORDS + self.constant()
        } else {
            (negated(self.a(), self.bit(45)) << self.field(39, 5)) + self.b()
        });
    }

    /// Position and length of a field in a word, from the low two bytes of a word.
    fn place(told: i128) -> (u32, u32) {
        let position = (told % 256).min(32);
        let len = (told / 256 % 256).min(32 - position);
        (position as u32, len as u32)
    }

    fn bfe(&mut self) {
        let source = reversed(self.a(), self.bit(40));
        let (position, len) = Step::place(self.b());
        self.set(part(source, position, len, self.bit(48)));
    }

    fn bfi(&mut self) {
        let (b, base) = self.b_and_c(BFI_CONSTANT_C);
        let (position, len) = Step::place(b);
        self.set(replaced(base, self.a(), position, len));
    }

    // The rest.

    fn vmnmx(&mut self) {
        let a = Operand::selected(self.a(), self.field(36, 3), self.bit(48));
        let b = if self.bit(50) {
            Operand::selected(self.register_b(), self.field(28, 3), self.bit(49))
        } else {
            Operand::selected(self.field(20, 16).into(), 4, self.bit(49))
        };
        let c = self.register_c();
        let (takes_max, to_signed) = (self.bit(56), self.bit(54));
        let mixed = a.signed != b.signed;
        let chosen = if takes_max {
            a.number().max(b.number())
        } else if mixed {
            // The unsigned operand counts as signed here, unless the signed one is negative.
            let (signed, other) = if a.signed { (&a, &b) } else { (&b, &a) };
            if signed.number() < 0 { signed.number() } else { signed.number().min(number(other.word, true)) }
        } else {
            a.number().min(b.number())
        };
        // After a mixed maximum the word counts as unsigned, after a mixed minimum as signed.
        let from_signed = if mixed { !takes_max } else { a.signed };
        let chosen = match (self.bit(55), from_signed, to_signed) {
            (true, false, true) => chosen.min(SIGN - 1),
            (true, true, false) => chosen.max(0),
            _ => chosen,
        };
        let chosen = word(chosen);
        let (left, right) = (number(chosen, to_signed), number(c, to_signed));
        self.set(match self.field(51, 3) {
            0 => replaced(c, chosen, 16, 16),
            1 => replaced(c, chosen, 0, 16),
            2 => replaced(c, chosen, 0, 8),
            3 => replaced(c, chosen, 16, 8),
            4 => chosen + c,
            5 => left.min(right),
            6 => left.max(right),
            _ => chosen,
        });
    }

    fn i2i(&mut self) {
        let width = |code: u64| match code {
            0 => 8,
            1 => 16,
            _ => 32,
        };
        let (from_len, from_signed) = (width(self.field(10, 2)), self.bit(13));
        let (to_len, to_signed) = (width(self.field(8, 2)), self.bit(12));
        // A whole word has no place to choose.
        let from_lo = if from_len == 32 { 0 } else { 8 * self.field(41, 2) as u32 };
        let source = part(self.b(), from_lo, from_len, from_signed);
        let source = if self.bit(49) && from_signed { source.abs() } else { source };
        // What is clamped is the word, not the number that a negation gives.
        let source = number(word(negated(source, self.bit(45))), from_signed);
        let source = if self.bit(50) {
            let (least, greatest) =
                if to_signed { (-(1 << (to_len - 1)), (1 << (to_len - 1)) - 1) } else { (0, (1 << to_len) - 1) };
            source.clamp(least, greatest)
        } else {
            source
        };
        self.set(part(word(source), 0, to_len, to_signed));
    }

    /// The bits of the mask that r2p and p2r are given, and how many cells there are: flags, or predicates.
    fn mask_and_cells(&self) -> (i128, u32) {
        let mask = if self.has_form(IMM) { word(self.immediate20()) % 256 } else { 0x7f };
        (mask, if self.bit(40) { 4 } else { 7 })
    }

    fn r2p(&mut self) {
        let (mask, cells) = self.mask_and_cells();
        let byte = part(self.a(), 8 * self.field(41, 2) as u32, 8, false);
        for place in (0..cells).filter(|&place| bit_at(mask, place)) {
            let truth = bit_at(byte, place);
            if self.bit(40) {
                self.after.flags[place as usize] = truth;
            } else {
                self.after.predicates[place as usize] = truth;
            }
        }
    }

    fn p2r(&mut self) {
        let (mask, cells) = self.mask_and_cells();
        let lo = 8 * self.field(41, 2) as u32;
        self.set(by_bits(|place| match place.checked_sub(lo) {
            Some(at) if at < 8 && bit_at(mask, at) => {
                let truths: &[bool] = if self.bit(40) { &self.before.flags } else { &self.before.predicates };
                at < cells && truths[at as usize]
            }
            _ => bit_at(self.a(), place),
        }));
    }
}
