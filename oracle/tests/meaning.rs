//! The meanings against values worked out by hand: the marked rows of 01, and the corners of every kind.
//!
//! Unless a case says otherwise, rd is R1, ra R2, rb R3, rc R4 and the guard is 7. Every case compares the whole state.

use oracle::meaning::{ConstantWord, State, element_read, guard_holds, lacking_word, meaning};
use oracle::record::{NAMES, Record};

const REG: u8 = 0;
const CBUF: u8 = 1;
const IMM: u8 = 2;

const MIN: u32 = 0x8000_0000;
const MAX: u32 = 0x7fff_ffff;
const ONES: u32 = 0xffff_ffff;
const ONE_AS_FLOAT: u32 = 0x3f80_0000;

/// rb 3.
const RB: u64 = 3 << 20;
/// rc 4.
const RC: u64 = 4 << 39;
/// Predicate operand 7, and 7 negated.
const PT: u64 = 7 << 39;
const PF: u64 = 7 << 39 | 1 << 42;

fn bit(place: u32) -> u64 {
    1 << place
}

/// A field of a 20-bit number in the immediate form.
fn imm(number: i64) -> u64 {
    (number as u64 & 0x7_ffff) << 20 | (number as u64 >> 19 & 1) << 56
}

/// A constant by slot and word.
fn cbuf(slot: u64, word: u64) -> u64 {
    slot << 34 | word << 20
}

/// A record with the state that it starts from and the constants.
#[derive(Clone)]
struct Given {
    record: Record,
    state: State,
    constants: Vec<u32>,
}

/// Registers that hold words of their own, no predicate true, no flag set, no constant lent. rd and the guard are added
/// to `word`.
fn given(name: &str, form: u8, word: u64) -> Given {
    let kind = 1 + NAMES.iter().position(|known| *known == name).expect("a known name") as u8;
    let registers = std::array::from_fn(|at| 0x5a5a_0000 + at as u32);
    Given {
        record: Record { kind, form, value: 0, word: word | 1 | 7 << 16 },
        state: State { registers, predicates: [false; 7], flags: [false; 4] },
        constants: Vec::new(),
    }
}

/// The same for the kinds with two predicates: the first answer goes to P1, the second to P0.
fn given_test(name: &str, form: u8, word: u64) -> Given {
    let mut given = given(name, form, word | 1 << 3);
    given.record.word -= 1;
    given
}

impl Given {
    fn value(mut self, value: u64) -> Given {
        self.record.value = value << 48;
        self
    }

    /// A change of the word's bits, for what stands there unless a case says otherwise.
    fn toggled(mut self, bits: u64) -> Given {
        self.record.word ^= bits;
        self
    }

    fn r(mut self, at: usize, word: u32) -> Given {
        self.state.registers[at] = word;
        self
    }

    /// ra and rb. Where a case gives none, the bits of ra's field have another meaning.
    fn ab(mut self, a: u32, b: u32) -> Given {
        self.record.word |= 2 << 8;
        self.r(2, a).r(3, b)
    }

    /// ra, rb and rc.
    fn abc(self, a: u32, b: u32, c: u32) -> Given {
        self.ab(a, b).r(4, c)
    }

    fn p(mut self, at: usize) -> Given {
        self.state.predicates[at] = true;
        self
    }

    fn all_p(mut self) -> Given {
        self.state.predicates = [true; 7];
        self
    }

    fn flags(mut self, flags: [u8; 4]) -> Given {
        self.state.flags = flags.map(|flag| flag == 1);
        self
    }

    /// Lends constants up to this one.
    fn lent(mut self, slot: usize, word: usize, constant: u32) -> Given {
        self.constants = vec![0xc0de_c0de; slot * 16_384 + word];
        self.constants.push(constant);
        self
    }

    fn after(&self) -> State {
        assert_eq!(self.record.admit().err(), None, "these records are not refused");
        assert_eq!(lacking_word(&self.record, &self.state, &self.constants), None, "the constants are lent");
        meaning(&self.record, &self.state, &self.constants)
    }

    #[track_caller]
    fn changes(&self, change: impl Fn(&mut State)) {
        let mut right = self.state.clone();
        change(&mut right);
        let after = self.after();
        if after.registers != right.registers {
            let at = (0..255).find(|&at| after.registers[at] != right.registers[at]).expect("one that differs");
            panic!("R{at} is {:#010x}, not {:#010x}", after.registers[at], right.registers[at]);
        }
        assert_eq!(after.predicates, right.predicates, "predicates");
        assert_eq!(after.flags, right.flags, "flags");
    }

    #[track_caller]
    fn nothing(&self) {
        self.changes(|_| {});
    }

    /// R1, and nothing else.
    #[track_caller]
    fn gives(&self, word: u32) {
        self.changes(|state| state.registers[1] = word);
    }

    /// R1 and the flags Z, S, C, O.
    #[track_caller]
    fn gives_cc(&self, word: u32, flags: [u8; 4]) {
        self.changes(|state| {
            state.registers[1] = word;
            state.flags = flags.map(|flag| flag == 1);
        });
    }

    /// P1 and P0: the first answer and the second one.
    #[track_caller]
    fn sets(&self, first: u8, second: u8) {
        self.changes(|state| (state.predicates[1], state.predicates[0]) = (first == 1, second == 1));
    }
}

// The marked rows of 01.

#[test]
fn marked_rows() {
    let cc = bit(47);
    given("iadd", REG, RB | cc).ab(MAX, 1).gives_cc(MIN, [0, 1, 0, 1]);
    given("iadd", REG, RB | cc | bit(50)).ab(MAX, 1).gives_cc(MAX, [0, 1, 0, 1]);
    given("iadd", REG, RB | cc).ab(ONES, 1).gives_cc(0, [1, 0, 1, 0]);
    given("iadd", REG, RB | cc | bit(48)).ab(5, 5).gives_cc(0, [1, 0, 1, 0]);
    given("iadd", REG, RB | bit(48) | bit(49)).ab(1, 2).gives(0xffff_fffd);
    given("shr", REG, RB | bit(48)).ab(MIN, 40).gives(ONES);
    given("shf", REG, RB | RC).abc(1, 33, 3).gives(3);
    given("shf", REG, RB | RC | bit(50)).abc(1, 33, 3).gives(MIN);
    given("bfe", REG, RB).ab(0xabcd_1234, 8 << 8 | 28).gives(0xa);
    given("bfe", REG, RB).ab(0xabcd_1234, 8 << 8 | 32).gives(0);
    given("p2r", IMM, imm(0xff) | 1 << 41).ab(ONES, 0).all_p().gives(0xffff_7fff);
    given("flo", REG, RB | bit(41)).r(3, 1).gives(31);
    given("flo", REG, RB | bit(41)).r(3, 0).gives(ONES);
    given("i2i", REG, RB | bit(13) | bit(12) | bit(49) | bit(50)).r(3, 0x80).gives(0x7f);
}

// Guard, operands, constants.

#[test]
fn guards() {
    // The base word has guard 7; a toggle of its bits 16 to 19 gives another.
    let moves = |toggled: u64| given("mov", REG, RB).r(3, 9).toggled(toggled);
    moves(0).gives(9);
    moves(bit(19)).nothing();
    for at in 0..7 {
        let named = (7 ^ at as u64) << 16;
        moves(named).nothing();
        moves(named).p(at).gives(9);
        moves(named | bit(19)).gives(9);
        moves(named | bit(19)).p(at).nothing();
    }
}

/// A record under predicate 7 negated changes nothing and asks for no constant, whatever its kind, form and value: also
/// mov of a system value and i2i of a half from byte 3 on, which are refused under any other guard.
#[test]
fn dead_words() {
    let byte3 = 1 << 10 | 3 << 41;
    for name in NAMES {
        for form in [REG, CBUF, IMM] {
            for value in [0, 0xf0c8, 0x1800] {
                for word in [RB, cbuf(31, 16_383) | byte3] {
                    // No constant is lent, and every truth there is holds or none does.
                    let dead = given(name, form, word | bit(19)).value(value);
                    assert!(dead.record.never_runs() && dead.constants.is_empty());
                    dead.nothing();
                    dead.all_p().flags([1; 4]).nothing();
                }
            }
        }
    }
    // A constant is named, and would be read under a guard that holds.
    let mov = given("mov", CBUF, cbuf(3, 4) | bit(19)).value(0xf0c8);
    let i2i = given("i2i", CBUF, cbuf(3, 4) | byte3 | bit(19));
    for (dead, number) in [(mov, 4), (i2i, 5)] {
        assert!(element_read(&dead.record).is_some());
        assert_eq!(lacking_word(&dead.record, &dead.state, &[]), None);
        for guard in 0..15 {
            let Given { mut record, state, .. } = dead.clone();
            record.word ^= (15 ^ guard) << 16;
            assert_eq!(record.admit().err(), Some(number), "guard {guard}");
            assert_eq!(lacking_word(&record, &state, &[]).is_some(), guard_holds(&record, &state), "guard {guard}");
        }
    }
}

#[test]
fn operands() {
    given("mov", REG, RB).r(3, 0x1234_5678).gives(0x1234_5678);
    given("mov", REG, 254 << 20).r(254, 7).gives(7);
    given("mov", REG, 255 << 20).gives(0);
    given("mov", REG, RB | 255).nothing();
    given("mov", REG, RB).toggled(1 ^ 254).r(3, 6).changes(|state| state.registers[254] = 6);
    given("mov", IMM, imm(-1)).gives(ONES);
    given("mov", IMM, imm(-0x8_0000)).gives(0xfff8_0000);
    given("mov", IMM, imm(0x7_ffff)).gives(0x0007_ffff);
    given("mov", CBUF, cbuf(3, 4)).lent(3, 4, 77).gives(77);
    given("mov", CBUF, cbuf(0, 16_383)).lent(0, 16_383, 78).gives(78);
    given("mov", CBUF, cbuf(31, 16_383)).lent(31, 16_383, 79).gives(79);
    // The lane mask means nothing.
    given("mov32i", CBUF, 0x1234_5678 << 20 | 5 << 12).gives(0x1234_5678);
    given("mov32i", REG, 0xffff_ffff << 20).gives(ONES);
}

#[test]
fn constants_that_are_not_lent() {
    let lacking = |given: &Given, len: usize| lacking_word(&given.record, &given.state, &vec![0; len]);
    let lacks = |given: &Given, len: usize| lacking(given, len).is_some();
    let reads = given("mov", CBUF, cbuf(3, 4));
    assert_eq!(element_read(&reads.record), Some(49_156));
    assert!(lacks(&reads, 0) && lacks(&reads, 49_156) && !lacks(&reads, 49_157));
    for (slot, word, vec, comp) in [(3, 4, 1, 0), (3, 71, 17, 3), (0, 2, 0, 2), (31, 16_383, 4095, 3)] {
        let named = lacking(&given("mov", CBUF, cbuf(slot, word)), 0);
        assert_eq!(named, Some(ConstantWord { slot: slot as u32, vec, comp }));
    }
    // A destination that keeps nothing, or a test that does not need b, still reads.
    assert!(lacks(&given("mov", CBUF, cbuf(3, 4) | 255), 49_156));
    assert!(lacks(&given("isetp", CBUF, cbuf(3, 4)), 49_156));
    // P0 is false.
    let guarded = reads.clone().toggled(7 << 16);
    assert!(!guard_holds(&guarded.record, &guarded.state) && !lacks(&guarded, 0));
    assert!(lacks(&guarded.p(0), 49_156));
    assert!(!lacks(&reads.toggled(bit(19)), 0));

    let without = ["mov32i", "csetp", "psetp", "pset", "iadd32i", "lop32i", "vmnmx", "r2p", "p2r"];
    for name in NAMES {
        assert_eq!(lacks(&given(name, CBUF, 0), 0), !without.contains(&name), "{name}");
        assert!(!lacks(&given(name, REG, 0), 0) && !lacks(&given(name, IMM, 0), 0), "{name}");
    }
    for form in [REG, CBUF, IMM] {
        assert!(lacks(&given("lea", form, cbuf(3, 4)).value(0x1800), 49_156));
        assert!(!lacks(&given("lea", form, cbuf(3, 4)).value(0x1800), 49_157));
        assert!(!lacks(&given("lea", form, cbuf(3, 4)).value(0x5bd8), 0));
        assert_eq!(lacks(&given("shf", form, cbuf(3, 4)).value(0x1800), 0), form == CBUF);
    }
}

// Choices and tests.

#[test]
fn sel() {
    let chooses = |word: u64| given("sel", REG, RB | word).ab(10, 20);
    chooses(PT).gives(10);
    chooses(PF).gives(20);
    chooses(2 << 39).gives(20);
    chooses(2 << 39).p(2).gives(10);
    chooses(2 << 39 | bit(42)).gives(10);
    chooses(2 << 39 | bit(42)).p(2).gives(20);
}

#[test]
fn imnmx() {
    let of = |word: u64| given("imnmx", REG, RB | word).ab(1, ONES);
    of(PT).gives(1);
    of(PF).gives(ONES);
    of(PT | bit(48)).gives(ONES);
    of(PF | bit(48)).gives(1);
    of(6 << 39).gives(ONES);
    of(6 << 39).p(6).gives(1);
}

/// For each code of an integer test: less, equal, greater.
const INTEGER_TESTS: [[u8; 3]; 8] =
    [[0, 0, 0], [1, 0, 0], [0, 1, 0], [1, 1, 0], [0, 0, 1], [1, 0, 1], [0, 1, 1], [1, 1, 1]];

#[test]
fn integer_tests() {
    for (code, [less, equal, greater]) in INTEGER_TESTS.into_iter().enumerate() {
        let test = RB | PT | (code as u64) << 49;
        for (a, b, unsigned, signed) in [
            (1, 2, less, less),
            (2, 2, equal, equal),
            (2, 1, greater, greater),
            (ONES, 1, greater, less),
            (1, ONES, less, greater),
            (MIN, MAX, greater, less),
            (MAX, MIN, less, greater),
            (ONES, ONES, equal, equal),
            (0, 0, equal, equal),
        ] {
            given_test("isetp", REG, test).ab(a, b).sets(unsigned, 1 - unsigned);
            given_test("isetp", REG, test | bit(48)).ab(a, b).sets(signed, 1 - signed);
            let word = |truth: u8| if truth == 1 { ONES } else { 0 };
            given("iset", REG, test).ab(a, b).gives(word(unsigned));
            given("iset", REG, test | bit(48)).ab(a, b).gives(word(signed));
        }
        // icmp compares c with 0.
        let icmp = RB | RC | (code as u64) << 49;
        for (c, unsigned, signed) in [(0, equal, equal), (1, greater, greater), (MIN, greater, less)] {
            let chosen = |truth: u8| if truth == 1 { 10 } else { 20 };
            given("icmp", REG, icmp).abc(10, 20, c).gives(chosen(unsigned));
            given("icmp", REG, icmp | bit(48)).abc(10, 20, c).gives(chosen(signed));
        }
    }
}

#[test]
fn icmp_takes_b_or_c_from_the_constant() {
    // Equal to 0.
    let equal = RC | 2 << 49 | cbuf(0, 2);
    given("icmp", CBUF, equal).lent(0, 2, 20).abc(10, 1, 0).gives(10);
    given("icmp", CBUF, equal).lent(0, 2, 20).abc(10, 1, 5).gives(20);
    given("icmp", CBUF, equal).value(0x5340).lent(0, 2, 0).abc(10, 1, 5).gives(10);
    given("icmp", CBUF, equal).value(0x5340).lent(0, 2, 20).abc(10, 1, 0).gives(0);
    // The value counts in the constant form alone.
    given("icmp", REG, RB | RC | 2 << 49).value(0x5340).abc(10, 20, 0).gives(10);
    given("icmp", IMM, imm(6) | RC | 2 << 49).value(0x5340).abc(10, 1, 5).gives(6);
}

#[test]
fn two_predicates() {
    // The test passes or fails; P3 is the operand; and, or, twice exclusive or.
    for (code, operand, when_true, when_false) in [
        (0, false, [0, 0], [0, 0]),
        (0, true, [1, 0], [0, 1]),
        (1, false, [1, 0], [0, 1]),
        (1, true, [1, 1], [1, 1]),
        (2, false, [1, 0], [0, 1]),
        (2, true, [0, 1], [1, 0]),
        (3, false, [1, 0], [0, 1]),
        (3, true, [0, 1], [1, 0]),
    ] {
        let with = |given: Given| if operand { given.p(3) } else { given };
        for (passes, [first, second]) in [(true, when_true), (false, when_false)] {
            let of_operand = code << 45 | 3 << 39;
            // Equal: 4 and 4, or 4 and 5.
            let b = if passes { 4 } else { 5 };
            with(given_test("isetp", REG, RB | of_operand | 2 << 49).ab(4, b)).sets(first, second);
            // O, set or not.
            with(given_test("csetp", REG, of_operand | 8 << 8).flags([0, 0, 0, passes.into()])).sets(first, second);
            // P4 and true.
            let psetp = with(given_test("psetp", REG, of_operand | 4 << 12 | 7 << 29));
            if passes { psetp.p(4) } else { psetp }.sets(first, second);
        }
    }
    // Operand 7 negated is false.
    given_test("isetp", REG, RB | PF | 2 << 49).ab(4, 4).sets(0, 0);
    // Both name P1: the second wins.
    let test = RB | PT | 2 << 49;
    let both = given_test("isetp", REG, test).toggled(1);
    both.clone().ab(4, 4).p(1).changes(|state| state.predicates[1] = false);
    both.ab(4, 5).changes(|state| state.predicates[1] = true);
    // One of them is 7, then both.
    given_test("isetp", REG, test).toggled(6 << 3).ab(4, 4).all_p().changes(|state| state.predicates[0] = false);
    given_test("isetp", REG, test).toggled(7).ab(4, 4).changes(|state| state.predicates[1] = true);
    given_test("isetp", REG, test).toggled(6 << 3 | 7).ab(4, 4).nothing();
    // An operand that is also the first answer is read before.
    given_test("isetp", REG, RB | 1 << 39 | 2 << 49).ab(4, 5).p(1).sets(0, 1);
}

#[test]
fn condition_tests() {
    // For flags Z, S, C, O the answers of the tests 0 to 31.
    for (flags, answers) in [
        ([0, 0, 0, 0], "0000 1111 0000 1111 0111 0000 1111 1111"),
        ([1, 0, 0, 0], "0011 0011 0011 0011 0111 0000 1111 1111"),
        ([0, 1, 0, 0], "0101 0101 0101 0101 0101 0100 1111 1111"),
        ([0, 0, 1, 0], "0000 1111 0000 1111 0010 1010 1111 1111"),
        ([0, 0, 0, 1], "0101 0100 1101 0101 0111 0001 1111 1111"),
        ([1, 1, 0, 0], "0111 0001 0111 0001 0101 0100 1111 1111"),
        ([0, 1, 0, 1], "0000 1110 1000 1111 0101 0101 1111 1111"),
        ([1, 0, 1, 0], "0011 0011 0011 0011 0011 0010 1111 1111"),
    ] {
        for (code, answer) in answers.bytes().filter(u8::is_ascii_digit).enumerate() {
            let answer = answer - b'0';
            given_test("csetp", REG, PT | (code as u64) << 8).flags(flags).sets(answer, 1 - answer);
        }
    }
}

#[test]
fn truth_words() {
    let equal = RB | PT | 2 << 49;
    let (cc, float) = (bit(47), bit(44));
    let all = [1, 1, 1, 1];
    given("iset", REG, equal).ab(4, 4).flags(all).gives(ONES);
    given("iset", REG, equal | float).ab(4, 4).flags(all).gives(ONE_AS_FLOAT);
    given("iset", REG, equal | cc).ab(4, 4).flags(all).gives_cc(ONES, [0, 1, 0, 0]);
    given("iset", REG, equal | cc | float).ab(4, 4).flags(all).gives_cc(ONE_AS_FLOAT, [0, 0, 0, 0]);
    given("iset", REG, equal | cc | float).ab(4, 5).flags(all).gives_cc(0, [1, 0, 0, 0]);
    // Exclusive or with true.
    given("iset", REG, equal | 2 << 45).ab(4, 5).gives(ONES);

    // P5 with P6 negated, and then with true.
    let pset = |code: u64| given("pset", REG, PT | 5 << 12 | 6 << 29 | bit(32) | code << 24);
    pset(0).gives(0);
    pset(0).p(5).gives(ONES);
    pset(0).p(5).p(6).gives(0);
    pset(1).p(6).gives(0);
    pset(1).gives(ONES);
    pset(2).p(5).gives(0);
    pset(2).gives(ONES);
    pset(3).p(5).p(6).gives(ONES);
    pset(0).toggled(cc).flags(all).gives_cc(0, [1, 0, 0, 0]);
    pset(0).toggled(cc | float).flags(all).p(5).gives_cc(ONE_AS_FLOAT, [0, 0, 0, 0]);
    // P5 negated as well: false and true.
    pset(0).toggled(bit(15)).p(5).gives(0);
    pset(0).toggled(bit(15)).gives(ONES);
}

// Sums and products.

#[test]
fn iadd() {
    let (na, nb, x, cc, sat) = (bit(49), bit(48), bit(43), bit(47), bit(50));
    let iadd = |word: u64| given("iadd", REG, RB | word);
    iadd(0).ab(ONES, 2).flags([1, 1, 1, 1]).gives(1);
    // Both signs without extend negate: -(-2^31) stays -2^31, and there is nothing to clamp.
    iadd(na | nb | cc | sat).ab(MIN, 0).gives_cc(MIN, [0, 1, 0, 0]);
    iadd(na | nb | cc).ab(0, 0).gives_cc(0, [1, 0, 0, 0]);
    // One sign: 0 + 0x7fffffff + 1.
    iadd(nb | cc | sat).ab(0, MIN).gives_cc(MAX, [0, 1, 0, 1]);
    iadd(nb | cc).ab(0, 0).gives_cc(0, [1, 0, 1, 0]);
    iadd(na | cc).ab(3, 10).gives_cc(7, [0, 0, 1, 0]);
    iadd(nb | cc).ab(3, 10).gives_cc(0xffff_fff9, [0, 1, 0, 0]);
    // Extend: complements, and C instead of 1.
    iadd(na | nb | x | cc).ab(0, 0).gives_cc(0xffff_fffe, [0, 1, 1, 0]);
    iadd(na | nb | x | cc).ab(0, 0).flags([0, 0, 1, 0]).gives_cc(ONES, [0, 1, 1, 0]);
    iadd(x | cc).ab(MAX, 0).flags([0, 0, 1, 0]).gives_cc(MIN, [0, 1, 0, 1]);
    iadd(x | sat).ab(MAX, 0).flags([0, 0, 1, 0]).gives(MAX);
    iadd(x | sat).ab(MAX, 0).gives(MAX);
    iadd(x | cc).ab(ONES, 0).flags([0, 0, 1, 0]).gives_cc(0, [1, 0, 1, 0]);
    iadd(nb | x | cc).ab(5, 5).gives_cc(ONES, [0, 1, 0, 0]);
    iadd(nb | x | cc).ab(5, 5).flags([0, 0, 1, 0]).gives_cc(0, [1, 0, 1, 0]);
    // Flags from the sum before clamping: -2^31 - 2^31 is 0 as a word.
    iadd(cc | sat).ab(MIN, MIN).gives_cc(MIN, [1, 0, 1, 1]);
    // The carry makes up for a sum below the range: -2^31 - 1 + 1.
    iadd(x | cc | sat).ab(MIN, ONES).flags([0, 0, 1, 0]).gives_cc(MIN, [0, 1, 1, 0]);
    iadd(x | cc | sat).ab(MIN, ONES).gives_cc(MIN, [0, 0, 1, 1]);
    given("iadd", IMM, imm(-3)).ab(1, 0).gives(0xffff_fffe);
    given("iadd", CBUF, cbuf(0, 1)).lent(0, 1, 41).ab(1, 0).gives(42);
}

#[test]
fn iadd32i() {
    let (na, x, cc, sat) = (bit(56), bit(53), bit(52), bit(54));
    let iadd = |number: u64, word: u64| given("iadd32i", CBUF, number << 20 | word);
    iadd(0xffff_ffff, cc).ab(1, 0).gives_cc(0, [1, 0, 1, 0]);
    iadd(1, cc).ab(MAX, 0).gives_cc(MIN, [0, 1, 0, 1]);
    iadd(1, cc | sat).ab(MAX, 0).gives_cc(MAX, [0, 1, 0, 1]);
    iadd(0xffff_ffff, sat).ab(MIN, 0).gives(MIN);
    iadd(10, na | cc).ab(3, 0).gives_cc(7, [0, 0, 1, 0]);
    iadd(1, x).ab(1, 0).flags([0, 0, 1, 0]).gives(3);
    iadd(10, na | x).ab(3, 0).gives(6);
}

#[test]
fn iadd3() {
    let (na, nb, nc, x, cc) = (bit(51), bit(50), bit(49), bit(48), bit(47));
    let iadd3 = |word: u64| given("iadd3", REG, RB | RC | word);
    // The carry of the first sum is not seen.
    iadd3(cc).abc(ONES, 1, 0).gives_cc(0, [1, 0, 0, 0]);
    iadd3(cc).abc(MAX, 1, 0).gives_cc(MIN, [0, 1, 0, 0]);
    iadd3(cc).abc(ONES, 0, 1).gives_cc(0, [1, 0, 1, 0]);
    iadd3(cc).abc(MAX, 0, 1).gives_cc(MIN, [0, 1, 0, 1]);
    iadd3(x).abc(1, 1, 1).flags([0, 0, 1, 0]).gives(4);
    iadd3(x).abc(1, 1, 1).flags([1, 1, 0, 1]).gives(3);
    iadd3(x | cc).abc(MAX, 0, 0).flags([0, 0, 1, 0]).gives_cc(MIN, [0, 1, 0, 1]);
    iadd3(x | cc).abc(ONES, 0, 0).flags([0, 0, 1, 0]).gives_cc(0, [1, 0, 1, 0]);
    iadd3(na).abc(5, 2, 1).gives(0xffff_fffe);
    iadd3(nb).abc(5, 2, 1).gives(4);
    iadd3(nc).abc(5, 2, 1).gives(6);
    // A negated c of 0 is 0: no carry.
    iadd3(nc | cc).abc(5, 2, 0).gives_cc(7, [0, 0, 0, 0]);
    // Shifts of the first sum.
    iadd3(1 << 37).abc(0x0001_8000, 0x8000, 3).gives(5);
    iadd3(1 << 37).abc(ONES, 0x0001_0000, 3).gives(3);
    iadd3(2 << 37).abc(1, 1, 3).gives(0x0002_0003);
    iadd3(2 << 37).abc(0xffff_0001, 0x0001_0001, 3).gives(0x0002_0003);
    iadd3(3 << 37).abc(1, 1, 3).gives(5);
    // Halves: low, high, and the whole word for code 3.
    iadd3(1 << 35).abc(0x1234_5678, 0, 0).gives(0x5678);
    iadd3(2 << 35).abc(0x9234_5678, 0, 0).gives(0x9234);
    iadd3(3 << 35).abc(0x1234_5678, 0, 0).gives(0x1234_5678);
    iadd3(1 << 33).abc(0, 0x1234_f678, 0).gives(0xf678);
    iadd3(2 << 33).abc(0, 0x1234_5678, 0).gives(0x1234);
    iadd3(1 << 31).abc(0, 0, 0x1234_5678).gives(0x5678);
    iadd3(2 << 31).abc(0, 0, 0x1234_5678).gives(0x1234);
    iadd3(1 << 35 | na).abc(0xffff_0001, 0, 0).gives(ONES);
    // The other forms have neither: the number has bits where halves and shift lie.
    given("iadd3", IMM, RC | imm(0x2_0000)).abc(0x0001_0000, 1, 0).gives(0x0003_0000);
    given("iadd3", CBUF, RC | cbuf(8, 0)).lent(8, 0, 0x0002_0000).abc(0x0001_0000, 1, 7).gives(0x0003_0007);
    given("iadd3", CBUF, RC | cbuf(2, 0)).lent(2, 0, 0).abc(0x1234_5678, 1, 0).gives(0x1234_5678);
}

#[test]
fn iscadd() {
    let iscadd = |n: u64, word: u64| given("iscadd", REG, RB | n << 39 | word);
    iscadd(4, 0).ab(3, 5).gives(53);
    iscadd(4, bit(49)).ab(3, 5).gives(0xffff_ffd5);
    iscadd(4, bit(48)).ab(3, 5).gives(43);
    iscadd(4, bit(48) | bit(49)).ab(3, 5).gives(0xffff_ffcb);
    iscadd(0, 0).ab(3, 5).gives(8);
    iscadd(31, 0).ab(3, 5).gives(0x8000_0005);
}

#[test]
fn xmad() {
    let (high_a, signed_a, signed_b) = (bit(53), bit(48), bit(49));
    let (high_b, shifts, merges) = (bit(35), bit(36), bit(37));
    let xmad = |word: u64| given("xmad", REG, RB | RC | word);
    let (a, b, c) = (0x0003_0002, 0x0005_0007, 0x11);
    xmad(0).abc(a, b, c).gives(0x1f);
    xmad(high_a).abc(a, b, c).gives(38);
    xmad(high_b).abc(a, b, c).gives(27);
    xmad(high_a | high_b).abc(a, b, c).gives(32);
    xmad(0).abc(0xffff, 7, c).gives(0x0007_000a);
    xmad(signed_a).abc(0xffff, 7, c).gives(10);
    xmad(signed_b).abc(7, 0xffff, c).gives(10);
    xmad(signed_a | signed_b).abc(0xffff, 0x8000, 0).gives(0x8000);
    xmad(signed_a | high_a).abc(0xffff_0000, 7, c).gives(10);
    xmad(shifts).abc(a, b, c).gives(0x000e_0011);
    xmad(shifts | signed_a).abc(0xffff, 1, c).gives(0xffff_0011);
    // Modes: low half, high half, c as it is, b above, c as it is.
    let mode = |mode: u64| xmad(mode << 50).abc(a, b, 0xabcd_1234);
    for (code, word) in [
        (0, 0xabcd_1242),
        (1, 0x1242),
        (2, 0xabdb),
        (3, 0xabcd_1242),
        (4, 0xabd4_1242),
        (5, 0xabcd_1242),
        (6, 0xabcd_1242),
        (7, 0xabcd_1242),
    ] {
        mode(code).gives(word);
    }
    // A merge keeps the low half under the whole b, also where its high half was multiplied.
    xmad(merges).abc(a, b, 0xabcd_0000).gives(0x0007_000e);
    xmad(merges | high_b).abc(a, b, c).gives(0x0007_001b);
    // The number is never signed and never high: bit 35 is its highest.
    given("xmad", IMM, RC | 0x8000 << 20 | signed_b).abc(2, 1, c).gives(0x0001_0011);
    given("xmad", IMM, RC | 7 << 20 | shifts).abc(2, 1, c).gives(0x000e_0011);
    given("xmad", IMM, RC | 7 << 20 | merges).abc(2, 1, 0xabcd_0011).gives(0x0007_001f);
    given("xmad", IMM, RC | 7 << 20 | 4 << 50).abc(2, 1, c).gives(0x0007_001f);
    // With a constant: slot 31 has bits where the register form has high, shift and merge.
    let constant = |word: u64| given("xmad", CBUF, RC | cbuf(31, 0) | word).lent(31, 0, b).abc(a, 1, c);
    constant(0).gives(0x1f);
    constant(bit(52)).gives(27);
    constant(bit(55)).gives(0x000e_0011);
    constant(bit(56)).gives(0x0007_001f);
    constant(1 << 50).r(4, 0xabcd_0011).gives(0x1f);
    constant(2 << 50).r(4, 0xabcd_0011).gives(0xabdb);
    constant(3 << 50).gives(0x1f);
    constant(signed_b).lent(31, 0, 0xffff).gives(0xf);
    // c from the constant: no shift, no merge.
    let constant_c = |word: u64| constant(word).value(0x5100).lent(31, 0, c).r(4, b);
    constant_c(0).gives(0x1f);
    constant_c(bit(55) | bit(56)).gives(0x1f);
    constant_c(bit(52)).gives(27);
    constant_c(2 << 50).lent(31, 0, 0xabcd_1234).gives(0xabdb);
    // The value counts in the constant form alone.
    xmad(shifts).value(0x5100).abc(a, b, c).gives(0x000e_0011);
}

// Bits.

#[test]
fn lop() {
    // No predicate, unless toggled.
    let lop = |code: u64, word: u64| given("lop", REG, RB | code << 41 | 7 << 48 | word);
    lop(0, 0).ab(0xc, 0xa).gives(8);
    lop(1, 0).ab(0xc, 0xa).gives(0xe);
    lop(2, 0).ab(0xc, 0xa).gives(6);
    lop(3, 0).ab(0xc, 0xa).gives(0xa);
    lop(0, bit(39)).ab(0xc, 0xa).gives(2);
    lop(0, bit(40)).ab(0xc, 0xa).gives(4);
    lop(3, bit(39) | bit(40)).ab(0xc, 0xa).gives(0xffff_fff5);
    lop(2, bit(47)).ab(5, 5).flags([0, 1, 1, 1]).gives_cc(0, [1, 0, 0, 0]);
    lop(1, bit(47)).ab(MIN, 0).flags([1, 0, 1, 1]).gives_cc(MIN, [0, 1, 0, 0]);
    // P5: false, true, result 0, result not 0.
    for (code, of_zero, of_others) in [(0, false, false), (1, true, true), (2, true, false), (3, false, true)] {
        let to_p5 = code << 44 | 2 << 48;
        for (b, predicate) in [(5, of_zero), (7, of_others)] {
            let case = lop(2, 0).toggled(to_p5).ab(5, b);
            let change = |state: &mut State| {
                state.registers[1] = 5 ^ b;
                state.predicates[5] = predicate;
            };
            case.changes(change);
            case.p(5).changes(change);
        }
    }
}

#[test]
fn lop32i() {
    let lop = |code: u64, word: u64| given("lop32i", CBUF, 0xa << 20 | code << 53 | word).ab(0xc, 0);
    lop(0, 0).gives(8);
    lop(1, 0).gives(0xe);
    lop(2, 0).gives(6);
    lop(3, 0).gives(0xa);
    lop(0, bit(55)).gives(2);
    lop(0, bit(56)).gives(4);
    lop(3, bit(56) | bit(52)).flags([1, 0, 1, 1]).gives_cc(0xffff_fff5, [0, 1, 0, 0]);
    lop(0, bit(52)).r(2, 0x10).flags([0, 1, 1, 1]).gives_cc(0, [1, 0, 0, 0]);
}

#[test]
fn lop3() {
    // With these operands the low byte of the result is the table, and all above is its bit 0.
    for (table, word) in [(0xe8, 0xe8), (0x01, 0xffff_ff01), (0x80, 0x80), (0xff, ONES), (0, 0), (0x96, 0x96)] {
        given("lop3", REG, RB | RC | table << 28).abc(0xf0, 0xcc, 0xaa).gives(word);
        given("lop3", IMM, imm(0xcc) | RC | table << 48).abc(0xf0, 1, 0xaa).gives(word);
        given("lop3", CBUF, cbuf(0, 3) | RC | table << 48).lent(0, 3, 0xcc).abc(0xf0, 1, 0xaa).gives(word);
    }
}

#[test]
fn flo() {
    let flo = |word: u64, source: u32| given("flo", REG, RB | word).r(3, source);
    let (inverted, from_top, signed) = (bit(40), bit(41), bit(48));
    flo(0, 1).gives(0);
    flo(0, MIN).gives(31);
    flo(0, 0x0040_0001).gives(22);
    flo(0, 0).gives(ONES);
    flo(from_top, MIN).gives(0);
    flo(from_top, 0x0040_0001).gives(9);
    flo(signed, 0).gives(ONES);
    flo(signed, ONES).gives(ONES);
    flo(signed, MIN).gives(30);
    flo(signed, MAX).gives(30);
    flo(signed, 0xffff_fffe).gives(0);
    flo(signed, 1).gives(0);
    flo(signed | from_top, MIN).gives(1);
    flo(signed | from_top, ONES).gives(ONES);
    flo(inverted, ONES).gives(ONES);
    flo(inverted, 0xffff_fffe).gives(0);
    flo(inverted | from_top, 0).gives(0);
}

#[test]
fn popc() {
    given("popc", REG, RB).r(3, 0xf0f0_0001).gives(9);
    given("popc", REG, RB | bit(40)).r(3, 0xf0f0_0001).gives(23);
    given("popc", REG, RB).r(3, 0).gives(0);
    given("popc", REG, RB | bit(40)).r(3, 0).gives(32);
    given("popc", IMM, imm(-1)).gives(32);
}

// Shifts and fields.

#[test]
fn shifts() {
    let (wraps, reversed, signed) = (bit(39), bit(40), bit(48));
    let shl = |word: u64| given("shl", REG, RB | word);
    shl(0).ab(3, 31).gives(MIN);
    shl(0).ab(3, 32).gives(0);
    shl(0).ab(3, ONES).gives(0);
    shl(0).ab(3, 0x100).gives(0);
    shl(0).ab(3, 0).gives(3);
    shl(wraps).ab(3, 32).gives(3);
    shl(wraps).ab(3, 33).gives(6);
    shl(wraps).ab(3, ONES).gives(MIN);
    let shr = |word: u64| given("shr", REG, RB | word);
    shr(0).ab(MIN, 31).gives(1);
    shr(0).ab(MIN, 32).gives(0);
    shr(0).ab(MIN, ONES).gives(0);
    shr(signed).ab(MIN, 31).gives(ONES);
    shr(signed).ab(MIN, 4).gives(0xf800_0000);
    shr(signed).ab(MIN, 32).gives(ONES);
    shr(signed).ab(MIN, ONES).gives(ONES);
    shr(signed).ab(MAX, 32).gives(0);
    shr(signed).ab(MAX, 40).gives(0);
    shr(wraps).ab(MIN, 33).gives(0x4000_0000);
    shr(wraps | signed).ab(MIN, 33).gives(0xc000_0000);
    shr(wraps | signed).ab(MIN, 32).gives(MIN);
    // The sign is that of the reversed word.
    shr(reversed).ab(1, 31).gives(1);
    shr(reversed | signed).ab(1, 31).gives(ONES);
    shr(reversed | signed).ab(1, 32).gives(ONES);
    shr(reversed | signed).ab(MIN, 32).gives(0);
    shr(reversed).ab(0xabcd_1234, 0).gives(0x2c48_b3d5);
}

#[test]
fn shf() {
    let shf = |word: u64, count: u32| given("shf", REG, RB | RC | word).abc(0x8000_0001, count, 3);
    shf(0, 0).gives(0x8000_0001);
    shf(0, 1).gives(0xc000_0000);
    shf(0, 31).gives(7);
    shf(0, 32).gives(3);
    shf(0, 33).gives(3);
    shf(0, ONES).gives(3);
    shf(bit(50), 32).gives(0x8000_0001);
    shf(bit(50), ONES).gives(7);
    for left in [0x5bf8, 0x36f8] {
        shf(0, 0).value(left).gives(3);
        shf(0, 1).value(left).gives(7);
        shf(0, 31).value(left).gives(0xc000_0000);
        shf(0, 32).value(left).gives(0x8000_0001);
        shf(0, ONES).value(left).gives(0x8000_0001);
        shf(bit(50), 32).value(left).gives(3);
        shf(bit(50), 33).value(left).gives(7);
    }
    // The 64-bit modes change nothing.
    shf(3 << 37 | 3 << 48, 1).gives(0xc000_0000);
    given("shf", IMM, imm(1) | RC).value(0x5bf8).abc(0x8000_0001, 0, 3).gives(7);
    // Another value is no left.
    shf(0, 1).value(0x5bf9).gives(0xc000_0000);
}

#[test]
fn lea() {
    let low = |n: u64, word: u64| given("lea", REG, RB | n << 39 | word);
    low(4, 0).ab(3, 5).gives(53);
    low(4, bit(45)).ab(3, 5).gives(0xffff_ffd5);
    low(31, 0).ab(3, 5).gives(0x8000_0005);
    low(0, bit(45)).ab(3, 5).gives(2);
    // The high form by register, in any form of the record.
    for form in [REG, CBUF, IMM] {
        let high = |n: u64| given("lea", form, RB | RC | n << 28).value(0x5bd8);
        high(0).abc(MIN, 5, 9).gives(14);
        high(1).abc(MIN, 5, 1).gives(8);
        high(31).abc(MIN, 5, 9).gives(0xc000_0005);
        high(1).abc(MIN, ONES, 1).gives(2);
        // rc 68 has bit 45 set: a is not negated.
        given("lea", form, RB | 68 << 39 | 1 << 28).value(0x5bd8).ab(MIN, 5).r(68, 1).gives(8);
        given("lea", form, RB | 68 << 39 | 4 << 28).value(0x5bd8).ab(1, 5).r(68, 0).gives(5);
        // By constant.
        let high = |n: u64| given("lea", form, cbuf(1, 2) | RC | n << 51).value(0x1800).lent(1, 2, 5);
        high(0).abc(MIN, 7, 9).gives(14);
        high(1).abc(MIN, 7, 1).gives(8);
        high(31).abc(MIN, 7, 9).gives(0xc000_0005);
    }
}

#[test]
fn fields() {
    let (reversed, signed) = (bit(40), bit(48));
    let told = |position: u32, len: u32| len << 8 | position;
    let bfe = |word: u64, told: u32| given("bfe", REG, RB | word).ab(0xabcd_1234, told);
    bfe(0, told(8, 8)).gives(0x12);
    bfe(0, told(16, 8)).gives(0xcd);
    bfe(signed, told(16, 8)).gives(0xffff_ffcd);
    bfe(signed, told(28, 8)).gives(0xffff_fffa);
    bfe(signed, told(31, 1)).gives(ONES);
    bfe(0, told(0, 32)).gives(0xabcd_1234);
    bfe(signed, told(0, 255)).gives(0xabcd_1234);
    bfe(0, told(0, 31)).gives(0x2bcd_1234);
    bfe(0, 0xffff_081c).gives(0xa);
    // No length, or no place: 0, also where the word is negative.
    bfe(signed, told(5, 0)).gives(0);
    bfe(signed, told(32, 8)).gives(0);
    bfe(signed, told(255, 255)).gives(0);
    bfe(reversed, told(0, 8)).gives(0xd5);
    bfe(reversed | signed, told(0, 8)).gives(0xffff_ffd5);

    let bfi = |insert: u32, told: u32| given("bfi", REG, RB | RC).abc(insert, told, 0x1234_5678);
    bfi(0xff, told(4, 8)).gives(0x1234_5ff8);
    bfi(0xff00, told(4, 8)).gives(0x1234_5008);
    bfi(0xff, told(28, 8)).gives(0xf234_5678);
    bfi(0xff, told(4, 0)).gives(0x1234_5678);
    bfi(0xff, told(32, 8)).gives(0x1234_5678);
    bfi(0xff, told(200, 200)).gives(0x1234_5678);
    bfi(0xff, told(0, 32)).gives(0xff);
    bfi(0xff, told(0, 255)).gives(0xff);
    // b from the constant, or c.
    given("bfi", CBUF, cbuf(0, 1) | RC).lent(0, 1, told(4, 8)).abc(0xff, 1, 0x1234_5678).gives(0x1234_5ff8);
    let constant_c = given("bfi", CBUF, cbuf(0, 1) | RC).value(0x53f0);
    constant_c.lent(0, 1, 0x1234_5678).abc(0xff, 1, told(4, 8)).gives(0x1234_5ff8);
    given("bfi", REG, RB | RC).value(0x53f0).abc(0xff, told(4, 8), 0x1234_5678).gives(0x1234_5ff8);
}

// The rest.

#[test]
fn vmnmx() {
    let (signed_a, signed_b, max) = (bit(48), bit(49), bit(56));
    let (to_signed, saturates) = (bit(54), bit(55));
    // Whole words, nothing done with c.
    let whole = |word: u64| given("vmnmx", CBUF, RB | RC | 6 << 36 | 7 << 28 | bit(50) | 7 << 51 | word);
    whole(0).ab(1, ONES).gives(1);
    whole(max).ab(1, ONES).gives(ONES);
    whole(signed_a | signed_b).ab(1, ONES).gives(ONES);
    whole(signed_a | signed_b | max).ab(1, ONES).gives(1);
    // Mixed minimum: a negative signed operand, else the signed minimum.
    whole(signed_a).ab(ONES, 5).gives(ONES);
    whole(signed_b).ab(5, ONES).gives(ONES);
    whole(signed_a).ab(ONES, MIN).gives(ONES);
    whole(signed_a).ab(5, 6).gives(5);
    whole(signed_a).ab(5, MIN).gives(MIN);
    whole(signed_b).ab(MIN, 5).gives(MIN);
    // Mixed maximum: exact.
    whole(signed_a | max).ab(ONES, 5).gives(5);
    whole(signed_b | max).ab(5, ONES).gives(5);
    whole(signed_a | max).ab(5, MIN).gives(MIN);
    whole(signed_b | max).ab(MIN, 5).gives(MIN);
    whole(signed_a | max).ab(ONES, 0).gives(0);
    // Saturation, by what the word counts as.
    whole(signed_a | saturates).ab(5, MIN).gives(0);
    whole(signed_a | saturates | to_signed).ab(5, MIN).gives(MIN);
    whole(signed_a | max | saturates | to_signed).ab(5, MIN).gives(MAX);
    whole(signed_b | max | saturates).ab(MIN, 5).gives(MIN);
    whole(signed_a | signed_b | saturates).ab(1, ONES).gives(0);
    whole(signed_a | signed_b | saturates | to_signed).ab(1, ONES).gives(ONES);
    whole(max | saturates | to_signed).ab(1, ONES).gives(MAX);
    whole(max | saturates).ab(1, ONES).gives(ONES);
    // Parts of a, against 0 as a number: the unsigned maximum, the signed minimum.
    for (selector, unsigned, signed) in [
        (0, 0x81, 0xffff_ff81),
        (1, 0xff, ONES),
        (2, 0x7f, 0),
        (3, 0x80, 0xffff_ff80),
        (4, 0xff81, 0xffff_ff81),
        (5, 0x807f, 0xffff_807f),
        (6, 0x807f_ff81, 0x807f_ff81),
        (7, 0x807f_ff81, 0x807f_ff81),
    ] {
        let of_a = |word: u64| given("vmnmx", REG, RC | selector << 36 | 7 << 51 | word).ab(0x807f_ff81, 0);
        of_a(max).gives(unsigned);
        of_a(signed_a | signed_b).gives(signed);
        // The same parts of b.
        let of_b = |word: u64| {
            given("vmnmx", REG, RB | RC | 6 << 36 | selector << 28 | bit(50) | 7 << 51 | word).ab(0, 0x807f_ff81)
        };
        of_b(max).gives(unsigned);
        of_b(signed_a | signed_b).gives(signed);
    }
    // A number of 16 bits, signed or not.
    let number = |word: u64| given("vmnmx", IMM, RC | 0x8001 << 20 | 6 << 36 | 7 << 51 | word).ab(0, 0);
    number(max).gives(0x8001);
    number(signed_a | signed_b).gives(0xffff_8001);
    number(signed_b | signed_a | max).gives(0);
    // What is done with c.
    let with_c = |code: u64, word: u64| {
        given("vmnmx", REG, RC | 6 << 36 | code << 51 | max | word).ab(0xaabb_ccdd, 0).r(4, 0x1122_3344)
    };
    for (code, unsigned, signed) in [
        (0, 0xccdd_3344, 0xccdd_3344),
        (1, 0x1122_ccdd, 0x1122_ccdd),
        (2, 0x1122_33dd, 0x1122_33dd),
        (3, 0x11dd_3344, 0x11dd_3344),
        (4, 0xbbde_0021, 0xbbde_0021),
        (5, 0x1122_3344, 0xaabb_ccdd),
        (6, 0xaabb_ccdd, 0x1122_3344),
        (7, 0xaabb_ccdd, 0xaabb_ccdd),
    ] {
        with_c(code, 0).gives(unsigned);
        with_c(code, to_signed).gives(signed);
    }
    // The operand's sign does not matter for c: -1 and 1 as unsigned words.
    let of_signed = |code: u64| given("vmnmx", REG, RC | 6 << 36 | code << 51 | signed_a | signed_b);
    of_signed(5).ab(ONES, 0).r(4, 1).gives(1);
    of_signed(4).ab(ONES, 0).r(4, 1).gives(0);
}

#[test]
fn i2i() {
    const U8: u64 = 0;
    const U16: u64 = 1;
    const U32: u64 = 2;
    const SIGNED: u64 = 4;
    const S8: u64 = U8 | SIGNED;
    const S16: u64 = U16 | SIGNED;
    const S32: u64 = U32 | SIGNED;
    let (abs, neg, sat) = (bit(49), bit(45), bit(50));
    let i2i = |from: u64, to: u64, word: u64, source: u32| {
        let (from, to) = ((from & 3) << 10 | (from >> 2) << 13, (to & 3) << 8 | (to >> 2) << 12);
        given("i2i", REG, RB | from | to | word).r(3, source)
    };
    let byte = |byte: u64| byte << 41;
    // Sources.
    i2i(U8, U32, byte(2), 0x1122_3344).gives(0x22);
    i2i(U8, U32, byte(3), 0x8122_3344).gives(0x81);
    i2i(S8, S32, byte(3), 0x8122_3344).gives(0xffff_ff81);
    i2i(U16, U32, byte(1), 0x00ff_8100).gives(0xff81);
    i2i(S16, S32, byte(1), 0x00ff_8100).gives(0xffff_ff81);
    i2i(S16, S32, byte(2), 0x8001_0000).gives(0xffff_8001);
    i2i(U32, U32, byte(3), 0x1122_3344).gives(0x1122_3344);
    i2i(3, 3, byte(3), 0x8122_3344).gives(0x8122_3344);
    // Without saturation it is cut.
    i2i(S32, U8, 0, 0x1234_5678).gives(0x78);
    i2i(S32, S8, 0, 0x1234_56f8).gives(0xffff_fff8);
    i2i(U32, S16, 0, 0x1234_8678).gives(0xffff_8678);
    i2i(S8, U16, 0, 0x80).gives(0xff80);
    i2i(S8, S8, abs, 0x80).gives(0xffff_ff80);
    // Absolute value only of a signed source.
    i2i(S8, U32, abs, 0x80).gives(0x80);
    i2i(S32, S32, abs, 0xffff_fffb).gives(5);
    i2i(U32, U32, abs, 0xffff_fffb).gives(0xffff_fffb);
    i2i(U8, S32, abs, 0x80).gives(0x80);
    i2i(S32, S32, abs | neg, 5).gives(0xffff_fffb);
    // A negated unsigned source is the word it became.
    i2i(U8, U8, neg | sat, 1).gives(0xff);
    i2i(U8, S8, neg | sat, 1).gives(0x7f);
    i2i(U8, S32, neg, 1).gives(ONES);
    i2i(U8, S32, neg | sat, 1).gives(MAX);
    i2i(U8, U16, neg | sat, 0).gives(0);
    i2i(U32, S32, sat, MIN).gives(MAX);
    i2i(U32, U16, sat, MIN).gives(0xffff);
    // A signed source is clamped as a number.
    i2i(S32, U16, sat, 0xffff_fffb).gives(0);
    i2i(S32, U16, sat, 70_000).gives(0xffff);
    i2i(S32, S16, sat, 70_000).gives(0x7fff);
    i2i(S32, S16, sat, 70_000u32.wrapping_neg()).gives(0xffff_8000);
    i2i(S32, U32, sat, MAX).gives(MAX);
    i2i(S32, U32, sat, ONES).gives(0);
    i2i(S32, S32, sat, MIN).gives(MIN);
    i2i(S16, S8, neg | sat, 0x8000).gives(0x7f);
    i2i(S8, U8, neg | sat, 0x80).gives(0x80);
    // The absolute value of -2^31 is itself, and so is its negation.
    i2i(S32, S32, abs, MIN).gives(MIN);
    i2i(S32, U32, abs | sat, MIN).gives(0);
    i2i(S32, S32, abs | sat, MIN).gives(MIN);
    i2i(S32, S8, neg | sat, MIN).gives(0xffff_ff80);
    i2i(S32, S8, abs | neg | sat, MIN).gives(0xffff_ff80);
}

#[test]
fn r2p() {
    let (flags, byte2) = (bit(40), 2 << 41);
    let truths = |text: &str| -> [bool; 7] {
        let truths: Vec<bool> = text.chars().map(|c| c == '1').collect();
        truths.try_into().expect("seven")
    };
    let predicates = |given: Given, text: &str| given.changes(|state| state.predicates = truths(text));
    predicates(given("r2p", IMM, imm(0x7f)).ab(0x55, 0), "1010101");
    predicates(given("r2p", IMM, imm(0x7f)).ab(0x55, 0).all_p(), "1010101");
    predicates(given("r2p", IMM, imm(0x03)).ab(0, 0).all_p(), "0011111");
    predicates(given("r2p", IMM, imm(0x40) | byte2).ab(0x0040_0000, 0), "0000001");
    predicates(given("r2p", IMM, imm(0x7f) | byte2).ab(0x0055_0000, 0), "1010101");
    given("r2p", IMM, imm(0x7_ff80)).ab(0, 0).all_p().nothing();
    given("r2p", IMM, imm(0)).ab(0, 0).all_p().nothing();
    // Z, S, C, O.
    let sets = |given: Given, flags: [u8; 4]| given.changes(|state| state.flags = flags.map(|flag| flag == 1));
    sets(given("r2p", IMM, imm(0xf) | flags).ab(5, 0).flags([0, 1, 0, 1]), [1, 0, 1, 0]);
    sets(given("r2p", IMM, imm(0x6) | flags).ab(0, 0).flags([1, 1, 1, 1]), [1, 0, 0, 1]);
    given("r2p", IMM, imm(0xf0) | flags).ab(ONES, 0).nothing();
    // A mask in a register or a constant is not read: all seven, or all four.
    predicates(given("r2p", REG, RB).ab(0x2a, 0), "0101010");
    predicates(given("r2p", CBUF, cbuf(1, 1)).ab(0x2a, 0).all_p(), "0101010");
    sets(given("r2p", REG, RB | flags).ab(0xa, 0), [0, 1, 0, 1]);
}

#[test]
fn p2r() {
    let flags = bit(40);
    given("p2r", IMM, imm(0xff) | flags).ab(ONES, 0).flags([1, 1, 1, 1]).gives(0xffff_ff0f);
    given("p2r", IMM, imm(0xff) | flags).ab(ONES, 0).all_p().gives(0xffff_ff00);
    given("p2r", IMM, imm(0xff) | flags).ab(0, 0).flags([0, 1, 1, 0]).gives(6);
    given("p2r", IMM, imm(0xff)).ab(ONES, 0).flags([1, 1, 1, 1]).gives(0xffff_ff00);
    given("p2r", IMM, imm(0x05)).ab(0, 0).all_p().gives(5);
    given("p2r", IMM, imm(0x05)).ab(ONES, 0).gives(0xffff_fffa);
    given("p2r", IMM, imm(0x7f) | 3 << 41).ab(0x8012_3456, 0).p(0).p(3).gives(0x8912_3456);
    given("p2r", IMM, imm(0x80)).ab(ONES, 0).all_p().gives(0xffff_ff7f);
    // Only the low byte of the mask counts.
    given("p2r", IMM, imm(-0x100)).ab(0x1234_5678, 0).all_p().gives(0x1234_5678);
    given("p2r", IMM, imm(-1)).ab(ONES, 0).all_p().gives(0xffff_ff7f);
    // A mask in a register or a constant is not read: 0x7f, so bit 7 stays.
    given("p2r", REG, RB).ab(ONES, 0).gives(0xffff_ff80);
    given("p2r", CBUF, cbuf(1, 1)).ab(0, 0).p(6).gives(0x40);
    given("p2r", REG, RB | flags).ab(ONES, 0).flags([1, 0, 0, 0]).gives(0xffff_ff81);
    given("p2r", REG, RB | 255).ab(ONES, 0).nothing();
}
