// What a viewer does with Mehkura: translates the samples into one room, asks what can matter, evaluates the run, keeps a shelf copy of each sample,
// tests each block by block, writes each strip as SPIR-V words, and tries every refusal. Writes a line for each part, and ends with 1 at the first thing
// that is not as it must be. One argument: the folder of the samples.
#include "mehkura.h"

#include <algorithm>
#include <array>
#include <cstdio>
#include <cstdlib>
#include <fstream>
#include <iterator>
#include <string>
#include <vector>

namespace {

using Bytes = std::vector<uint8_t>;
using Words = std::vector<uint32_t>;
using Marks = std::array<uint8_t, MEHKURA_MARKS>;
using Cells = std::array<uint8_t, MEHKURA_CELLS>;

constexpr uint8_t unused = 0xa5;
int checks = 0;

void check(bool holds, const std::string &what) {
    ++checks;
    if (!holds) {
        std::fprintf(stderr, "viewer: not so: %s\n", what.c_str());
        std::exit(1);
    }
}

// A record: kind, form, opcode value, word, little-endian.
Bytes record(uint8_t kind, uint8_t form, uint64_t value, uint64_t word) {
    Bytes bytes{kind, form};
    for (uint64_t n : {value, word})
        for (int i = 0; i < 8; ++i) bytes.push_back(static_cast<uint8_t>(n >> (8 * i)));
    return bytes;
}

// Fields of a word. Guard 7 always holds; 8 more negates it, so 15 never does.
constexpr uint64_t guard(uint64_t predicate) { return predicate << 16; }
constexpr uint64_t rd(uint64_t n) { return n; }
constexpr uint64_t ra(uint64_t n) { return n << 8; }
constexpr uint64_t rb(uint64_t n) { return n << 20; }

// The two words that works carry as padding: mov of a system value, and i2i of a half from byte 3 on.
Bytes system_value_mov(uint64_t g, uint8_t kind = 1, uint8_t form = 0) { return record(kind, form, 0xf0c8000000000000, guard(g) | rd(1)); }
Bytes half_at_byte_3(uint64_t g, uint8_t kind = 24, uint8_t form = 0) {
    return record(kind, form, 0x5ce0000000000000, guard(g) | rd(1) | rb(1) | 1ull << 10 | 3ull << 41);
}

// The start of a list. An empty vector may have a null pointer, which no function takes.
template <typename List> auto *start(List &list) {
    static typename List::value_type none;
    return list.empty() ? &none : list.data();
}

Bytes joined(const Bytes &first, const Bytes &second) {
    Bytes both = first;
    both.insert(both.end(), second.begin(), second.end());
    return both;
}

// Strips of accepted records, one after another, in a room of a fixed size.
struct Room {
    Bytes bytes;
    size_t used = 0;
    Marks marks{};

    explicit Room(size_t size) : bytes(size, unused) {}

    uint32_t add(const Bytes &r) {
        size_t written = 0;
        uint32_t number = mehkura_translate(r.data(), r.size(), marks.data(), marks.size(), bytes.data() + used, bytes.size() - used, &written);
        used += written;
        return number;
    }

    Bytes run() const { return Bytes(bytes.begin(), bytes.begin() + static_cast<long>(used)); }
};

// The constant word that 9 says is not lent.
struct Fault {
    uint32_t slot = 0xabad1dea, vec = 0xabad1dea, comp = 0xabad1dea;

    bool operator==(const Fault &other) const { return slot == other.slot && vec == other.vec && comp == other.comp; }

    std::string text() const {
        return "slot " + std::to_string(slot) + ", vec " + std::to_string(vec) + ", comp " + std::to_string(comp) + " is not lent";
    }
};

struct State {
    std::array<uint32_t, MEHKURA_REGISTERS> registers{};
    std::array<uint8_t, MEHKURA_TRUTHS> truths{};
    Fault fault;

    bool operator==(const State &other) const { return registers == other.registers && truths == other.truths && fault == other.fault; }

    uint32_t run(const Bytes &run, uint32_t layout, const std::vector<uint32_t> &constants) {
        return mehkura_evaluate(start(run), run.size(), layout, registers.data(), registers.size(), truths.data(), truths.size(), start(constants),
                                constants.size(), &fault.slot, &fault.vec, &fault.comp);
    }

    uint32_t run(const Room &room, const std::vector<uint32_t> &constants = {0}) { return run(room.run(), MEHKURA_WIDE, constants); }
};

Bytes file(const std::string &name) {
    std::ifstream in(name, std::ios::binary);
    check(in.good(), "the file " + name + " can be read");
    return Bytes(std::istreambuf_iterator<char>(in), {});
}

// A work's records, each after the last strip.
void add_work(Room &room, const std::string &name) {
    const Bytes bytes = file(name);
    check(!bytes.empty() && bytes.size() % MEHKURA_RECORD == 0, name + " has whole records");
    for (auto at = bytes.begin(); at != bytes.end(); at += MEHKURA_RECORD)
        check(room.add(Bytes(at, at + MEHKURA_RECORD)) == MEHKURA_ACCEPTED, name + " is translated");
    for (size_t i = room.used; i < room.bytes.size(); ++i) check(room.bytes[i] == unused, "the room after the strips is as it was");
}

Room work(const std::string &name) {
    Room room(4096);
    add_work(room, name);
    return room;
}

// The numbers of the listed cells.
std::vector<size_t> listed(const Cells &cells) {
    std::vector<size_t> out;
    for (size_t i = 0; i < cells.size(); ++i) {
        check(cells[i] <= 1, "a cell is answered as 0 or 1");
        if (cells[i]) out.push_back(i);
    }
    return out;
}

// The 64-bit count: the third step from fffffffd passes 2^32.
void count(const std::string &samples) {
    Room room = work(samples + "/count.bin");
    State s;
    s.registers[0] = 0xfffffffd;
    for (uint64_t step = 1; step <= 5; ++step) {
        check(s.run(room) == 0, "the count is evaluated");
        uint64_t now = static_cast<uint64_t>(s.registers[1]) << 32 | s.registers[0];
        check(now == 0xfffffffd + step, "the count goes up by one");
    }
    std::puts("count: five steps over 2^32");
}

// The packed byte: flags into its low half, the number in its high half stays.
void conditions(const std::string &samples) {
    Room room = work(samples + "/conditions.bin");
    State s;
    s.registers[0] = 0xffffffff;
    s.registers[1] = 1;
    s.registers[2] = 0x1234d678;
    check(s.run(room) == 0, "the packing is evaluated");
    check(s.registers[0] == 0, "the sum wraps");
    // Z and C: bits 0 and 2 of the low half; the number d in the high half stays
    check(s.registers[2] == 0x1234d578, "the number in the high half survives");
    std::puts("conditions: the number in the high half survives");
}

// R1 = R2 + R3; @P0 mov R4, R1: asked R4, what matters is R2, R3, R4 and P0.
void reach() {
    Room room(512);
    check(room.add(record(9, 0, 0, guard(7) | rd(1) | ra(2) | rb(3))) == 0, "iadd is translated");
    check(room.add(record(1, 0, 0, guard(0) | rd(4) | rb(1))) == 0, "a guarded mov is translated");
    Cells cells{};
    cells[4] = 7;
    check(mehkura_reach(room.bytes.data(), room.used, cells.data(), cells.size()) == 0, "reach answers");
    check(listed(cells) == std::vector<size_t>{2, 3, 4, MEHKURA_CELL_PREDICATE}, "R2, R3, R4 and P0 can matter to R4");

    // what is not listed does not matter
    State a, b;
    for (size_t i = 0; i < MEHKURA_REGISTERS; ++i) b.registers[i] = static_cast<uint32_t>(0x01010101 * i);
    for (size_t i : {2, 3, 4}) a.registers[i] = b.registers[i];
    a.truths[0] = b.truths[0] = 1;
    b.truths[5] = 1;
    check(a.run(room) == 0 && b.run(room) == 0, "both starts are evaluated");
    check(a.registers[4] == b.registers[4], "both ends agree on R4");

    // refused, and accepted: bytes stay, or become 0 and 1
    Cells before = cells;
    before[9] = 3;
    cells = before;
    uint8_t bad[] = {0};
    check(mehkura_reach(bad, sizeof bad, cells.data(), cells.size()) == 7 && cells == before, "7 leaves the cells as they were");
    check(mehkura_reach(room.bytes.data(), room.used, cells.data(), cells.size() - 1) == 7 && cells == before, "297 cells are refused");
    check(mehkura_reach(room.bytes.data(), 0, cells.data(), cells.size()) == 0 && cells[9] == 1, "a run of no bytes keeps the list");
    std::puts("reach: R2, R3, R4 and P0 for R4");
}

// All samples as one run: starts that agree on what reach lists agree at the end on the asked cell, and cells that no strip stores stay.
void one_room(const std::string &samples) {
    Room room(4096);
    for (const char *name : {"count", "conditions", "two_records"}) add_work(room, samples + "/" + name + ".bin");
    const size_t asked = 2;
    Cells cells{};
    cells[asked] = 1;
    check(mehkura_reach(room.bytes.data(), room.used, cells.data(), cells.size()) == MEHKURA_ACCEPTED, "reach answers for all samples");
    // R2 is packed with the flags of R0 + R1, where both have been counted up before; no flag or predicate of the start matters
    check(listed(cells) == std::vector<size_t>{0, 1, 2}, "R0, R1 and R2 can matter to R2");
    for (uint32_t seed = 1; seed <= 200; ++seed) {
        State a, b;
        for (size_t i = 0; i < MEHKURA_REGISTERS; ++i) {
            a.registers[i] = static_cast<uint32_t>(0x9e3779b9u * (i + 1) * seed);
            b.registers[i] = cells[i] ? a.registers[i] : ~a.registers[i];
        }
        for (size_t i = 0; i < MEHKURA_TRUTHS; ++i) {
            a.truths[i] = (seed >> (i % 8)) & 1;
            b.truths[i] = cells[MEHKURA_CELL_PREDICATE + i] ? a.truths[i] : !a.truths[i];
        }
        const State start = a;
        check(a.run(room) == MEHKURA_ACCEPTED && b.run(room) == MEHKURA_ACCEPTED, "both starts are evaluated");
        check(a.registers[asked] == b.registers[asked], "both ends agree on the asked cell");
        for (size_t i = 0; i < MEHKURA_REGISTERS; ++i)
            if (i > 2 && i != 5) check(a.registers[i] == start.registers[i], "a register that no strip stores stays");
        for (size_t i = 0; i < 7; ++i) check(a.truths[i] == start.truths[i], "a predicate that no strip stores stays");
    }
    std::puts("one room: all samples as one run, 200 pairs of starts");
}

// The translation is refused, and everything is as it was after it.
void refuses(const Bytes &r, size_t marks_len, size_t room_len, uint32_t number, const std::string &what) {
    std::vector<uint8_t> marks(marks_len, 0x11), room(room_len, unused);
    const auto marks_before = marks, room_before = room;
    size_t written = 77;
    check(mehkura_translate(start(r), r.size(), start(marks), marks.size(), start(room), room.size(), &written) == number, what);
    check(written == 77 && marks == marks_before && room == room_before, what + ": all as it was");
}

// Every refusal of the translation.
void translations() {
    const Bytes good = record(2, 2, 0, 0x0001234567870005);
    for (size_t n : {0, 1, 17, 19}) {
        Bytes r = good;
        r.resize(n);
        refuses(r, 128, 256, 1, "1 for a record of " + std::to_string(n) + " bytes");
    }
    for (size_t n : {0, 127, 129}) refuses(good, n, 256, 1, "1 for marks of " + std::to_string(n) + " bytes");
    for (uint8_t kind : {0, 31, 255}) refuses(record(kind, 9, 0, 0), 128, 256, 2, "2 for kind " + std::to_string(kind));
    refuses(record(1, 3, 0xf0c8000000000000, 0), 128, 256, 3, "3 for form 3, before 4");
    refuses(record(1, 0, 0xf0c8000000000000, 0), 128, 0, 4, "4 for mov of a system value, before 6");
    refuses(record(24, 0, 0, 1ull << 10 | 3ull << 41), 128, 256, 5, "5 for a half from byte 3 on");

    Room exact(10);
    check(exact.add(good) == 0 && exact.used == 10, "a room exactly full");
    refuses(good, 128, 9, 6, "6 for a room one byte short");
    refuses(good, 128, 0, 6, "6 for no room");

    // a constant raises its slot's mark, little-endian, and no other
    Room room(256);
    check(room.add(record(1, 1, 0, guard(7) | rd(0) | 3ull << 20 | 2ull << 34)) == 0, "mov of a constant");
    Marks marks{};
    marks[8] = 16;
    check(room.marks == marks, "word 3 of slot 2 needs 16 bytes");
    std::puts("translations: refusals 1 to 6, a room exactly full");
}

// Dead words: under predicate 7 negated the two words are accepted, and the strip is the end alone. Under other guards they are refused.
void dead_words(const std::string &samples) {
    const Bytes end{0xff};
    for (uint8_t form : {0, 1, 2})
        for (const Bytes &r : {system_value_mov(15, 1, form), half_at_byte_3(15, 24, form)}) {
            Bytes marks(MEHKURA_MARKS, 0x11), room(5, unused);
            const Bytes before = marks;
            size_t written = 77;
            check(mehkura_translate(r.data(), r.size(), marks.data(), marks.size(), room.data(), room.size(), &written) == 0,
                  "a dead word is accepted");
            check(written == 1 && room == joined(end, Bytes(4, unused)) && marks == before, "its strip is the end alone, all else is as it was");
            Room exact(1);
            check(exact.add(r) == 0 && exact.run() == end, "a room of one byte is enough");
            // form 1 names a constant
            check(exact.marks == Marks{}, "no mark is raised");
            refuses(r, 128, 0, 6, "6 for a dead word and no room");
            refuses(r, 127, 5, 1, "1 for a dead word and marks of 127 bytes");
            refuses(Bytes(r.begin(), r.end() - 1), 128, 5, 1, "1 for a dead word of 17 bytes");
        }
    // always, P0, P0 negated (bit 19 alone) and P6 negated may run
    for (uint64_t g : {7, 0, 8, 14})
        for (size_t room_len : {0, 256}) {
            refuses(system_value_mov(g), 128, room_len, 4, "4 under guard " + std::to_string(g));
            refuses(half_at_byte_3(g), 128, room_len, 5, "5 under guard " + std::to_string(g));
        }
    // no kind and no form are refused under the guard that never runs too
    for (uint8_t kind : {0, 31, 255})
        for (const Bytes &r : {system_value_mov(15, kind), half_at_byte_3(15, kind, 3)}) refuses(r, 128, 256, 2, "2 under the guard that never runs");
    for (uint8_t form : {3, 255})
        for (const Bytes &r : {system_value_mov(15, 1, form), half_at_byte_3(15, 24, form)})
            refuses(r, 128, 256, 3, "3 under the guard that never runs");

    // R1 = R2 + R3; @P0 mov R4, R1: with dead words that name R1 before, between and after, the list and the end are the same
    const Bytes works[] = {record(9, 0, 0, guard(7) | rd(1) | ra(2) | rb(3)), record(1, 0, 0, guard(0) | rd(4) | rb(1))};
    Room with(512), without(512);
    for (const Bytes &r : works) {
        check(with.add(system_value_mov(15)) == 0 && with.add(half_at_byte_3(15)) == 0 && with.add(r) == 0, "dead words among others are accepted");
        check(without.add(r) == 0, "the same without them");
    }
    check(with.add(half_at_byte_3(15)) == 0 && with.used == without.used + 5 && with.marks == without.marks, "a byte for each dead word, no mark");
    for (size_t asked = 0; asked < MEHKURA_CELLS; ++asked) {
        Cells a{}, b{};
        a[asked] = b[asked] = 1;
        check(mehkura_reach(with.bytes.data(), with.used, a.data(), a.size()) == 0, "reach answers with dead words");
        check(mehkura_reach(without.bytes.data(), without.used, b.data(), b.size()) == 0 && a == b, "the same list as without them");
    }
    for (uint8_t truth : {0, 1}) {
        State a;
        for (size_t i = 0; i < MEHKURA_REGISTERS; ++i) a.registers[i] = static_cast<uint32_t>(0x9e3779b9u * (i + 1));
        a.truths.fill(truth);
        State b = a;
        check(a.run(with) == 0 && b.run(without) == 0 && a == b, "the same end as without them");
    }

    // the sample: two dead words, and the same two refused
    const Bytes padding = file(samples + "/padding.bin");
    const uint32_t numbers[] = {0, 0, 4, 5};
    check(padding.size() == 4 * MEHKURA_RECORD, "the padding has four records");
    Room room(64);
    for (size_t i = 0; i < 4; ++i) {
        const auto from = padding.begin() + static_cast<long>(i * MEHKURA_RECORD);
        check(room.add(Bytes(from, from + MEHKURA_RECORD)) == numbers[i], "the padding's number " + std::to_string(i));
    }
    check(room.run() == joined(end, end) && room.marks == Marks{}, "the padding is two ends and raises no mark");
    check(std::all_of(room.bytes.begin() + 2, room.bytes.end(), [](uint8_t byte) { return byte == unused; }), "the room after them is as it was");
    State s;
    for (size_t i = 0; i < MEHKURA_REGISTERS; ++i) s.registers[i] = static_cast<uint32_t>(0x9e3779b9u * (i + 1));
    for (size_t i = 0; i < MEHKURA_TRUTHS; ++i) s.truths[i] = i % 2;
    const State before = s;
    check(s.run(room, {}) == 0 && s == before, "the padding leaves the state and needs no constant");
    std::puts("dead words: accepted under predicate 7 negated, refused with 4 and 5 under the others");
}

// A strip with an address: slot, zero, vec and comp.
Bytes address(uint8_t slot, uint32_t zero, uint32_t vec, uint32_t comp) {
    Bytes strip{10, slot};
    for (uint32_t n : {zero, vec, comp}) {
        strip.push_back(1);
        for (int i = 0; i < 4; ++i) strip.push_back(static_cast<uint8_t>(n >> (8 * i)));
    }
    for (uint8_t byte : {11, 0, 0, 1, 0, 2, 0, 3, 0, 255}) strip.push_back(byte);
    return strip;
}

// Numbers that name no layout.
constexpr uint32_t no_layouts[] = {2, 3, 255, 256, 257, 0xffffffff};

// Every refusal of the evaluation, with the state as it was after it; 9 alone says where.
void evaluations() {
    const Fault none;
    auto refuses = [](const Bytes &run, size_t registers, size_t truths, const std::vector<uint32_t> &constants, uint32_t number, const Fault &fault,
                      const std::string &what, uint32_t layout = MEHKURA_WIDE) {
        std::vector<uint32_t> r(registers, 0x5a5a5a5a);
        std::vector<uint8_t> t(truths, 9);
        const auto r_before = r;
        const auto t_before = t;
        Fault told;
        check(mehkura_evaluate(start(run), run.size(), layout, r.data(), r.size(), t.data(), t.size(), constants.data(), constants.size(), &told.slot,
                               &told.vec, &told.comp) == number,
              what);
        check(r == r_before && t == t_before, what + ": the state as it was");
        check(told == fault, what + ": " + told.text());
    };
    const Bytes end{0xff};
    refuses({0}, 255, 11, {0}, 7, none, "7 for a run that is not well-formed");
    refuses(end, 254, 11, {0}, 7, none, "7 for 254 registers");
    refuses(end, 255, 12, {0}, 7, none, "7 for 12 truths");
    for (uint32_t layout : no_layouts) {
        refuses(end, 255, 11, {0}, 7, none, "7 for a layout that is none", layout);
        refuses({}, 255, 11, {0}, 7, none, "7 for a layout that is none, and a run of no bytes", layout);
    }
    // a store, then a word shifted by 32 that reaches a store
    const Bytes undefined{1, 32, 0, 0, 0, 7, 0, 0, 0, 43, 0, 0, 0, 0, 7, 1, 1, 0, 0xff};
    refuses(undefined, 255, 11, {0}, 8, none, "8 for an undefined value");

    // mov R0, word 70 of slot 3: vec 17, comp 2
    Room room(256);
    check(room.add(record(1, 1, 0, guard(7) | rd(0) | 70ull << 20 | 3ull << 34)) == 0, "mov of a constant");
    const Bytes run = room.run();
    const Fault word{3, 17, 2};
    refuses(run, 255, 11, std::vector<uint32_t>(3 * 16384 + 70), 9, word, "9 for a constant that is not lent");
    std::vector<uint32_t> lent(3 * 16384 + 71);
    lent.back() = 4;
    State s;
    check(s.run(room, lent) == 0 && s.registers[0] == 4 && s.fault == none, "the constant is lent");

    // each cause, the numbers as they reached the address
    for (uint32_t zero : {1u, 0x80000000u}) refuses(address(3, zero, 17, 2), 255, 11, lent, 9, word, "9 for a zero that is not 0");
    for (uint32_t vec : {4096u, 0x80000000u, 0xffffffffu}) refuses(address(31, 0, vec, 2), 255, 11, lent, 9, {31, vec, 2}, "9 for a vec above 4095");
    for (uint32_t comp : {4u, 0x80000000u, 0xffffffffu}) refuses(address(0, 0, 0, comp), 255, 11, lent, 9, {0, 0, comp}, "9 for a comp above 3");
    // the first one counts; 8 before it, or a bad shape anywhere, leaves the numbers
    refuses(joined(run, address(5, 0, 6, 1)), 255, 11, {0}, 9, word, "9 twice");
    refuses(joined(address(5, 0, 6, 1), run), 255, 11, {0}, 9, {5, 6, 1}, "9 twice, the other first");
    refuses(joined(run, undefined), 255, 11, {0}, 9, word, "9, then 8");
    refuses(joined(undefined, run), 255, 11, {0}, 8, none, "8, then 9");
    refuses(joined(run, {0}), 255, 11, {0}, 7, none, "9, then bytes that are no strip");

    // under a guard that does not hold nothing is asked for
    Room guarded(256);
    check(guarded.add(record(1, 1, 0, guard(0) | rd(0) | 70ull << 20 | 3ull << 34)) == 0, "a guarded mov of a constant");
    State skips;
    check(skips.run(guarded) == 0 && skips.fault == none, "a skipped block asks for nothing");

    State asks;
    check(asks.run(room) == 9, "the constant is not lent");
    std::printf("evaluations: refusals 7, 8 and 9: %s\n", asks.fault.text().c_str());
    check(asks.fault.text() == "slot 3, vec 17, comp 2 is not lent", "the fault in words");
}

// A run in the other layout, in a room that it fills exactly.
Bytes converted(const Bytes &run, uint32_t layout) {
    // no run becomes more than twice as long
    Bytes room(2 * run.size() + 1, unused);
    size_t written = 77;
    check(mehkura_convert(start(run), run.size(), layout, room.data(), room.size(), &written) == 0, "a run is converted");
    check(written <= room.size(), "the length is one that the room has");
    for (size_t i = written; i < room.size(); ++i) check(room[i] == unused, "the room after the run is as it was");
    Bytes exact(written, unused);
    size_t again = 77;
    check(mehkura_convert(start(run), run.size(), layout, start(exact), exact.size(), &again) == 0 && again == written, "a room exactly full");
    room.resize(written);
    check(exact == room, "the same bytes in both rooms");
    return exact;
}

// The conversion is refused, and everything is as it was after it.
void unconverted(const Bytes &run, uint32_t layout, size_t room_len, uint32_t number, const std::string &what) {
    Bytes room(room_len, unused);
    const Bytes before = room;
    size_t written = 77;
    check(mehkura_convert(start(run), run.size(), layout, start(room), room.size(), &written) == number, what);
    check(written == 77 && room == before, what + ": all as it was");
}

// What a file holds to which the bytes were written. The file is gone after that.
Bytes shelved(const Bytes &bytes) {
    std::FILE *shelf = std::tmpfile();
    check(shelf != nullptr, "there is a file for the shelf copy");
    check(std::fwrite(start(bytes), 1, bytes.size(), shelf) == bytes.size(), "the shelf copy can be written");
    std::rewind(shelf);
    Bytes kept(bytes.size() + 1);
    kept.resize(std::fread(kept.data(), 1, kept.size(), shelf));
    std::fclose(shelf);
    return kept;
}

constexpr const char *sample_names[] = {"count", "conditions", "constants", "two_records"};

// Each sample on the shelf: its run is kept in the narrow layout, read back, and evaluates as the wide one does.
void shelf(const std::string &samples) {
    size_t wide = 0, narrow = 0;
    for (const char *name : sample_names) {
        const Bytes run = work(samples + "/" + name + ".bin").run();
        const Bytes kept = shelved(converted(run, MEHKURA_WIDE));
        check(kept.size() < run.size(), "the shelf copy is shorter");
        check(mehkura_shape(start(run), run.size(), MEHKURA_WIDE) == 0 && mehkura_shape(start(kept), kept.size(), MEHKURA_NARROW) == 0,
              "each is well-formed in its layout");
        check(mehkura_shape(start(run), run.size(), MEHKURA_NARROW) == 7 && mehkura_shape(start(kept), kept.size(), MEHKURA_WIDE) == 7,
              "neither is well-formed in the other one");
        check(converted(kept, MEHKURA_NARROW) == run, "converted back it is the same bytes");
        for (const auto &constants : {std::vector<uint32_t>{0}, std::vector<uint32_t>(32 * 16384, 5)}) {
            State a;
            for (size_t i = 0; i < MEHKURA_REGISTERS; ++i) a.registers[i] = static_cast<uint32_t>(0x9e3779b9u * (i + 1));
            for (size_t i = 0; i < MEHKURA_TRUTHS; ++i) a.truths[i] = i % 2;
            State b = a;
            check(a.run(run, MEHKURA_WIDE, constants) == b.run(kept, MEHKURA_NARROW, constants) && a == b, "both evaluate alike");
        }
        for (size_t room : {size_t(0), kept.size() - 1}) unconverted(run, MEHKURA_WIDE, room, 6, "6 for a room that is too short for the shelf copy");
        for (size_t room : {size_t(0), run.size() - 1}) unconverted(kept, MEHKURA_NARROW, room, 6, "6 for a room that is too short for the run");
        wide += run.size();
        narrow += kept.size();
    }
    std::printf("shelf: the samples in %zu bytes instead of %zu\n", narrow, wide);
}

// Every refusal of the conversion, 7 before 6, and of the shape test.
void conversions() {
    auto refuses = [](const Bytes &run, uint32_t layout, const std::string &what) {
        check(mehkura_shape(start(run), run.size(), layout) == 7, what);
        for (size_t room : {0, 1, 64}) unconverted(run, layout, room, 7, what);
    };
    // true, stored to predicate 0: the reference is 0
    const Bytes wide{2, 8, 0, 0, 0, 0xff}, narrow{2, 8, 0, 0, 0xff};
    check(converted(wide, MEHKURA_WIDE) == narrow && converted(narrow, MEHKURA_NARROW) == wide, "a reference of two bytes, and of one");
    refuses({2, 8, 0, 0, 1, 0xff}, MEHKURA_WIDE, "7 for a reference of 0x0100, which is not 0");
    for (uint8_t reference : {1, 63, 64, 255}) refuses({2, 8, 0, reference, 0xff}, MEHKURA_NARROW, "7 for a reference to no value");
    refuses(wide, MEHKURA_NARROW, "7 for a wide run as a narrow one");
    refuses(narrow, MEHKURA_WIDE, "7 for a narrow run as a wide one");
    refuses(joined(wide, {0}), MEHKURA_WIDE, "7 for bytes after the run");
    for (uint32_t layout : no_layouts) {
        refuses(wide, layout, "7 for a layout that is none");
        refuses({}, layout, "7 for a layout that is none, and a run of no bytes");
    }
    for (uint32_t layout : {MEHKURA_WIDE, MEHKURA_NARROW}) check(converted({}, layout).empty(), "a run of no bytes stays one");

    // eight loads, then bytes that are one thing wide and another narrow: R40 = R0 + R7, or R0 = R7
    Bytes both;
    for (uint8_t i = 0; i < 8; ++i) both.insert(both.end(), {4, i});
    both.insert(both.end(), {40, 0, 0, 7, 0, 7, 40, 8, 0, 0xff});
    for (uint32_t layout : {MEHKURA_WIDE, MEHKURA_NARROW}) {
        State s, end;
        s.registers[0] = 256;
        s.registers[7] = 32;
        end = s;
        end.registers[layout == MEHKURA_WIDE ? 40 : 0] = layout == MEHKURA_WIDE ? 288 : 32;
        check(s.run(both, layout, {0}) == 0 && s == end, "the layout says what the bytes mean");
    }
    std::puts("conversions: refusals 7 and 6, bytes that mean two things");
}

// A shape test block by block, and what was passed and has ended in all.
struct Test {
    Bytes state;
    size_t passed = 0, strips = 0;

    explicit Test(uint32_t layout) : state(MEHKURA_SHAPE_STATE, unused) {
        check(mehkura_shape_begin(state.data(), state.size(), layout) == 0, "a test begins");
    }

    uint32_t add(const Bytes &block) {
        size_t bytes = 77, ends = 77;
        uint32_t number = mehkura_shape_block(state.data(), state.size(), start(block), block.size(), &bytes, &ends);
        passed += bytes;
        strips += ends;
        return number;
    }

    // Hands over bytes in blocks of so many, each a list of its own; the last number. Nothing is passed after a refusal.
    uint32_t add(const Bytes &bytes, size_t size) {
        uint32_t number = 0;
        for (size_t at = 0; at < bytes.size(); at += size) {
            const Test before = *this;
            const auto from = bytes.begin() + static_cast<long>(at);
            const uint32_t next = add(Bytes(from, from + static_cast<long>(std::min(size, bytes.size() - at))));
            if (number)
                check(next == 7 && passed == before.passed && strips == before.strips && state == before.state, "a refused test stays refused");
            number = next;
        }
        return number;
    }

    uint32_t end() const { return mehkura_shape_end(state.data(), state.size()); }
};

// The sizes of blocks: entries are cut, strips are cut, nothing is cut.
constexpr size_t block_sizes[] = {1, 7, 4096};

// A run in blocks: it is refused at this byte, and is no run for mehkura_shape either.
void refused_at(const Bytes &run, uint32_t layout, size_t byte, const std::string &what) {
    check(mehkura_shape(start(run), run.size(), layout) == 7, what);
    for (size_t size : block_sizes) {
        Test test(layout);
        check(test.add(run, size) == 7 && test.passed == byte, what + ": the byte where the entry starts");
        const Test before = test;
        check(test.add({0xff}) == 7 && test.add({}) == 7 && test.passed == byte && test.state == before.state, what + ": it stays refused");
        check(test.end() == 7, what + ": no run at the end");
    }
}

// A run, which has so many strips, in blocks of each size, and cut everywhere.
void in_blocks(const Bytes &run, uint32_t layout, size_t strips) {
    Test whole(layout);
    check(whole.add(run) == 0, "a run in one block");
    for (size_t size : block_sizes) {
        Test test(layout);
        check(test.add(run, size) == 0 && test.end() == mehkura_shape(start(run), run.size(), layout), "block by block as at once");
        check(test.passed == run.size() && test.strips == strips, "all is passed, with a strip for each record");
        check(test.state == whole.state, "the same state however the run is cut");
    }
    for (size_t n = 0; n <= run.size(); ++n) {
        const auto middle = run.begin() + static_cast<long>(n);
        const Bytes first(run.begin(), middle), second(middle, run.end());
        Test test(layout);
        check(test.add(first) == 0 && test.end() == mehkura_shape(start(first), n, layout), "the first bytes, block by block as at once");
        check(test.passed <= n && n <= test.passed + 8, "an entry that is cut is not passed");
        // the state may be kept
        Test kept = test;
        check(test.add({}) == 0 && test.state == kept.state, "a block of no bytes changes nothing");
        check(kept.add(second) == 0 && kept.end() == 0 && kept.passed == run.size() && kept.strips == strips, "and the bytes after them");
        check(kept.state == whole.state, "the same state wherever the run is cut");
    }
}

// The shape test block by block: each sample in both layouts, and every refusal.
void blocks(const std::string &samples) {
    // true, stored to predicate 0: an entry of one byte, one of four or three, the end
    const Bytes wide{2, 8, 0, 0, 0, 0xff}, narrow{2, 8, 0, 0, 0xff};
    for (const char *name : sample_names) {
        const std::string path = samples + "/" + name + ".bin";
        const Bytes run = work(path).run(), kept = converted(run, MEHKURA_WIDE);
        const size_t strips = file(path).size() / MEHKURA_RECORD;
        in_blocks(run, MEHKURA_WIDE, strips);
        in_blocks(kept, MEHKURA_NARROW, strips);
        // a bad entry in the middle: register 255, an unknown kind, a narrow store in a wide run, and the other way round
        refused_at(joined(joined(run, {2, 4, 255, 0xff}), run), MEHKURA_WIDE, run.size() + 1, "7 for a register that is none");
        refused_at(joined(joined(kept, {0}), kept), MEHKURA_NARROW, kept.size(), "7 for an unknown kind");
        refused_at(joined(joined(run, narrow), run), MEHKURA_WIDE, run.size() + 1, "7 for a narrow strip in a wide run");
        refused_at(joined(joined(kept, wide), kept), MEHKURA_NARROW, kept.size() + 4, "7 for a wide strip in a narrow run");
        // an entry that is cut, and a strip with no end: nothing is refused before the end
        for (size_t n = 1; n < wide.size(); ++n) {
            Test test(MEHKURA_WIDE);
            const Bytes cut = joined(run, Bytes(wide.begin(), wide.begin() + static_cast<long>(n)));
            check(test.add(cut, 7) == 0 && test.end() == 7, "7 at the end of a run that is cut");
            check(test.passed == run.size() + (n < 5 ? 1 : 5) && test.strips == strips, "passed up to the entry that is cut");
        }
    }

    // an entry is refused when it is whole, though its predicate 7 is none
    Test late(MEHKURA_WIDE);
    check(late.add({2, 8, 7, 0}) == 0 && late.passed == 1 && late.add({0, 0xff}) == 7 && late.passed == 1, "7 when the entry is whole");

    // a layout that is none, a state of another length: all as it was
    for (uint32_t layout : no_layouts) {
        Bytes state(MEHKURA_SHAPE_STATE, unused);
        const Bytes before = state;
        check(mehkura_shape_begin(state.data(), state.size(), layout) == 7 && state == before, "7 for a layout that is none");
    }
    for (size_t n : {0, 1, 44, 46, 90}) {
        Bytes state(n, unused);
        const Bytes before = state;
        size_t passed = 77, strips = 77;
        check(mehkura_shape_begin(start(state), n, MEHKURA_WIDE) == 7, "7 for a state of another length");
        check(mehkura_shape_block(start(state), n, wide.data(), wide.size(), &passed, &strips) == 7, "7 for a block with it");
        check(mehkura_shape_end(start(state), n) == 7, "7 for its end");
        check(state == before && passed == 77 && strips == 77, "all as it was");
    }
    // bytes that do not fit together as a state
    for (uint8_t byte : {unused, uint8_t(0xff)}) {
        Test test(MEHKURA_WIDE);
        test.state.assign(MEHKURA_SHAPE_STATE, byte);
        check(test.end() == 7 && test.add(wide) == 7 && test.passed == 0 && test.strips == 0 && test.end() == 7, "7 for a state that is none");
    }
    std::puts("blocks: the samples in blocks of 1, 7 and 4096 bytes in both layouts, refusal 7 at its byte");
}

// The ids of a caller: 100 and the place for each, new ones from 1000 on.
constexpr uint32_t u32 = 100, i32 = 101, truth_type = 102, pointer = 103, glsl = 104, bound = 1000, guard_word = 0xa5a5a5a5;
constexpr uint32_t reg(uint32_t n) { return 100 + MEHKURA_ID_REGISTER + n; }
constexpr uint32_t pred(uint32_t n) { return 100 + MEHKURA_ID_PREDICATE + n; }
constexpr uint32_t flag(uint32_t n) { return 100 + MEHKURA_ID_FLAG + n; }
constexpr uint32_t slot(uint32_t n) { return 100 + MEHKURA_ID_SLOT + n; }

Words lent_ids() {
    Words ids(MEHKURA_TABLE);
    for (size_t i = 0; i < ids.size(); ++i) ids[i] = static_cast<uint32_t>(100 + i);
    return ids;
}

// What is handed back with words.
struct Told {
    size_t written = 77, constants = 77;
    uint32_t next = 77;

    bool operator==(const Told &other) const { return written == other.written && constants == other.constants && next == other.next; }
};

// Writes a strip into a room of so many words, which lies between guard words. The guards are as they were, and so is all after a refusal.
uint32_t write_words(const Bytes &strip, uint32_t from, const Words &table, size_t room_len, Words &words, Told &told) {
    constexpr size_t margin = 16;
    Words room(margin + room_len + margin, guard_word);
    const Words table_before = table;
    const Told told_before = told;
    uint32_t number = mehkura_to_spirv(start(strip), strip.size(), from, start(table), table.size(), room.data() + margin, room_len, &told.written,
                                       &told.constants, &told.next);
    const size_t used = number ? 0 : told.written;
    check(number == 0 || told == told_before, "a refusal leaves the three numbers");
    check(used <= room_len, "the words are no more than the room holds");
    check(std::count(room.begin(), room.begin() + margin, guard_word) == margin, "nothing is written before the room");
    const auto after = room.begin() + static_cast<long>(margin + used);
    check(std::all_of(after, room.end(), [](uint32_t word) { return word == guard_word; }), "the room after the words is as it was");
    check(table == table_before, "the table is as it was");
    words.assign(room.begin() + margin, after);
    return number;
}

// A strip becomes these words, so many of them constants, in rooms of every length that is enough; the rooms that are not get 11.
void becomes(const Bytes &strip, const Words &right, size_t constants, uint32_t next, const std::string &what) {
    for (size_t more : {0, 1, 7, 500}) {
        Words words;
        Told told;
        check(write_words(strip, bound, lent_ids(), right.size() + more, words, told) == 0, what + " is written");
        check(words == right, what + ": its words");
        check(told == Told{right.size(), constants, next}, what + ": what is handed back");
    }
    for (size_t n = 0; n < right.size(); ++n) {
        Words words;
        Told told;
        check(write_words(strip, bound, lent_ids(), n, words, told) == 11, what + ": 11 for " + std::to_string(n) + " words");
    }
}

// The strip is refused with the number, whatever the room is.
void unwritten(const Bytes &strip, uint32_t from, const Words &table, uint32_t number, const std::string &what) {
    for (size_t room : {0, 1, 448}) {
        Words words;
        Told told;
        check(write_words(strip, from, table, room, words, told) == number, what);
    }
}

// SPIR-V words: each sample's strips one after another, words spelled out, every refusal in its order.
void words(const std::string &samples) {
    // @P1 R2 = cast_u(cast_i(R3) >> 5): a load, open, load, constant, casts that change the sign and one that does not, a shift, a store
    const Bytes shift{5, 1, 100, 0, 0, 4, 3, 1, 5, 0, 0, 0, 23, 1, 0, 23, 3, 0, 45, 4, 0, 2, 0, 24, 5, 0, 7, 2, 6, 0, 101, 0xff};
    becomes(shift,
            {0x0004002b, u32, 1000, 5,                  // OpConstant
             0x0004003d, truth_type, 1001, pred(1),     // OpLoad
             0x000300f7, 1003, 0,                       // OpSelectionMerge: the merge has the later id
             0x000400fa, 1001, 1002, 1003,              // OpBranchConditional
             0x000200f8, 1002,                          // OpLabel
             0x0004003d, u32, 1004, reg(3),             // OpLoad
             0x0004007c, i32, 1005, 1004,               // OpBitcast
             0x000500c3, i32, 1006, 1005, 1000,         // OpShiftRightArithmetic
             0x0004007c, u32, 1007, 1006,               // OpBitcast
             0x0003003e, reg(2), 1007,                  // OpStore
             0x000200f9, 1003,                          // OpBranch
             0x000200f8, 1003},                         // OpLabel
            4, 1008, "a guarded shift");
    // constants again, a note, an address with a cast of its zero that leaves no word, a minimum by GLSL.std.450, a flag
    const Bytes constants{3, 1, 0, 0, 0, 0, 2, 3, 110, 4, 1, 0, 0, 0, 0, 24, 4, 0, 10, 9, 11, 6, 0, 5, 0, 1, 0, 4, 0, 12, 7, 0,
                          49, 8, 0, 1, 0, 7, 254, 9, 0, 9, 3, 3, 0, 0xff};
    becomes(constants,
            {0x0003002a, truth_type, 1000,                          // OpConstantFalse
             0x0004002b, u32, 1001, 0,                              // OpConstant
             0x00030029, truth_type, 1002,                          // OpConstantTrue
             0x00070041, pointer, 1003, slot(9), 1001, 1001, 1001,  // OpAccessChain
             0x0004003d, u32, 1004, 1003,                           // OpLoad
             0x0007000c, u32, 1005, glsl, 38, 1004, 1001,           // OpExtInst UMin
             0x0003003e, reg(254), 1005,                            // OpStore
             0x0003003e, flag(3), 1000},                            // OpStore
            10, 1006, "constants and an address");
    // the sign goes on through a select, whose first word is its second operand, and through an insert
    const Bytes goes_on{5, 6, 4, 0, 23, 1, 0, 90, 0, 0, 2, 0, 2, 0, 93, 3, 0, 2, 0, 1, 0, 1, 0, 24, 4, 0, 7, 1, 5, 0, 0xff};
    becomes(goes_on,
            {0x0004003d, truth_type, 1000, pred(6),             // OpLoad
             0x0004003d, u32, 1001, reg(0),                     // OpLoad
             0x0004007c, i32, 1002, 1001,                       // OpBitcast
             0x000600a9, i32, 1003, 1000, 1002, 1002,           // OpSelect
             0x000700c9, i32, 1004, 1003, 1002, 1001, 1001,     // OpBitFieldInsert
             0x0004007c, u32, 1005, 1004,                       // OpBitcast
             0x0003003e, reg(1), 1005},                         // OpStore
            0, 1006, "a signed select");
    becomes({0xff}, {}, 0, bound, "the end alone");
    becomes({10, 0, 110, 1, 10, 31, 0xff}, {}, 0, bound, "slots and a note");

    // each record's strip, from the bound that the last one left: the words are whole instructions, and name the ids from the bound on once each
    size_t strips = 0, all = 0;
    uint32_t next = bound;
    for (const char *name : {"count", "conditions", "constants", "two_records", "padding"}) {
        const Bytes records = file(samples + "/" + name + ".bin");
        for (auto at = records.begin(); at != records.end(); at += MEHKURA_RECORD) {
            Room room(MEHKURA_ANY_STRIP);
            if (room.add(Bytes(at, at + MEHKURA_RECORD)) != 0) continue;
            Words list, exact;
            Told told, again;
            check(write_words(room.run(), next, lent_ids(), MEHKURA_ANY_WORDS, list, told) == 0, "a sample's strip is written");
            check(write_words(room.run(), next, lent_ids(), list.size(), exact, again) == 0 && exact == list && again == told, "a room exactly full");
            check(told.constants <= told.written && told.next >= next, "the numbers fit together");
            if (!list.empty()) unwritten(room.run(), MEHKURA_MAX_ID + 2 - (told.next - next), lent_ids(), 10, "10 for one id too many");
            std::vector<uint32_t> made;
            size_t word = 0;
            bool whole = false;
            while (word < list.size()) {
                whole = whole || word == told.constants;
                const uint32_t opcode = list[word] & 0xffff, length = list[word] >> 16;
                check(length > 0 && word + length <= list.size(), "whole instructions");
                check((opcode >= 41 && opcode <= 43) == (word < told.constants), "the constants stand first");
                if (opcode == 247) made.insert(made.end(), {list[word + 1] - 1, list[word + 1]});
                else if (opcode != 62 && opcode < 247) made.push_back(list[word + 2]);
                word += length;
            }
            check(whole || word == told.constants, "the constants are whole instructions");
            for (size_t i = 0; i < made.size(); ++i) check(made[i] == next + i, "ids rise by one");
            check(told.next == next + made.size(), "the next id is the first that is free");
            next = told.next;
            ++strips;
            all += list.size();
        }
    }
    check(strips == 10, "the samples have ten strips");

    // 7 comes first: no strip, several, a bad one, a narrow one
    const Words none, ids = lent_ids(), zeros(MEHKURA_TABLE);
    const Bytes signed_store{4, 0, 23, 0, 0, 7, 0, 1, 0, 0xff};
    const Bytes bad_strips[] = {{}, {0xff, 0xff}, joined(shift, shift), joined(signed_store, {0}), {0}, {2}, {4, 0, 7, 0, 0, 0xff}};
    for (const Bytes &bad : bad_strips)
        for (const Words &table : {ids, none, zeros})
            for (uint32_t from : {bound, 0u, 0xffffffffu}) unwritten(bad, from, table, 7, "7 for what is not one strip");
    // then 17: signs that differ, a signed store, odd zeros, before the table is looked at
    const Bytes odd[] = {
        signed_store,
        {4, 0, 23, 0, 0, 20, 1, 0, 7, 0, 2, 0, 0xff},
        {2, 4, 0, 23, 1, 0, 90, 0, 0, 1, 0, 2, 0, 0xff},
        {2, 4, 0, 23, 1, 0, 100, 0, 0, 90, 0, 0, 2, 0, 1, 0, 101, 0xff},
        {4, 0, 23, 0, 0, 93, 0, 0, 1, 0, 0, 0, 0, 0, 0xff},
        {4, 0, 23, 0, 0, 93, 1, 0, 0, 0, 0, 0, 0, 0, 0xff},
        address(3, 1, 0, 0),
        // the zero is a register, with and without a constant 0; the constant 0 as a signed word, and back from it
        {4, 0, 10, 0, 11, 1, 0, 0, 0, 0, 0, 0, 0, 0xff},
        {4, 0, 1, 0, 0, 0, 0, 10, 0, 11, 2, 0, 0, 0, 1, 0, 1, 0, 0xff},
        {1, 0, 0, 0, 0, 23, 0, 0, 10, 0, 11, 2, 0, 1, 0, 0, 0, 0, 0, 0xff},
        {1, 0, 0, 0, 0, 23, 0, 0, 24, 1, 0, 10, 0, 11, 3, 0, 2, 0, 0, 0, 0, 0, 0xff},
    };
    for (const Bytes &strip : odd) {
        check(mehkura_shape(strip.data(), strip.size(), MEHKURA_WIDE) == 0, "a strip that is well-formed");
        for (const Words &table : {ids, none, zeros})
            for (uint32_t from : {bound, 0u, 0xffffffffu}) unwritten(strip, from, table, 17, "17 for what words cannot say");
    }
    // then 10: the table's length, each way in which an id can be wrong at each place, the bound
    auto with = [&](size_t place, uint32_t id) {
        Words table = ids;
        table[place] = id;
        return table;
    };
    for (size_t n : {0, 1, 302, 304, 305, 606}) {
        Words table = ids;
        for (uint32_t id = 500; table.size() < n; ++id) table.push_back(id);
        table.resize(n);
        unwritten(shift, bound, table, 10, "10 for a table of " + std::to_string(n) + " ids");
        unwritten({0xff}, bound, table, 10, "10 for a table of " + std::to_string(n) + " ids and no words");
    }
    for (size_t place = 0; place < MEHKURA_TABLE; ++place) {
        for (uint32_t id : {0u, bound, bound + 1, 0xffffffffu}) unwritten(shift, bound, with(place, id), 10, "10 for id " + std::to_string(id));
        for (size_t more : {1, 8, 150, 302})
            unwritten(shift, bound, with(place, ids[(place + more) % MEHKURA_TABLE]), 10, "10 for an id twice");
        Words list;
        Told told;
        check(write_words(shift, bound, with(place, 1), MEHKURA_ANY_WORDS, list, told) == 0, "an id of 1");
        check(write_words(shift, bound, with(place, bound - 1), MEHKURA_ANY_WORDS, list, told) == 0, "an id just below the bound");
        check(write_words({0xff}, 0xffffffff, with(place, MEHKURA_MAX_ID), 0, list, told) == 0, "an id at the limit");
        unwritten({0xff}, 0xffffffff, with(place, MEHKURA_MAX_ID + 1), 10, "10 for an id above the limit");
    }
    for (uint32_t from : {0u, 1u, 100u, 402u}) unwritten({0xff}, from, ids, 10, "10 for a bound that is not above the lent ids");
    // eight new ids; the bound is no id
    Words list;
    Told told;
    check(write_words(shift, 403, ids, MEHKURA_ANY_WORDS, list, told) == 0 && told.next == 411, "the bound next to the lent ids");
    check(write_words(shift, MEHKURA_MAX_ID - 7, ids, MEHKURA_ANY_WORDS, list, told) == 0 && told.next == MEHKURA_MAX_ID + 1, "the last at the limit");
    for (uint32_t from : {MEHKURA_MAX_ID - 6u, MEHKURA_MAX_ID + 1u, 0x80000000u, 0xfffffff8u, 0xfffffff9u, 0xffffffffu})
        unwritten(shift, from, ids, 10, "10 for new ids above the limit");
    for (uint32_t from : {403u, MEHKURA_MAX_ID + 1u, MEHKURA_MAX_ID + 2u, 0xffffffffu}) {
        Told left;
        check(write_words({0xff}, from, ids, 0, list, left) == 0 && left == Told{0, 0, from}, "without new ids any bound above the lent ones");
    }
    std::printf("words: %zu strips of the samples in %zu words, refusals 7, 17, 10 and 11\n", strips, all);
}

} // namespace

int main(int argc, char **argv) {
    const std::string samples = argc > 1 ? argv[1] : "samples";
    translations();
    dead_words(samples);
    evaluations();
    conversions();
    shelf(samples);
    blocks(samples);
    words(samples);
    one_room(samples);
    count(samples);
    conditions(samples);
    reach();
    std::printf("%d checks, all hold\n", checks);
}
