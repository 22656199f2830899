// What the two judges of SPIR-V words are given: strips of records, which the library translates, and strips that no record gives.
#ifndef MEHKURA_SPIRV_CASES_HPP
#define MEHKURA_SPIRV_CASES_HPP

#include "mehkura.h"

#include <array>
#include <cstdarg>
#include <cstdio>
#include <cstdlib>
#include <fstream>
#include <iterator>
#include <string>
#include <vector>

namespace judge {

using Bytes = std::vector<uint8_t>;

constexpr size_t kinds = 30, forms = 3;

// A strip with a name that finds it again.
struct Case {
    std::string name;
    Bytes strip;
};

[[noreturn]] inline void fail(const char *format, ...) {
    va_list rest;
    va_start(rest, format);
    std::vfprintf(stderr, format, rest);
    std::fputc('\n', stderr);
    std::exit(1);
}

inline Bytes file(const std::string &name) {
    std::ifstream in(name, std::ios::binary);
    if (!in.good()) fail("the file %s cannot be read", name.c_str());
    return Bytes(std::istreambuf_iterator<char>(in), {});
}

inline std::string hex(const Bytes &bytes) {
    std::string text;
    char digits[3];
    for (uint8_t byte : bytes) {
        std::snprintf(digits, sizeof digits, "%02x", unsigned(byte));
        text += digits;
    }
    return text;
}

// A record's strip; none where it is refused.
inline Bytes translated(const uint8_t *record) {
    uint8_t marks[MEHKURA_MARKS] = {}, strip[MEHKURA_ANY_STRIP];
    size_t length = 0;
    if (mehkura_translate(record, MEHKURA_RECORD, marks, sizeof marks, strip, sizeof strip, &length)) return {};
    return Bytes(strip, strip + length);
}

// The accepted records of a file.
inline std::vector<Case> records(const std::string &name) {
    const Bytes bytes = file(name);
    std::vector<Case> cases;
    for (size_t i = 0; (i + 1) * MEHKURA_RECORD <= bytes.size(); ++i) {
        Bytes strip = translated(bytes.data() + i * MEHKURA_RECORD);
        if (!strip.empty()) cases.push_back({name + " record " + std::to_string(i), std::move(strip)});
    }
    return cases;
}

// From a file of records at least so many, as many of each kind and form, those that never run left out.
inline std::vector<Case> balanced(const std::string &name, size_t count) {
    const Bytes bytes = file(name);
    const size_t each = (count + kinds * forms - 1) / (kinds * forms);
    std::array<std::array<size_t, forms>, kinds> taken{};
    std::vector<Case> cases;
    for (size_t at = 0; at + MEHKURA_RECORD <= bytes.size(); at += MEHKURA_RECORD) {
        const uint8_t *record = bytes.data() + at;
        if (record[0] < 1 || record[0] > kinds || record[1] >= forms) continue;
        size_t &so_far = taken[record[0] - 1][record[1]];
        if (so_far == each) continue;
        Bytes strip = translated(record);
        if (strip.size() < 2) continue;
        cases.push_back({"record " + hex(Bytes(record, record + MEHKURA_RECORD)), std::move(strip)});
        ++so_far;
    }
    for (const auto &row : taken)
        for (size_t got : row)
            if (got < each) fail("%s has too few records of a kind and form", name.c_str());
    return cases;
}

// Strips as `oracle spirv-strips` writes them: two bytes of length before each.
inline std::vector<Case> hand_made(const std::string &name) {
    const Bytes bytes = file(name);
    std::vector<Case> cases;
    for (size_t at = 0; at < bytes.size();) {
        const size_t length = at + 2 <= bytes.size() ? bytes[at] | bytes[at + 1] << 8 : 0;
        if (!length || at + 2 + length > bytes.size()) fail("%s is cut", name.c_str());
        const auto start = bytes.begin() + static_cast<std::ptrdiff_t>(at + 2);
        cases.push_back({"strip " + std::to_string(cases.size()), Bytes(start, start + static_cast<std::ptrdiff_t>(length))});
        at += 2 + length;
    }
    return cases;
}

} // namespace judge

#endif
