// Records of 18 bytes from standard input, a SPIR-V module of their strips to standard output: of all that are accepted, or of the one whose index is
// the argument. The command ./print-spirv runs it and says what its exit status is.
#include "spirv_module.hpp"

#include <algorithm>
#include <cstdio>
#include <cstdlib>
#include <string>
#include <vector>

namespace {

// What a refusal's number says.
const char *meaning(uint32_t number) {
    switch (number) {
    case 1: return "the record is not 18 bytes";
    case 2: return "the kind is not one of the thirty";
    case 3: return "the form is above 2";
    case 4: return "a mov of a system value, under a guard that may run";
    case 5: return "an i2i of a half from byte 3 on, under a guard that may run";
    default: return "its strip has no words";
    }
}

constexpr const char *too_many = "the records are too many for a module: its ids pass 4,194,302";

[[noreturn]] void fail(const char *what) {
    std::fprintf(stderr, "print-spirv: %s\n", what);
    std::exit(2);
}

std::vector<uint8_t> standard_input() {
    std::vector<uint8_t> bytes;
    uint8_t block[65536];
    while (const size_t got = std::fread(block, 1, sizeof block, stdin)) bytes.insert(bytes.end(), block, block + got);
    if (std::ferror(stdin)) fail("the records cannot be read");
    return bytes;
}

} // namespace

int main(int argc, char **argv) {
    const std::vector<uint8_t> bytes = standard_input();
    const size_t count = (bytes.size() + MEHKURA_RECORD - 1) / MEHKURA_RECORD;
    size_t first = 0, last = count;
    if (argc > 1) {
        first = std::strtoull(argv[1], nullptr, 10);
        if (first >= count) fail(("there is no record " + std::string(argv[1]) + ", there are " + std::to_string(count)).c_str());
        last = first + 1;
    }
    if (!count) fail("there is no record");

    spirv::Module module;
    uint32_t number = 0;
    bool refused = false;
    // A cut record and an unknown kind end the list, as they do for print-strips.
    for (size_t index = first; index < last && number != 1 && number != 2; ++index) {
        const uint8_t *record = bytes.data() + index * MEHKURA_RECORD;
        const size_t length = std::min<size_t>(MEHKURA_RECORD, bytes.size() - index * MEHKURA_RECORD);
        uint8_t marks[MEHKURA_MARKS] = {}, strip[MEHKURA_ANY_STRIP];
        size_t written = 0;
        number = mehkura_translate(record, length, marks, sizeof marks, strip, sizeof strip, &written);
        if (!number) number = module.add("record_" + std::to_string(index), strip, written);
        if (number == 10) fail(too_many);
        if (!number) continue;
        std::fprintf(stderr, "print-spirv: record %zu is refused, %u: %s\n", index, unsigned(number), meaning(number));
        refused = true;
    }
    if (!module.strip_count()) return 1;
    const std::vector<uint8_t> out = spirv::bytes_of(module.words());
    if (out.empty()) fail(too_many);
    if (std::fwrite(out.data(), 1, out.size(), stdout) != out.size() || std::fflush(stdout) != 0) fail("the module cannot be written");
    return refused;
}
