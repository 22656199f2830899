// Writes a SPIR-V module for each strip into a folder, for spirv-val: of the samples' records, of records of every kind and form, and of strips that no
// record gives. Arguments: the folder, how many records at least, a file of records, a file of strips (`oracle spirv-strips`), the samples. A record's
// strip must have words; a hand-made one may be refused with 17.
#include "spirv_cases.hpp"
#include "spirv_module.hpp"

namespace {

size_t written = 0;

// Writes the strip's module. Answers the refusal's number.
uint32_t write(const std::string &folder, const judge::Case &c) {
    spirv::Module module;
    if (const uint32_t number = module.add("strip", c.strip.data(), c.strip.size())) return number;
    const auto bytes = spirv::bytes_of(module.words());
    char name[16];
    std::snprintf(name, sizeof name, "/%07zu", written);
    std::ofstream out(folder + name + ".spv", std::ios::binary);
    out.write(reinterpret_cast<const char *>(bytes.data()), static_cast<std::streamsize>(bytes.size()));
    // What it was made of, for whom it may concern.
    std::ofstream(folder + name + ".txt") << c.name << ": " << judge::hex(c.strip) << '\n';
    if (!out.flush().good()) judge::fail("a module cannot be written");
    ++written;
    return 0;
}

void write_records(const std::string &folder, const std::vector<judge::Case> &cases) {
    for (const judge::Case &c : cases)
        if (const uint32_t number = write(folder, c))
            judge::fail("%s has a strip that is refused with %u: %s", c.name.c_str(), unsigned(number), judge::hex(c.strip).c_str());
}

} // namespace

int main(int argc, char **argv) {
    if (argc < 6) judge::fail("usage: spirv_modules FOLDER COUNT RECORDS STRIPS SAMPLE...");
    const std::string folder = argv[1];
    for (int i = 5; i < argc; ++i) write_records(folder, judge::records(argv[i]));
    const size_t samples = written;
    write_records(folder, judge::balanced(argv[3], std::strtoull(argv[2], nullptr, 10)));
    const size_t records = written - samples;
    size_t refused = 0;
    for (const judge::Case &c : judge::hand_made(argv[4])) {
        const uint32_t number = write(folder, c);
        if (number && number != 17) judge::fail("%s is refused with %u: %s", c.name.c_str(), unsigned(number), judge::hex(c.strip).c_str());
        refused += number == 17;
    }
    std::printf("modules: %zu of the samples' records, %zu of records of the thirty kinds in all forms, %zu of hand-made strips (%zu more have no "
                "words, 17)\n",
                samples, records, written - samples - records, refused);
}
