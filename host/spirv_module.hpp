// A whole SPIR-V module around the words that mehkura_to_spirv writes for strips. The words stand in it as they were written: a strip's constants among
// the module's, its body in a function of its own, between a label and a return. `main` calls the functions in the order of the strips.
//
// The module is a compute shader, SPIR-V 1.0 for Vulkan 1.0 and later, 32 invocations in a workgroup:
// - Set 0, binding 32, is a storage buffer of states, 266 words each: the registers 0 to 254, then the predicates 0 to 6 and the flags Z, S, C, O, a
//   word each, true where it is not 0 and written as 0 or 1. Invocation n takes state n and changes it in place; beyond the buffer it does nothing.
// - Set 0, binding s, is constant slot s: a uniform block of 4096 uvec4.
//
// Registers, predicates and flags are private variables. Only the cells and slots that the words name are declared: `main` loads a cell that is named
// and writes back one that is stored, so that a small strip makes a small module, and a driver with few uniform buffers takes it.
//
// Ids: those of the table are 1 to 303, in its order; then the module's own; then each strip's, whose bound is the first id that the one before it left
// free; then those of the functions.
#ifndef MEHKURA_SPIRV_MODULE_HPP
#define MEHKURA_SPIRV_MODULE_HPP

#include "mehkura.h"

#include <array>
#include <cstddef>
#include <cstdint>
#include <string>
#include <utility>
#include <vector>

namespace spirv {

using Words = std::vector<uint32_t>;

constexpr uint32_t slots = 32, state_words = MEHKURA_REGISTERS + MEHKURA_TRUTHS, states_binding = 32, local_size = 32;
constexpr uint32_t table_length = 5 + state_words + slots;
// The highest id that a module may use.
constexpr uint32_t last_id = 4194302;
// Room for the words of any strip: it has 64 entries at most, an open has nine words, every other entry fewer.
constexpr size_t any_words = 64 * 9;

class Module {
  public:
    Module() {
        for (uint32_t i = 0; i < table_length; ++i) table[i] = i + 1;
    }

    // Adds a strip's words, as a function of that name. Answers mehkura_to_spirv's number; a strip that is refused changes nothing.
    uint32_t add(const std::string &name, const uint8_t *strip, size_t strip_length) {
        uint32_t words[any_words];
        size_t written = 0, first = 0;
        const uint32_t number = mehkura_to_spirv(strip, strip_length, next, table.data(), table.size(), words, any_words, &written, &first, &next);
        if (number) return number;
        constants.insert(constants.end(), words, words + first);
        strips.push_back({name, Words(words + first, words + written)});
        look_at(strips.back().body);
        return 0;
    }

    size_t strip_count() const { return strips.size(); }
    // Whether an address of a strip names the slot.
    bool uses_slot(uint32_t slot) const { return named[state_words + slot]; }

    // The module's words; none where its ids would pass the last one.
    Words words() const {
        uint32_t id = next;
        const auto fresh = [&id] { return id++; };
        Words functions;
        std::vector<std::pair<uint32_t, std::string>> names;
        write_functions(functions, names, fresh);
        if (id - 1 > last_id) return {};

        Words out{0x07230203, 0x00010000, 0, id, 0};
        put(out, capability, {1});
        put(out, import, {glsl}, "GLSL.std.450");
        put(out, memory_model, {0, 1});
        put(out, entry_point, {5, main}, "main", {invocation});
        put(out, execution_mode, {main, 17, local_size, 1, 1});
        write_names(out, names);
        write_decorations(out);
        write_globals(out);
        out.insert(out.end(), functions.begin(), functions.end());
        return out;
    }

  private:
    enum Opcode : uint32_t {
        name_of = 5, member_name = 6, import = 11, memory_model = 14, entry_point = 15, execution_mode = 16, capability = 17, type_void = 19,
        type_bool = 20, type_int = 21, type_vector = 23, type_array = 28, type_runtime_array = 29, type_struct = 30, type_pointer = 32,
        type_function = 33, constant = 43, function = 54, function_end = 56, call = 57, variable = 59, load = 61, store = 62, access_chain = 65,
        array_length = 68, decorate = 71, member_decorate = 72, composite_extract = 81, select = 169, not_equal = 171, less = 176,
        selection_merge = 247, label = 248, branch = 249, branch_conditional = 250, return_void = 253
    };
    enum StorageClass : uint32_t { input = 1, uniform = 2, private_class = 6 };
    // Ids of the table, in its order. Cell n is the variable first_cell + n, a slot comes after the cells.
    enum TableId : uint32_t { u32 = 1, i32, boolean, slot_word, glsl, first_cell };
    // Ids of the module itself. The word n is the constant first_word + n, for the cells' places in a state.
    enum OwnId : uint32_t {
        nothing = table_length + 1, function_type, main, uvec3, input_uvec3, invocation, private_u32, private_bool, uvec4, slot_size, slot_array,
        slot_block, slot_pointer, state_size, state, states_array, states_block, states_pointer, states, first_word,
        first_strip = first_word + state_words
    };

    struct Strip {
        std::string name;
        Words body;
    };

    std::array<uint32_t, table_length> table{};
    uint32_t next = first_strip;
    Words constants;
    std::vector<Strip> strips;
    // Cells and slots that the words name, cells that they store to.
    std::array<bool, state_words + slots> named{};
    std::array<bool, state_words> stored{};

    static bool is_register(uint32_t cell) { return cell < MEHKURA_REGISTERS; }

    static std::string variable_name(uint32_t n) {
        static const char *const flags[] = {"Z", "S", "C", "O"};
        if (is_register(n)) return "R" + std::to_string(n);
        if (n < state_words - 4) return "P" + std::to_string(n - MEHKURA_REGISTERS);
        return n < state_words ? flags[n - (state_words - 4)] : "c" + std::to_string(n - state_words);
    }

    // Adds an instruction: operands, text if there is one, more operands.
    static void put(Words &out, Opcode opcode, const Words &operands, const char *text = nullptr, const Words &more = {}) {
        const size_t start = out.size();
        out.push_back(0);
        out.insert(out.end(), operands.begin(), operands.end());
        if (text) {
            // Four bytes in a word, the first one lowest; the text ends with a zero.
            uint32_t word = 0, place = 0;
            do {
                word |= static_cast<uint32_t>(static_cast<unsigned char>(*text)) << (8 * place);
                if (++place == 4) {
                    out.push_back(word);
                    word = place = 0;
                }
            } while (*text++);
            if (place) out.push_back(word);
        }
        out.insert(out.end(), more.begin(), more.end());
        out[start] = static_cast<uint32_t>(out.size() - start) << 16 | opcode;
    }

    // Which variables a body names: a load names one last, a store first, an address as its base.
    void look_at(const Words &body) {
        for (size_t at = 0; at < body.size() && body[at] >> 16; at += body[at] >> 16) {
            const uint32_t opcode = body[at] & 0xffff;
            const size_t place = at + (opcode == store ? 1 : 3);
            if ((opcode != load && opcode != store && opcode != access_chain) || place >= body.size()) continue;
            const uint32_t n = body[place] - first_cell;
            if (n >= named.size()) continue;
            named[n] = true;
            if (opcode == store && n < state_words) stored[n] = true;
        }
    }

    template <typename Fresh> void write_functions(Words &out, std::vector<std::pair<uint32_t, std::string>> &names, Fresh fresh) const {
        std::vector<uint32_t> calls;
        for (const Strip &strip : strips) {
            calls.push_back(fresh());
            names.emplace_back(calls.back(), strip.name);
            put(out, function, {nothing, calls.back(), 0, function_type});
            put(out, label, {fresh()});
            out.insert(out.end(), strip.body.begin(), strip.body.end());
            put(out, return_void, {});
            put(out, function_end, {});
        }

        const uint32_t at = fresh(), number = fresh(), count = fresh(), within = fresh(), work = fresh(), done = fresh();
        put(out, function, {nothing, main, 0, function_type});
        put(out, label, {fresh()});
        put(out, load, {uvec3, at, invocation});
        put(out, composite_extract, {u32, number, at, 0});
        put(out, array_length, {u32, count, states, 0});
        put(out, less, {boolean, within, number, count});
        put(out, selection_merge, {done, 0});
        put(out, branch_conditional, {within, work, done});
        put(out, label, {work});
        std::array<uint32_t, state_words> places{};
        for (uint32_t cell = 0; cell < state_words; ++cell) {
            if (!named[cell]) continue;
            places[cell] = fresh();
            uint32_t value = fresh();
            put(out, access_chain, {slot_word, places[cell], states, first_word, number, first_word + cell});
            put(out, load, {u32, value, places[cell]});
            if (!is_register(cell)) {
                const uint32_t word = std::exchange(value, fresh());
                put(out, not_equal, {boolean, value, word, first_word});
            }
            put(out, store, {first_cell + cell, value});
        }
        for (uint32_t id : calls) put(out, call, {nothing, fresh(), id});
        for (uint32_t cell = 0; cell < state_words; ++cell) {
            if (!stored[cell]) continue;
            uint32_t value = fresh();
            put(out, load, {is_register(cell) ? u32 : boolean, value, first_cell + cell});
            if (!is_register(cell)) {
                const uint32_t truth = std::exchange(value, fresh());
                put(out, select, {u32, value, truth, first_word + 1, first_word});
            }
            put(out, store, {places[cell], value});
        }
        put(out, branch, {done});
        put(out, label, {done});
        put(out, return_void, {});
        put(out, function_end, {});
    }

    void write_names(Words &out, const std::vector<std::pair<uint32_t, std::string>> &functions) const {
        put(out, name_of, {main}, "main");
        put(out, name_of, {invocation}, "invocation");
        put(out, name_of, {slot_block}, "Slot");
        put(out, member_name, {slot_block, 0}, "words");
        put(out, name_of, {states_block}, "States");
        put(out, member_name, {states_block, 0}, "states");
        put(out, name_of, {states}, "states");
        for (uint32_t n = 0; n < named.size(); ++n)
            if (named[n]) put(out, name_of, {first_cell + n}, variable_name(n).c_str());
        for (const auto &function : functions) put(out, name_of, {function.first}, function.second.c_str());
    }

    void write_decorations(Words &out) const {
        enum : uint32_t { block = 2, buffer_block = 3, array_stride = 6, built_in = 11, binding = 33, set = 34, offset = 35 };
        const uint32_t global_invocation_id = 28;
        put(out, decorate, {invocation, built_in, global_invocation_id});
        put(out, decorate, {slot_array, array_stride, 16});
        put(out, decorate, {slot_block, block});
        put(out, member_decorate, {slot_block, 0, offset, 0});
        put(out, decorate, {state, array_stride, 4});
        put(out, decorate, {states_array, array_stride, 4 * state_words});
        put(out, decorate, {states_block, buffer_block});
        put(out, member_decorate, {states_block, 0, offset, 0});
        put(out, decorate, {states, set, 0});
        put(out, decorate, {states, binding, states_binding});
        for (uint32_t slot = 0; slot < slots; ++slot) {
            if (!uses_slot(slot)) continue;
            put(out, decorate, {first_cell + state_words + slot, set, 0});
            put(out, decorate, {first_cell + state_words + slot, binding, slot});
        }
    }

    void write_globals(Words &out) const {
        put(out, type_void, {nothing});
        put(out, type_bool, {boolean});
        put(out, type_int, {u32, 32, 0});
        put(out, type_int, {i32, 32, 1});
        put(out, type_function, {function_type, nothing});
        put(out, type_vector, {uvec3, u32, 3});
        put(out, type_vector, {uvec4, u32, 4});
        put(out, type_pointer, {input_uvec3, input, uvec3});
        put(out, type_pointer, {private_u32, private_class, u32});
        put(out, type_pointer, {private_bool, private_class, boolean});
        put(out, type_pointer, {slot_word, uniform, u32});
        put(out, constant, {u32, slot_size, 4096});
        put(out, type_array, {slot_array, uvec4, slot_size});
        put(out, type_struct, {slot_block, slot_array});
        put(out, type_pointer, {slot_pointer, uniform, slot_block});
        put(out, constant, {u32, state_size, state_words});
        put(out, type_array, {state, u32, state_size});
        put(out, type_runtime_array, {states_array, state});
        put(out, type_struct, {states_block, states_array});
        put(out, type_pointer, {states_pointer, uniform, states_block});
        for (uint32_t n = 0; n < state_words; ++n)
            if (n < 2 || named[n]) put(out, constant, {u32, first_word + n, n});
        put(out, variable, {input_uvec3, invocation, input});
        put(out, variable, {states_pointer, states, uniform});
        for (uint32_t n = 0; n < named.size(); ++n) {
            if (!named[n]) continue;
            if (n >= state_words)
                put(out, variable, {slot_pointer, first_cell + n, uniform});
            else
                put(out, variable, {is_register(n) ? private_u32 : private_bool, first_cell + n, private_class});
        }
        out.insert(out.end(), constants.begin(), constants.end());
    }
};

// Words as the bytes of a file, little-endian.
inline std::vector<uint8_t> bytes_of(const Words &words) {
    std::vector<uint8_t> bytes;
    bytes.reserve(4 * words.size());
    for (uint32_t word : words)
        for (int i = 0; i < 4; ++i) bytes.push_back(static_cast<uint8_t>(word >> (8 * i)));
    return bytes;
}

} // namespace spirv

#endif
