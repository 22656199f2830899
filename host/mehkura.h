/* Mehkura for C and C++: translation of a record; shape test, reach, evaluation and conversion of a run; SPIR-V words of a strip.
 *
 * host/build proves the library and makes target/mehkura with lib/libmehkura.a, which has every function below, and this header. Lists go as a pointer
 * and a length. No pointer may be null, for a list of length 0 either, and lists that one call gets must not overlap. No function keeps a pointer,
 * allocates or touches anything else; all may be called from several threads at once.
 *
 * Each answers a number of enum mehkura_answer. A refused call leaves everything that it was lent as it was, byte for byte, but for the three numbers
 * that say where 9 was met and for what mehkura_shape_block says of its 7.
 */
#ifndef MEHKURA_H
#define MEHKURA_H

#include <stddef.h>
#include <stdint.h>

enum mehkura_answer {
    MEHKURA_ACCEPTED = 0,
    MEHKURA_BAD_LENGTH = 1,      /* the record is not 18 bytes, or the marks are not 128 */
    MEHKURA_UNKNOWN_KIND = 2,    /* not one of the thirty */
    MEHKURA_UNKNOWN_FORM = 3,    /* above 2 */
    MEHKURA_SYSTEM_VALUE_MOV = 4, /* mov of a system value, opcode value 0xf0c8000000000000, under a guard that may run */
    MEHKURA_HALF_AT_BYTE_3 = 5,  /* i2i of a half from byte 3 on, under a guard that may run */
    MEHKURA_NO_ROOM = 6,         /* the strip, or the converted run, is longer than the room */
    MEHKURA_BAD_SHAPE = 7,       /* the run is not well-formed in its layout, or a list of cells or of a state has another length */
    MEHKURA_UNDEFINED_VALUE = 8, /* an undefined value reaches a store, an open or an address */
    MEHKURA_NO_CONSTANT = 9,     /* no constant is lent at an address */
    MEHKURA_BAD_IDS = 10,        /* the table has another length, names 0, an id twice or one at or above the bound, or an id is above MEHKURA_MAX_ID */
    MEHKURA_NO_WORD_ROOM = 11,   /* the words are more than the room holds */
    MEHKURA_UNWRITABLE = 17      /* words of two signs selected or inserted, a signed one stored, or an address's zero is not the constant 0 by its id */
};

/* Lengths of lists: a record, room for any strip, the use marks (32 words, little-endian), a state, cells. */
enum {
    MEHKURA_RECORD = 18,
    MEHKURA_ANY_STRIP = 255,
    MEHKURA_MARKS = 128,
    MEHKURA_REGISTERS = 255,
    MEHKURA_SHAPE_STATE = 45, /* of a shape test block by block */
    MEHKURA_TRUTHS = 11, /* the predicates 0 to 6, then the flags Z, S, C, O */
    MEHKURA_CELLS = 298  /* the registers, then predicates, flags and 32 constant slots from these places on: */
};
enum { MEHKURA_CELL_PREDICATE = 255, MEHKURA_CELL_FLAG = 262, MEHKURA_CELL_SLOT = 266 };

/* The table of ids for SPIR-V words, by place: the types of unsigned and signed 32-bit words and of truths, the type of a pointer to an unsigned word
 * of a slot, the import of GLSL.std.450, then the variables: 255 registers, 7 predicates, 4 flags and 32 constant slots. */
enum {
    MEHKURA_ID_UNSIGNED = 0,
    MEHKURA_ID_SIGNED = 1,
    MEHKURA_ID_TRUTH = 2,
    MEHKURA_ID_POINTER = 3,
    MEHKURA_ID_GLSL = 4,
    MEHKURA_ID_REGISTER = 5,
    MEHKURA_ID_PREDICATE = 260,
    MEHKURA_ID_FLAG = 267,
    MEHKURA_ID_SLOT = 271,
    MEHKURA_TABLE = 303,         /* its length */
    MEHKURA_MAX_ID = 4194302,    /* the highest id that may be lent or made */
    MEHKURA_ANY_WORDS = 448      /* room for the words of any strip: 64 entries, seven words each */
};

/* How many bytes a reference to a value takes in a run. The caller says which, it is never guessed: the same bytes may be a run in both layouts and
 * mean two things. In a layout of another number no run is well-formed, the empty one neither. */
enum mehkura_layout {
    MEHKURA_WIDE = 0,  /* two bytes: what mehkura_translate writes and mehkura_reach reads */
    MEHKURA_NARROW = 1 /* one byte: the shelf copy */
};

#ifdef __cplusplus
extern "C" {
#endif

/* Translates a record: its strip, in the wide layout, goes to the start of out, the strip's length to *written, and the use marks are raised. What
 * lies in out after the strip stays as it is. Strips one after another are a run. A record under predicate 7 negated never runs: whatever its opcode
 * value and its size codes are, its strip is the end alone, one byte, and no mark is raised. Answers 0, or 1 to 6. */
uint32_t mehkura_translate(const uint8_t *record, size_t record_len, uint8_t *marks, size_t marks_len, uint8_t *out, size_t out_len, size_t *written);

/* Whether a run is well-formed in the layout. Answers 0 or 7. */
uint32_t mehkura_shape(const uint8_t *run, size_t run_len, uint32_t layout);

/* The same test block by block, for a run that comes in pieces or is longer than memory. The caller lends a state of MEHKURA_SHAPE_STATE bytes, begins
 * the test, hands over the blocks in order, however the run is cut, and asks at the end:
 *
 *     uint8_t state[MEHKURA_SHAPE_STATE];
 *     uint32_t number = mehkura_shape_begin(state, sizeof state, MEHKURA_WIDE);
 *     for (each block) number = mehkura_shape_block(state, sizeof state, block, block_len, &passed, &strips);
 *     number = mehkura_shape_end(state, sizeof state);
 *
 * The state holds what the next bytes need, those of an entry that a block has cut among them; its length does not hang on the run, nor its bytes on
 * how the run was cut. It may be copied and kept. Bytes that do not fit together as one are taken for a test that has refused. A state of another length
 * is answered with 7 by all three, and nothing is touched then.
 *
 * Begins a test in the layout. Answers 0, or 7 where the layout has another number. */
uint32_t mehkura_shape_begin(uint8_t *state, size_t state_len, uint32_t layout);

/* Goes on with the next bytes of the run. *passed becomes how many bytes were passed by this call, an entry's when it is whole, so those of an entry
 * that earlier blocks have begun too; *strips how many strips ended. Answers 0, or 7 where an entry cannot be passed. With 7 the state becomes that of
 * a test that has refused, and each later call with it answers 7 and passes nothing: the sum of *passed over all calls is where the entry starts that
 * was refused. */
uint32_t mehkura_shape_block(uint8_t *state, size_t state_len, const uint8_t *block, size_t block_len, size_t *passed, size_t *strips);

/* Whether what was handed over is a well-formed run. Answers 0, or 7 where it was refused, ends in the middle of an entry, or has a last strip with no
 * end. */
uint32_t mehkura_shape_end(const uint8_t *state, size_t state_len);

/* Which cells at the start of a wide run can matter to the listed ones at its end, in place: a byte for each cell, listed where it is not 0, answered
 * as 0 or 1. Answers 0 or 7. */
uint32_t mehkura_reach(const uint8_t *run, size_t run_len, uint8_t *cells, size_t cells_len);

/* Evaluates a run, which is in the layout, from a state, in place: the registers, and a byte for each truth, true where it is not 0, answered as 0 or
 * 1. Word w of constant slot s is element s * 16384 + w of the constants. Answers 0, or 7, 8, 9. With 9, and then alone, *slot, *vec and *comp become
 * what the first address that was refused asked for: word vec * 4 + comp of the slot is not lent. A strip can ask for any 32-bit vec and comp; no list
 * holds a word at a vec above 4095 or a comp above 3, nor at an address whose zero is not 0. */
uint32_t mehkura_evaluate(const uint8_t *run, size_t run_len, uint32_t layout, uint32_t *registers, size_t registers_len, uint8_t *truths,
                          size_t truths_len, const uint32_t *constants, size_t constants_len, uint32_t *slot, uint32_t *vec, uint32_t *comp);

/* Converts a run, which is in the layout, to the other one: it goes to the start of out, its length there to *written. What lies in out after it stays
 * as it is. A narrow run is never longer than the wide one, a wide one never more than twice as long as the narrow one. Converted back it is the same
 * bytes, and both evaluate alike. Answers 0, or 7, then 6. */
uint32_t mehkura_convert(const uint8_t *run, size_t run_len, uint32_t layout, uint8_t *out, size_t out_len, size_t *written);

/* Writes one strip, in the wide layout, as SPIR-V words: a list of constants, each value once in the order of first standing, which belongs before the
 * function, then the body, which belongs into a block of it. The table lends the ids that the words name; those that they make rise from the bound, the
 * constants' first. The words go to the start of out, their number to *written, how many of them are the constants to *constants, and the first id that
 * is free to *next, which is the bound of the next strip. What lies in out after the words stays as it is. The bound is no id: for a strip that makes
 * none it may be any number above the lent ids, and *next becomes it. A translated strip is never refused with 17. Answers 0, or 7, also for no strip or
 * several, then 17, 10, 11. */
uint32_t mehkura_to_spirv(const uint8_t *strip, size_t strip_len, uint32_t bound, const uint32_t *table, size_t table_len, uint32_t *out,
                          size_t out_len, size_t *written, size_t *constants, uint32_t *next);

#ifdef __cplusplus
}
#endif

#endif
