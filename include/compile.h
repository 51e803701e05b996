/* compile.h: compile a rule sheet into a table from a C program.
 *
 * Link with the archive that `tools/build compile_c` writes, target/staticlib/libcompile_c.a. It is for x86-64 Linux and
 * needs `memcpy` and `memset` of the C library, no mathematics library and no threads. It allocates nothing, keeps no
 * state of its own, and always returns. examples/desk.c is a whole program.
 *
 *
 * The arguments
 *
 * Each is a pointer and the number of elements there. No pointer is null. No two tables overlap, and the text overlaps no
 * table. Any bytes are taken as a sheet, and any lengths and contents of the tables. A row takes one entry for each letter
 * of the sheet, one final byte, COMPILE_KEY numbers in `keys` and one number in each of the six other work tables. The
 * fewest rows that a table holds is the number of rows lent, R.
 *
 *
 * The answer
 *
 * refusal 0: the table stands in the first `states` rows. The entry of a state for a letter is
 *
 *     entries[state * letters + letter]
 *
 * the number of the next state, or 65,535 for none; `finals[state]` is 1 or 0. `situations` is the number of distinct
 * situations. All room beyond these rows is zero. `letters` is the number of letters, and `streams` has the sheet's names, ranges
 * and kinds (streams.h): with them the host makes the letter of a reading and calls a step, and need not read the sheet itself.
 *
 * refusal 1 to 10: document 01's number; all other numbers of the answer are 0, and every table is zero. 8: more than 4,096
 * situations, and R is 4,096 or more; 10: more situations than R, and R is below 4,096.
 *
 * The work tables are zero after every call. To follow the table with step.h, pass the used rows alone, as two bytes an
 * entry with the low byte first: on x86-64 these are the first 2 * states * letters bytes at `entries`.
 *
 *
 * The stack
 *
 * A call takes at most COMPILE_STACK bytes of the caller's stack, measured on the sheets that go deepest. On less the
 * caller crashes.
 */
#ifndef COMPILE_H
#define COMPILE_H
#include <stddef.h>
#include <stdint.h>

#include "streams.h"

#ifdef __cplusplus
extern "C" {
#endif

/* the numbers that a row takes in `keys` */
enum { COMPILE_KEY = 16 };

/* the most bytes of stack that a call takes */
enum { COMPILE_STACK = 262144 };

struct compile_answer {
    uint32_t refusal;
    uint32_t states;
    uint32_t situations;
    uint32_t letters;
    struct streams streams;
};

struct compile_answer compile_c(const uint8_t *text, size_t length, uint16_t *entries, size_t entry_count, uint8_t *finals, size_t final_count,
    uint32_t *keys, size_t key_count, uint32_t *live, size_t live_count, uint32_t *class_names, size_t class_count, uint32_t *next, size_t next_count,
    uint32_t *heads, size_t head_count, uint32_t *links, size_t link_count, uint32_t *envelopes, size_t envelope_count);

#ifdef __cplusplus
}
#endif

#endif
