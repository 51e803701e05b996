/* join.h: join the tables of two rule sheets on one river from a C program.
 *
 * Link with the archive that `tools/build join_c` writes, target/staticlib/libjoin_c.a. It is for x86-64 Linux and needs `memcpy` and `memset`
 * of the C library, no mathematics library and no threads. It allocates nothing, keeps no state of its own, and always returns.
 *
 *
 * The given tables
 *
 * Two tables, `left` and `right`, each as compile_c (compile.h) or join_c gave it: the entries, row after row, one final byte for each
 * row, the number of letters, and the streams. Rows of zeros behind the used ones may be given with them and change nothing. They are
 * only read, and the two may be the same memory. Streams are passed by value; what stands behind a name and behind `count` places is not
 * looked at.
 *
 * Streams with the same name are one. The joined streams are the left ones in their order, and then those of the right ones whose name
 * the left ones lack. A letter of the joined table is one value for each of them, and its cut to the left or right streams is a letter of
 * that table.
 *
 *
 * The lent tables
 *
 * Each is a pointer and the number of elements there. No pointer is null. No two of them overlap, and none overlaps a given table. Any
 * lengths and contents are taken. A row takes one entry for each joined letter, one final byte, and one number in each of the seven work
 * tables, `keys` among them. The fewest rows that a lent table holds is the number of rows lent, R.
 *
 *
 * The answer
 *
 * refusal 0: the joined table stands in the first `states` rows, as a compile's does (compile.h); it is followed along a word exactly if the
 * left table is along the word's cut to the left streams and the right one along the cut to the right streams. It is the table of
 * any sheet over the joined streams, in their order, with the solutions that both sheets have. `pairs` is the number of pairs of states that
 * records lead to, `letters` that of the joined letters, and `streams` has the joined streams. All room beyond the used rows is zero.
 *
 * A refusal: all other numbers of the answer are 0, and every lent table is zero. The first of these that applies is given:
 *   11  a given table is malformed (an entry that is neither a row's number nor 65,535, final bytes that are not one 0 or 1 for each row, no
 *       rows, over 4,096, or a part of a row), or its streams are none that an accepted sheet could have, or do not make its letters
 *   17  a shared name with another range or kind
 *    7  over 8 streams or over 1,024 letters together
 *    8  more than 4,096 pairs, and R is 4,096 or more
 *   10  more pairs than R, and R is below 4,096
 *   11  a pair with both states final leads to one without: no compile gives such tables
 *    9  no common solution
 *
 * The work tables are zero after every call.
 *
 *
 * The stack
 *
 * A call takes at most JOIN_STACK bytes of the caller's stack.
 */
#ifndef JOIN_H
#define JOIN_H
#include <stddef.h>
#include <stdint.h>

#include "streams.h"

#ifdef __cplusplus
extern "C" {
#endif

/* the most bytes of stack that a call takes */
enum { JOIN_STACK = 24576 };

struct join_answer {
    uint32_t refusal;
    uint32_t states;
    uint32_t pairs;
    uint32_t letters;
    struct streams streams;
};

struct join_answer join_c(const uint16_t *left_entries, size_t left_entry_count, const uint8_t *left_finals, size_t left_final_count, uint32_t left_letters,
    struct streams left_streams, const uint16_t *right_entries, size_t right_entry_count, const uint8_t *right_finals, size_t right_final_count,
    uint32_t right_letters, struct streams right_streams, uint16_t *entries, size_t entry_count, uint8_t *finals, size_t final_count,
    uint32_t *keys, size_t key_count, uint32_t *live, size_t live_count, uint32_t *class_names, size_t class_count, uint32_t *next, size_t next_count,
    uint32_t *heads, size_t head_count, uint32_t *links, size_t link_count, uint32_t *envelopes, size_t envelope_count);

#ifdef __cplusplus
}
#endif

#endif
