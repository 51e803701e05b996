/* carry.h: go on in the table of a new rule sheet, without closing the weir, from a C program.
 *
 * Link with the archive that `tools/build carry_c` writes, target/staticlib/libcarry_c.a. It is for x86-64 Linux and needs `memcpy` and `memset`
 * of the C library, no mathematics library and no threads. It allocates nothing, keeps no state of its own, and always returns.
 * examples/change_over.c is a whole program.
 *
 *
 * The arguments
 *
 * Two tables over the same streams, the old one, which the cabinet follows, and the new one, each as compile_c (compile.h) gave it: the
 * entries, row after row, one final byte for each row, the number of letters, and the streams. They are only read, and the two may be the
 * same memory. Pass the used rows alone, or with rows of zeros behind them. Streams are passed by value; what stands behind a name and
 * behind `count` places is not looked at.
 *
 * `list` is lent: a pointer, which is not null, and the number of elements there. It overlaps no table. Any length and contents are taken.
 *
 *
 * The answer
 *
 * 0: for each old row, list[row] is the new state to go on from: every record that leads to the old row leads, in the new table, to that state.
 * So a cabinet whose place is `state` goes on in the new table from list[state], and stands where it would have stood if it had followed the
 * new table from the first reading on (a reading refused with 12 counts as not read). CARRY_NONE stands for a row that no record reaches. The list is zero beyond the old rows.
 *
 * A refusal: the list is zero. The first of these that applies is given:
 *   11  a table is malformed (an entry that is neither a row's number nor 65,535, final bytes that are not one 0 or 1 for each row, no rows,
 *       over 4,096, or a part of a row), or its streams are none that an accepted sheet could have, or do not make its letters
 *   17  the streams differ in number, or in the name, range or kind of some place
 *   18  an old state that a record reaches has no such new state: two records lead to it and to different new states, or the new table has no way
 *       on along one
 *   10  the list is shorter than the old rows
 *
 *
 * The stack
 *
 * A call takes at most CARRY_STACK bytes of the caller's stack.
 */
#ifndef CARRY_H
#define CARRY_H
#include <stddef.h>
#include <stdint.h>

#include "streams.h"

#ifdef __cplusplus
extern "C" {
#endif

/* the most bytes of stack that a call takes */
enum { CARRY_STACK = 32768 };

/* in the list: an old row that no record reaches */
enum { CARRY_NONE = 65535 };

uint32_t carry_c(const uint16_t *old_entries, size_t old_entry_count, const uint8_t *old_finals, size_t old_final_count, uint32_t old_letters,
    struct streams old_streams, const uint16_t *new_entries, size_t new_entry_count, const uint8_t *new_finals, size_t new_final_count,
    uint32_t new_letters, struct streams new_streams, uint16_t *list, size_t list_count);

#ifdef __cplusplus
}
#endif

#endif
