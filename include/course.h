/* course.h: the shortest course to a final state, with the fewest changes of set streams, from a C program.
 *
 * Link with the archive that `tools/build course_c` writes, target/staticlib/libcourse_c.a. It is for x86-64 Linux and
 * needs `memset` of the C library, no mathematics library and no threads. It allocates nothing, keeps no state of its own,
 * and always returns. examples/desk.c calls it after a compile.
 *
 *
 * The arguments
 *
 * A table as compile.h gives it: `entries` and `finals` with one final byte a row; pass the used rows alone, or all rows
 * lent (zero rows are rows whose letters lead to state 0). `letters` and `streams` are those of the sheet, as the compile
 * tells them (streams.h). `state` is where the course begins. `list` has room for the letters of the course: as many as
 * there are states, less one, are always enough along a compiled table. `work` is work room of one number for each entry
 * of the table. Any values are taken. No pointer is null. `list` and `work` overlap no other argument.
 *
 *
 * The answer
 *
 * refusal 0: the course has `count` letters, the first ones of `list`, each the number of a letter. Followed from `state`,
 * they lead to a final state, and no course has fewer letters. Of those with as few, it is the one with the fewest changes:
 * a change is a set stream whose value differs from that of the letter before; the first letter has none. Of those still
 * equal it is the first in the order of the letters' numbers. The list is zero behind it.
 *
 * refusal 11: the table is not well formed (no whole rows, over 4,096 rows, an entry that is neither a row's number nor
 * 65,535, final bytes that are not one 0 or 1 a row), `state` is none of its rows, or the streams are none that an accepted
 * sheet could have, or do not make `letters` letters. 15: no final state can be reached. 10: `list` has fewer places than
 * the course has letters, or `work` fewer than the table has entries. The number given is the first of these in the order
 * 11, 15, 10; `count` is then 0 and the list zero.
 *
 * The work room is zero after every call.
 *
 *
 * The stack
 *
 * A call takes at most COURSE_STACK bytes of the caller's stack.
 */
#ifndef COURSE_H
#define COURSE_H
#include <stddef.h>
#include <stdint.h>

#include "streams.h"

#ifdef __cplusplus
extern "C" {
#endif

/* the most bytes of stack that a call takes */
enum { COURSE_STACK = 32768 };

struct course_answer {
    uint32_t refusal;
    uint32_t count;
};

struct course_answer course_c(const uint16_t *entries, size_t entry_count, const uint8_t *finals, size_t rows, uint32_t letters, struct streams streams,
    uint32_t state, uint32_t *list, size_t room, uint16_t *work, size_t work_count);

#ifdef __cplusplus
}
#endif

#endif
