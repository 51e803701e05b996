/* normal_form.h: the normal form of a rule sheet from a C program.
 *
 * Link with the archive that `tools/build normal_c` writes, target/staticlib/libnormal_c.a. It is for x86-64 Linux and
 * needs `memcpy` and `memset` of the C library, no mathematics library and no threads. It allocates nothing, keeps no
 * state of its own, and always returns. A call takes at most NORMAL_FORM_STACK bytes of the caller's stack, measured on
 * the sheets that go deepest; on less the caller crashes.
 *
 * The sheet's bytes and the list are each a pointer, which is not null, and the number of elements there; the two do not
 * overlap.
 *
 * With refusal 0 the first `entries` records of the list hold the normal form, `added` streams are added to the sheet's,
 * and the records behind them are zero. With a refusal 1 to 7, or 10 where the list is shorter than the entries, the other
 * numbers are 0 and the whole list is zero, byte for byte: a record has no bytes between its fields.
 *
 * A record's fields, by its kind. Streams are numbered from 0, the sheet's own first, in the order of the names. A span is a
 * pair of places in the sheet's bytes, from 0: an expression's text from `begin` to before `end`, without brackets around it.
 * The bytes are counted from the sheet's first one, also where its first line says its release. The text of a span is read
 * as the sheet is: in a sheet of release 2 a `/` there is a quotient rounded down and a `%` a remainder with the divisor's
 * sign, else a quotient cut toward zero and a remainder with the dividend's sign.
 *   kind 1  a rewritten constraint: `left_begin` to `left_end`, the sign, `right_begin` to `right_end`.
 *           `relation` is the sign's place among < <= == >= > != ->, from 0.
 *   kind 2  stream `left` until stream `right`; `relation` is 7.
 *   kind 3  stream `left` == the expression `right_begin` to `right_end`.
 *   kind 4  stream `left` == next stream `right`.
 *   kind 5  first stream `left` == first stream `right`.
 * In kinds 3 to 5 `relation` is 2. In kinds 2 to 5 stream `left` is an added one; it stands for the expression `left_begin`
 * to `left_end` and takes the values `low` to `high`. Where `replaces` is 1, that expression is a whole `next` or `fby`, and in
 * the text of a side that holds it the stream stands in its place, the longest such one where several begin at one place,
 * parted by a space from what follows.
 * `left_added` and `right_added` are the numbers of the first streams that rewriting the left and the right side adds.
 * `stream_kind` is the kind of stream `left`: an added one is set, STREAM_SET of streams.h. All else is 0.
 *
 * What a solution of the entries is. A quotient or remainder with divisor 0 has no value. An operator, `and`, `or` and `not`
 * among them, with a part that has none gives none, whatever the other part is; an `if` reads only its condition and the
 * branch that it takes; `first`, `next` and `fby` read one value at one time. The sheet's own streams have a
 * number at every time; an added stream has a number from `low` to `high`, or no value, at each time. In kinds 1 and 2 a
 * missing value counts as in the sheet: a comparison or implication with none on either side fails, and `until` takes none
 * as 0. In kinds 3 to 5, the added entries, two sides are equal where both have no value, and none equals no number.
 *
 * examples/print_normal.c prints the entries of a sheet.
 */
#ifndef NORMAL_FORM_H
#define NORMAL_FORM_H
#include <stddef.h>
#include <stdint.h>

#include "streams.h"

#ifdef __cplusplus
extern "C" {
#endif

/* the most bytes of stack that a call takes */
enum { NORMAL_FORM_STACK = 524288 };

struct normal_form_entry {
    uint16_t kind, relation, stream_kind, replaces;
    uint16_t left, left_added, left_begin, left_end;
    uint16_t right, right_added, right_begin, right_end;
    int64_t low, high;
};

struct normal_form_answer {
    uint32_t refusal;
    uint32_t entries;
    uint32_t added;
};

struct normal_form_answer normal_form_c(const uint8_t *text, size_t length, struct normal_form_entry *list, size_t count);

#ifdef __cplusplus
}
#endif

#endif
