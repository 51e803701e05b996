/* The structs of the headers are laid out as in the archives. Compiled as C99, as C11 and as C++. */
#include "carry.h"
#include "compile.h"
#include "course.h"
#include "join.h"
#include "normal_form.h"
#include "step.h"
#include "strategy.h"
#include "streams.h"

#if defined(__cplusplus)
#define _Static_assert static_assert
#elif __STDC_VERSION__ < 201112L && !defined(_Static_assert)
#define _Static_assert(condition, why) extern char laid_out[(condition) ? 1 : -1]
#endif

_Static_assert(sizeof(struct streams) == 8 + 64 + 8 + 2 * 8 * 8 + 8, "no bytes between the lists");
_Static_assert(offsetof(struct streams, names) == 8 && offsetof(struct streams, lengths) == 72 && offsetof(struct streams, lows) == 80, "as in bench/compile/check.py");
_Static_assert(offsetof(struct streams, highs) == 144 && offsetof(struct streams, kinds) == 208, "as in bench/compile/check.py");
_Static_assert(sizeof(struct compile_answer) == 4 * 4 + sizeof(struct streams), "four numbers of four bytes, and the streams");
_Static_assert(sizeof(struct course_answer) == 8, "two numbers of four bytes");
_Static_assert(sizeof(struct join_answer) == 4 * 4 + sizeof(struct streams), "four numbers of four bytes, and the streams");
_Static_assert(sizeof(struct normal_form_answer) == 12, "three numbers of four bytes");
_Static_assert(sizeof(struct normal_form_entry) == 12 * 2 + 2 * 8, "twelve numbers of two bytes and two of eight, with no bytes between them");
_Static_assert(offsetof(struct normal_form_entry, left) == 8 && offsetof(struct normal_form_entry, right) == 16 && offsetof(struct normal_form_entry, low) == 24, "as in tests/normal/compare.py");
