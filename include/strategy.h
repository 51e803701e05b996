/* strategy.h: compile a rule sheet into a table and a play table from a C program.
 *
 * Link with the archive that `tools/build game_c` writes, target/staticlib/libgame_c.a. It needs what the archive of compile.h needs,
 * allocates nothing, keeps no state of its own, and always returns.
 *
 *
 * The arguments
 *
 * Those of compile_c (compile.h), and one more lent table, `play`. It overlaps no other argument, and any length and contents of it are
 * taken.
 *
 * At every time the river gives the values of all streams of the kind STREAM_READ, any in range, and then the keeper those of the others. A
 * choice of the river is one value for each stream that is read. Choices are numbered as letters are, over these streams alone: the last
 * one counts fastest, values rise from the lowest. The number of choices is the product of the sizes of their ranges, and 1 if there are
 * none. A row takes one number for each choice in `play`, so the table holds `play_count` divided by the choices, cut to a whole number. It
 * is one of the tables of which the fewest rows count for refusals 8 and 10.
 *
 *
 * The answer
 *
 * refusal 0: as from compile_c. From state 0 the keeper can make every endless play a solution. For each such state
 *
 *     play[state * choices + choice]
 *
 * is a letter with the values of the choice, the keeper's answer to it. Followed from such a state, the play table leads to such states only,
 * never meets a missing entry, and comes to a final state within `states` letters, however the river plays. Which letter it holds is free
 * beyond this. The rows of the other states hold STRATEGY_NONE: from them the river can prevent a solution. All room beyond the rows of the
 * states is zero.
 *
 * refusal 1 to 10: as from compile_c. refusal 16: the river can prevent a solution from state 0. All other numbers of the answer are then
 * 0, and every table is zero.
 *
 * The work tables are zero after every call.
 *
 *
 * The stack
 *
 * A call takes at most STRATEGY_STACK bytes of the caller's stack, measured on the sheets that go deepest. On less the caller crashes.
 */
#ifndef STRATEGY_H
#define STRATEGY_H
#include "compile.h"

#ifdef __cplusplus
extern "C" {
#endif

/* in the play table: a state from which the river can prevent a solution */
enum { STRATEGY_NONE = 65535 };

/* the most bytes of stack that a call takes */
enum { STRATEGY_STACK = 262144 };

struct compile_answer strategy_c(const uint8_t *text, size_t length, uint16_t *entries, size_t entry_count, uint8_t *finals, size_t final_count,
    uint32_t *keys, size_t key_count, uint32_t *live, size_t live_count, uint32_t *class_names, size_t class_count, uint32_t *next, size_t next_count,
    uint32_t *heads, size_t head_count, uint32_t *links, size_t link_count, uint32_t *envelopes, size_t envelope_count, uint16_t *play, size_t play_count);

#ifdef __cplusplus
}
#endif

#endif
