/* step.h: follow a table of states, letter by letter, from a C program.
 *
 * Link with the archive that `tools/build step` writes, target/staticlib/libstep.a. It is for x86-64 Linux, needs no
 * other library, allocates nothing, keeps no state of its own, and always returns. A call takes at most STEP_STACK bytes
 * of the caller's stack.
 *
 *
 * The table
 *
 * A table has rows, one for each state, and in each row one entry for each letter. States and letters are numbered
 * from 0, and state 0 is the start. An entry takes two bytes, the low byte first:
 *
 *     table[2 * (state * letters + letter)]            the entry's low byte
 *     table[2 * (state * letters + letter) + 1]        the entry's high byte
 *
 * So a row takes 2 * letters bytes, and the entry is low byte + 256 * high byte. It is the number of the next state,
 * or 65,535 (STEP_NO_STATE), which says that the letter may not come in this state.
 *
 *
 * The arguments
 *
 * A table is passed as a pointer and its length in bytes. The pointer is not null, and `length` bytes can be read
 * there; that is all that the functions rely on. Every other value of every argument is allowed, and a wrong one is
 * refused: nothing is read outside the table, and no product or sum wraps, whatever the numbers are.
 *
 *
 * The answers
 *
 *     below 65,536      the next state; it is below the number of rows
 *     65,536 + 11       refused, through a fault of the host program (STEP_REFUSED_11):
 *                         - `letters` is 0;
 *                         - `length` is not a whole number of rows of 2 * letters bytes (so any odd length);
 *                         - the table has more than 4,096 rows (STEP_MOST_ROWS);
 *                         - the state is not below the number of rows (so any state, if the table is empty);
 *                         - the letter is not below `letters`;
 *                         - the entry to be followed is neither the number of a row nor 65,535.
 *     65,536 + 12       refused by the river (STEP_REFUSED_12): the arguments are sound, and the entry is 65,535.
 *
 * If several reasons apply, the answer is the lower one, 11. Only the entry that is followed is judged: a table with a
 * bad entry elsewhere is not refused before a step comes to it.
 */
#ifndef STEP_H
#define STEP_H

#include <stddef.h>
#include <stdint.h>

#ifdef __cplusplus
extern "C" {
#endif

/* the entry for none */
#define STEP_NO_STATE UINT32_C(65535)

/* an answer from this number on is a refusal, whose number is the answer less this one */
#define STEP_REFUSED UINT32_C(65536)
#define STEP_REFUSED_11 (STEP_REFUSED + 11)
#define STEP_REFUSED_12 (STEP_REFUSED + 12)

/* the most rows that a table may have */
#define STEP_MOST_ROWS UINT32_C(4096)

/* the most bytes of stack that a call takes */
#define STEP_STACK UINT32_C(256)

/* the count of steps stays at this number */
#define STEP_MOST_STEPS UINT32_C(4294967295)

/* The running place: the state, and the steps taken. A host sets both to 0 at the start. */
struct step_place {
    uint32_t state;
    uint32_t steps;
};

/* The next state after `letter` in `state`, or 65,536 plus the refusal, as said above. It changes nothing. */
uint32_t step(const uint8_t *table, size_t length, uint32_t letters, uint32_t state, uint32_t letter);

/* The same step from `place->state`, with the same answer, and the place is brought up to date:
 * after a move its state is the answer, and its steps are one more, but 4,294,967,295 (STEP_MOST_STEPS) stays;
 * after a refusal both are what they were.
 * The pointer is not null, the place can be written, and it does not lie in the table's bytes. Nothing else reads or
 * writes the place while the call runs. */
uint32_t advance(struct step_place *place, const uint8_t *table, size_t length, uint32_t letters, uint32_t letter);

#ifdef __cplusplus
}
#endif

#endif
