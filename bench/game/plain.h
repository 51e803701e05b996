// A play table of a given table, and the compile with a play table, as a plain C program.
#ifndef BENCH_GAME_PLAIN_H
#define BENCH_GAME_PLAIN_H
#include "../../include/strategy.h"

// A table with the river's choice that each letter has. There are at most 1,024 letters and 4,096 rows, and a final row leads to final rows only.
typedef struct {
    const uint16_t *entries;
    const uint8_t *finals;
    const uint16_t *letter_choices;
    size_t rows, letters, choices;
} game;

// Fills rows * choices numbers of the play table: for a row from which the keeper can force a solution a letter for each choice, for the others 65,535. Gives whether row
// 0 is such a row. `safe` and `won` have a number for each row. The rows are swept down and up by turns, and there is no other room.
int plain_play(const game *g, uint32_t *safe, uint32_t *won, uint16_t *play);

// The same with sweeps along the order in which a search in depth leaves the rows, so that a row mostly stands behind those that it leads to. Each room has a number for each row.
int ordered_play(const game *g, uint32_t *safe, uint32_t *won, uint32_t *order, uint32_t *path, uint32_t *next_letters, uint16_t *play);

// The same by lists of the entries that lead to each row: each entry is looked at a few times, in room for all entries. `room` has rows * (letters + choices + 4) + 1 numbers.
int listed_play(const game *g, uint32_t *room, uint16_t *play);

// What keeps the numbers from being a play table, or null.
const char *play_fault(const game *g, const uint16_t *play);

// The number of choices of a sheet's streams, and the choice of each letter.
size_t choice_count(const struct streams *streams);
void fill_choices(const struct streams *streams, size_t letters, uint16_t *letter_choices);

typedef struct compile_answer strategy_function(const uint8_t *text, size_t length, uint16_t *entries, size_t entry_count, uint8_t *finals, size_t final_count,
    uint32_t *keys, size_t key_count, uint32_t *live, size_t live_count, uint32_t *class, size_t class_count, uint32_t *next, size_t next_count,
    uint32_t *heads, size_t head_count, uint32_t *links, size_t link_count, uint32_t *envelopes, size_t envelope_count, uint16_t *play, size_t play_count);

// The compile with a play table, with the arguments of the archive's function.
strategy_function plain_strategy;

#endif
