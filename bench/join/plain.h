// The join of two given tables as a plain C program, with the arguments of the archive's function; and the search of the pairs of states by itself, in three forms.
#ifndef BENCH_JOIN_PLAIN_H
#define BENCH_JOIN_PLAIN_H
#include "../../include/join.h"
#include "../given/plain.h"

typedef struct join_answer join_function(const uint16_t *left_entries, size_t left_entry_count, const uint8_t *left_finals, size_t left_final_count, uint32_t left_letters,
    struct streams left_streams, const uint16_t *right_entries, size_t right_entry_count, const uint8_t *right_finals, size_t right_final_count,
    uint32_t right_letters, struct streams right_streams, uint16_t *entries, size_t entry_count, uint8_t *finals, size_t final_count,
    uint32_t *keys, size_t key_count, uint32_t *live, size_t live_count, uint32_t *class, size_t class_count, uint32_t *next, size_t next_count,
    uint32_t *heads, size_t head_count, uint32_t *links, size_t link_count, uint32_t *envelopes, size_t envelope_count);

join_function plain_join;

// The numbers of each joined letter in the two tables.
typedef struct { size_t letters; uint16_t left[GIVEN_LETTERS], right[GIVEN_LETTERS]; } cuts;

// The joined streams, and the cuts of their letters; refusal 0, 17 or 7.
uint32_t plain_streams(const struct streams *left, const struct streams *right, struct streams *joined, cuts *c);

// What is lent for the search: rows of entries and flags, keys, and heads and links of chains. `limit` is the most rows.
typedef struct { uint16_t *entries; uint8_t *flags; uint32_t *keys, *heads, *links; size_t buckets, limit; } pair_rows;

typedef size_t search_function(const given *left, const given *right, const cuts *c, pair_rows *r, uint32_t *all);

// Row by row and letter by letter the pairs that records lead to, from (0, 0) on: the number of pairs, or 0 where they are more than the limit. By chains: a pair is looked
// for in the chain of its bucket. Remembered: the same, but not for a pair that the letter before led to. Of all pairs: the row of each pair stands in `all`, which has a number
// for each pair of rows and is 0 before and after the call; the others do not use it.
search_function search_chains, search_remembered, search_all;

#endif
