// Tables that a host gives with their streams, as a plain C program: what refusal 11 says of them. The benchmarks of joins and of carrying use it.
#ifndef BENCH_GIVEN_PLAIN_H
#define BENCH_GIVEN_PLAIN_H
#include "../../include/streams.h"

enum { GIVEN_ROWS = 4096, GIVEN_LETTERS = 1024 };

typedef struct {
    const uint16_t *entries;
    size_t entry_count;
    const uint8_t *finals;
    size_t rows;
    uint32_t letters;
    const struct streams *streams;
} given;

// Whether the table is well formed, an accepted sheet could have the streams, and they make the table's letters.
int plain_is_given(const given *g);

// How many values a stream has.
size_t stream_size(const struct streams *s, size_t stream);

// Whether the streams at these places have the same name, and the same range and kind.
int same_name(const struct streams *a, size_t i, const struct streams *b, size_t j);
int same_range_and_kind(const struct streams *a, size_t i, const struct streams *b, size_t j);

#endif
