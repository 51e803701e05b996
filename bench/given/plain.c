// What crates/tables and crates/streams judge, as a plain C program.
#include "plain.h"
#include <string.h>

#define NONE UINT16_MAX
#define MAGNITUDE 1000000000

static const char *const reserved[] = { "lt", "le", "eq", "ge", "gt", "ne", "and", "or", "fby", "if", "then", "else", "first", "next", "not", "until", "read", "set" };

static int is_well_formed(const given *g) {
    if (g->letters == 0 || g->rows == 0 || g->rows > GIVEN_ROWS || g->entry_count % g->letters != 0 || g->entry_count / g->letters != g->rows) return 0;
    for (size_t row = 0; row < g->rows; row++) if (g->finals[row] > 1) return 0;
    const uint16_t limit = (uint16_t)g->rows;
    int all = 1;
    for (size_t i = 0; i < g->entry_count; i++) all &= (g->entries[i] < limit) | (g->entries[i] == NONE);
    return all;
}

size_t stream_size(const struct streams *s, size_t stream) { return (size_t)(s->highs[stream] - s->lows[stream] + 1); }

int same_name(const struct streams *a, size_t i, const struct streams *b, size_t j) {
    return a->lengths[i] == b->lengths[j] && !memcmp(a->names + STREAMS_NAME * i, b->names + STREAMS_NAME * j, a->lengths[i]);
}

int same_range_and_kind(const struct streams *a, size_t i, const struct streams *b, size_t j) {
    return a->lows[i] == b->lows[j] && a->highs[i] == b->highs[j] && a->kinds[i] == b->kinds[j];
}

static int is_name(const uint8_t *name, size_t length) {
    if (length == 0 || length > STREAMS_NAME) return 0;
    for (size_t i = 0; i < length; i++) if (name[i] < 'a' || name[i] > 'z') return 0;
    for (size_t i = 0; i < sizeof reserved / sizeof reserved[0]; i++)
        if (strlen(reserved[i]) == length && !memcmp(reserved[i], name, length)) return 0;
    return 1;
}

static int stream_fits(const struct streams *s, size_t k) {
    if (!is_name(s->names + STREAMS_NAME * k, s->lengths[k]) || s->kinds[k] > 1) return 0;
    if (s->lows[k] < -MAGNITUDE || s->highs[k] > MAGNITUDE || s->lows[k] > s->highs[k]) return 0;
    for (size_t j = 0; j < k; j++) if (same_name(s, j, s, k)) return 0;
    return 1;
}

static int streams_fit(const struct streams *s, size_t letters) {
    size_t count = 1;
    if (s->count == 0 || s->count > STREAMS_MOST || letters > GIVEN_LETTERS) return 0;
    for (size_t k = 0; k < s->count; k++) {
        if (!stream_fits(s, k)) return 0;
        count *= stream_size(s, k);
        if (count > GIVEN_LETTERS) return 0;
    }
    return count == letters;
}

int plain_is_given(const given *g) { return is_well_formed(g) && streams_fit(g->streams, g->letters); }
