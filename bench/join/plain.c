// The join as a plain C program: streams and cuts of letters, the search of the pairs with hashed chains, and the passes from the graph to the table (bench/minimise).
#include "plain.h"
#include "../minimise/plain.h"
#include <string.h>

// ---- streams

static size_t place_of(const struct streams *s, const struct streams *other, size_t stream) {
    for (size_t k = 0; k < s->count; k++) if (same_name(s, k, other, stream)) return k;
    return s->count;
}

static void put_stream(struct streams *to, size_t place, const struct streams *from, size_t stream) {
    memcpy(to->names + STREAMS_NAME * place, from->names + STREAMS_NAME * stream, from->lengths[stream]);
    to->lengths[place] = from->lengths[stream];
    to->lows[place] = from->lows[stream];
    to->highs[place] = from->highs[stream];
    to->kinds[place] = from->kinds[stream];
}

// The number that each joined letter has over a table's own streams: the last one counts fastest.
static void fill_cuts(const struct streams *joined, const struct streams *own, size_t letters, uint16_t *numbers) {
    size_t strides[STREAMS_MOST] = { 0 }, stride = 1;
    for (size_t k = own->count; k-- > 0;) {
        strides[place_of(joined, own, k)] = stride;
        stride *= stream_size(own, k);
    }
    for (size_t letter = 0; letter < letters; letter++) {
        size_t rest = letter, number = 0;
        for (size_t k = joined->count; k-- > 0;) {
            size_t size = stream_size(joined, k);
            number += rest % size * strides[k];
            rest /= size;
        }
        numbers[letter] = (uint16_t)number;
    }
}

uint32_t plain_streams(const struct streams *left, const struct streams *right, struct streams *joined, cuts *c) {
    size_t count = left->count;
    for (size_t k = 0; k < right->count; k++) {
        size_t place = place_of(left, right, k);
        if (place < left->count && !same_range_and_kind(left, place, right, k)) return 17;
        count += place == left->count;
    }
    if (count > STREAMS_MOST) return 7;
    memset(joined, 0, sizeof *joined);
    for (size_t k = 0; k < left->count; k++) put_stream(joined, k, left, k);
    joined->count = left->count;
    for (size_t k = 0; k < right->count; k++) if (place_of(left, right, k) == left->count) put_stream(joined, joined->count++, right, k);
    c->letters = 1;
    for (size_t k = 0; k < joined->count; k++) {
        c->letters *= stream_size(joined, k);
        if (c->letters > GIVEN_LETTERS) return 7;
    }
    fill_cuts(joined, left, c->letters, c->left);
    fill_cuts(joined, right, c->letters, c->right);
    return 0;
}

// ---- pairs

static uint32_t key_of(uint16_t p, uint16_t q) { return (uint32_t)p * GIVEN_ROWS + q; }

// The high half is added: the low bits of the product alone depend on the low bits of the key, so that with 4,096 buckets all pairs with the same right row would share one.
static size_t bucket_of(uint32_t key, size_t buckets) {
    uint64_t h = (uint32_t)(key * 2654435761u);
    return (size_t)((h / 32768 + h) % buckets);
}

static uint8_t both_final(const given *left, const given *right, uint32_t key) { return left->finals[key / GIVEN_ROWS] & right->finals[key % GIVEN_ROWS]; }

// The row that holds the key. A new key becomes row n if there is room.
static size_t settle(pair_rows *r, size_t n, uint32_t key) {
    size_t b = bucket_of(key, r->buckets);
    for (uint32_t j = r->heads[b]; j; j = r->links[j - 1]) if (r->keys[j - 1] == key) return j - 1;
    if (n < r->limit) {
        r->keys[n] = key;
        r->links[n] = r->heads[b];
        r->heads[b] = (uint32_t)(n + 1);
    }
    return n;
}

size_t search_chains(const given *left, const given *right, const cuts *c, pair_rows *r, uint32_t *all) {
    uint16_t *to = r->entries;
    size_t n = 1;
    (void)all;
    if (r->limit == 0) return 0;
    memset(r->heads, 0, r->buckets * sizeof *r->heads);
    settle(r, 0, 0);
    for (size_t i = 0; i < n; i++) {
        const uint16_t *ps = left->entries + r->keys[i] / GIVEN_ROWS * left->letters, *qs = right->entries + r->keys[i] % GIVEN_ROWS * right->letters;
        r->flags[i] = both_final(left, right, r->keys[i]);
        for (size_t a = 0; a < c->letters; a++) {
            uint16_t p = ps[c->left[a]], q = qs[c->right[a]];
            size_t row = NONE;
            if (p != NONE && q != NONE) {
                row = settle(r, n, key_of(p, q));
                if (row == r->limit) return 0;
                if (row == n) n++;
            }
            *to++ = (uint16_t)row;
        }
    }
    return n;
}

size_t search_remembered(const given *left, const given *right, const cuts *c, pair_rows *r, uint32_t *all) {
    uint16_t *to = r->entries;
    uint32_t last = UINT32_MAX;
    size_t n = 1, row = 0;
    (void)all;
    if (r->limit == 0) return 0;
    memset(r->heads, 0, r->buckets * sizeof *r->heads);
    settle(r, 0, 0);
    for (size_t i = 0; i < n; i++) {
        const uint16_t *ps = left->entries + r->keys[i] / GIVEN_ROWS * left->letters, *qs = right->entries + r->keys[i] % GIVEN_ROWS * right->letters;
        r->flags[i] = both_final(left, right, r->keys[i]);
        for (size_t a = 0; a < c->letters; a++) {
            uint16_t p = ps[c->left[a]], q = qs[c->right[a]];
            if (p == NONE || q == NONE) {
                *to++ = NONE;
                continue;
            }
            uint32_t key = key_of(p, q);
            if (key != last) {
                row = settle(r, n, key);
                if (row == r->limit) return 0;
                if (row == n) n++;
                last = key;
            }
            *to++ = (uint16_t)row;
        }
    }
    return n;
}

static void forget(const given *right, const pair_rows *r, size_t n, uint32_t *all) {
    for (size_t i = 0; i < n; i++) all[r->keys[i] / GIVEN_ROWS * right->rows + r->keys[i] % GIVEN_ROWS] = 0;
}

size_t search_all(const given *left, const given *right, const cuts *c, pair_rows *r, uint32_t *all) {
    uint16_t *to = r->entries;
    size_t n = 1;
    if (r->limit == 0) return 0;
    r->keys[0] = 0;
    all[0] = 1;
    for (size_t i = 0; i < n; i++) {
        const uint16_t *ps = left->entries + r->keys[i] / GIVEN_ROWS * left->letters, *qs = right->entries + r->keys[i] % GIVEN_ROWS * right->letters;
        r->flags[i] = both_final(left, right, r->keys[i]);
        for (size_t a = 0; a < c->letters; a++) {
            uint16_t p = ps[c->left[a]], q = qs[c->right[a]];
            if (p == NONE || q == NONE) {
                *to++ = NONE;
                continue;
            }
            uint32_t *known = all + p * right->rows + q;
            if (*known == 0) {
                if (n == r->limit) {
                    forget(right, r, n, all);
                    return 0;
                }
                r->keys[n++] = key_of(p, q);
                *known = (uint32_t)n;
            }
            *to++ = (uint16_t)(*known - 1);
        }
    }
    forget(right, r, n, all);
    return n;
}

// ---- the join

static size_t fewer(size_t a, size_t b) { return a < b ? a : b; }

struct join_answer plain_join(const uint16_t *left_entries, size_t left_entry_count, const uint8_t *left_finals, size_t left_final_count, uint32_t left_letters,
    struct streams left_streams, const uint16_t *right_entries, size_t right_entry_count, const uint8_t *right_finals, size_t right_final_count,
    uint32_t right_letters, struct streams right_streams, uint16_t *entries, size_t entry_count, uint8_t *finals, size_t final_count,
    uint32_t *keys, size_t key_count, uint32_t *live, size_t live_count, uint32_t *class, size_t class_count, uint32_t *next, size_t next_count,
    uint32_t *heads, size_t head_count, uint32_t *links, size_t link_count, uint32_t *envelopes, size_t envelope_count) {
    given left = { left_entries, left_entry_count, left_finals, left_final_count, left_letters, &left_streams };
    given right = { right_entries, right_entry_count, right_finals, right_final_count, right_letters, &right_streams };
    struct streams joined;
    cuts c;
    struct join_answer answer;
    size_t used = 0;
    memset(&answer, 0, sizeof answer);
    answer.refusal = plain_is_given(&left) && plain_is_given(&right) ? plain_streams(&left_streams, &right_streams, &joined, &c) : 11;
    if (answer.refusal == 0) {
        size_t lent = fewer(entry_count / c.letters, fewer(final_count, key_count));
        lent = fewer(lent, fewer(live_count, fewer(class_count, fewer(next_count, fewer(head_count, fewer(link_count, envelope_count))))));
        pair_rows r = { entries, finals, keys, heads, links, head_count, fewer(lent, GIVEN_ROWS) };
        size_t count = search_chains(&left, &right, &c, &r, NULL);
        answer.refusal = lent < GIVEN_ROWS ? 10 : 8;
        if (count) {
            tables t = { entries, finals, c.letters, count, live, class, next, heads, links, envelopes };
            minimised m = { 11, 0 };
            // flags of compiled tables never fall
            if (plain_is_graph(&t)) m = plain_reduce(&t);
            answer.refusal = m.refusal;
            if (m.refusal == 0) {
                answer.states = m.states;
                answer.pairs = (uint32_t)count;
                answer.letters = (uint32_t)c.letters;
                answer.streams = joined;
                used = m.states * c.letters;
            }
        }
    }
    memset(entries + used, 0, (entry_count - used) * sizeof *entries);
    memset(finals + answer.states, 0, final_count - answer.states);
    memset(keys, 0, key_count * sizeof *keys);
    memset(live, 0, live_count * sizeof *live);
    memset(class, 0, class_count * sizeof *class);
    memset(next, 0, next_count * sizeof *next);
    memset(heads, 0, head_count * sizeof *heads);
    memset(links, 0, link_count * sizeof *links);
    memset(envelopes, 0, envelope_count * sizeof *envelopes);
    return answer;
}
