// The passes of `minimise` (crates/minimise and those that it names) as a plain C program.
#include "plain.h"
#include <string.h>

int plain_is_graph(const tables *t) {
    size_t met = 1;
    for (size_t s = 0; s < t->rows; s++) if (t->flags[s] > 1) return 0;
    for (size_t s = 0; s < t->rows; s++) {
        if (s >= met) return 0;
        for (size_t a = 0; a < t->letters; a++) {
            uint16_t u = t->entries[s * t->letters + a];
            if (u == NONE) continue;
            if (u > met || u >= t->rows || t->flags[u] < t->flags[s]) return 0;
            if (u == met) met++;
        }
    }
    return met == t->rows;
}

static int has_marked(const tables *t, size_t s, const uint32_t *marks) {
    const uint16_t *row = t->entries + s * t->letters;
    for (size_t a = 0; a < t->letters; a++) if (row[a] < t->rows && marks[row[a]] == 1) return 1;
    return 0;
}

// Turns marks to 1 where a row has a marked successor, or to 0 where it has none: down and up the rows by turns, until nothing changes.
static int turns(const tables *t, size_t s, const uint32_t *marks, int to) { return (marks[s] == 1) != to && has_marked(t, s, marks) == to; }

static void sweeps(const tables *t, uint32_t *marks, int to) {
    for (int changed = 1; changed;) {
        changed = 0;
        for (size_t s = t->rows; s-- > 0;) if (turns(t, s, marks, to)) { marks[s] = to; changed = 1; }
        if (!changed) return;
        changed = 0;
        for (size_t s = 0; s < t->rows; s++) if (turns(t, s, marks, to)) { marks[s] = to; changed = 1; }
    }
}

static void prune(const tables *t, uint32_t *marks) { sweeps(t, marks, 0); }

static void grow(const tables *t, uint32_t *marks) { sweeps(t, marks, 1); }

static uint32_t class_at(const uint32_t *class, size_t rows, uint16_t u) { return u < rows ? class[u] : 0; }

// The envelope of each row in `envelopes`: the first letter that leads to a live row times 65,536, and one more than the last. With more letters than 65,535 it is 0.
static void find_envelopes(tables *t) {
    for (size_t s = 0; s < t->rows; s++) {
        const uint16_t *row = t->entries + s * t->letters;
        size_t begin = 0, end = t->letters;
        t->envelopes[s] = 0;
        if (t->letters > 65535) continue;
        while (begin < t->letters && class_at(t->live, t->rows, row[begin]) != 1) begin++;
        while (end > begin && class_at(t->live, t->rows, row[end - 1]) != 1) end--;
        t->envelopes[s] = begin * 65536 + end;
    }
}

static size_t envelope_begin(const tables *t, uint32_t envelope) { return t->letters > 65535 ? 0 : envelope / 65536; }

static size_t envelope_end(const tables *t, uint32_t envelope) { return t->letters > 65535 ? t->letters : envelope % 65536; }

static void refine(tables *t) {
    uint32_t done = 0, pending = 0;
    find_envelopes(t);
    for (size_t s = 0; s < t->rows; s++) {
        uint32_t *name = t->flags[s] == 1 ? &done : &pending;
        if (t->live[s] != 1) { t->class[s] = 0; continue; }
        if (*name == 0) *name = s + 1;
        t->class[s] = *name;
    }
    // The new classes go into the other list; after a round that changes none, both lists are the same. Before a row has its new class, its place there
    // says whether its class has another row.
    uint32_t *class = t->class, *next = t->next;
    for (int changed = 1; changed;) {
        changed = 0;
        memset(next, 0, t->rows * 4);
        memset(t->heads, 0, t->rows * 4);
        for (size_t s = 0; s < t->rows; s++) if (class[s] && class[s] != s + 1) next[class[s] - 1] = 1;
        for (size_t s = 0; s < t->rows; s++) {
            uint32_t old = class[s], envelope = t->envelopes[s];
            int alone = !old || (old == s + 1 && next[s] != 1);
            next[s] = old;
            if (alone) continue;
            size_t begin = envelope_begin(t, envelope), end = envelope_end(t, envelope);
            const uint16_t *row = t->entries + s * t->letters;
            uint64_t h = ((uint64_t)old * 2654435761u + envelope) & 0xffffffffu;
            for (size_t a = begin; a < end; a++) h = (h * 2654435761u + class_at(class, t->rows, row[a])) & 0xffffffffu;
            size_t b = (h / 32768 + h) % t->rows;
            uint32_t j = t->heads[b];
            while (j) {
                if (class[j - 1] == old && t->envelopes[j - 1] == envelope) {
                    const uint16_t *other = t->entries + (j - 1) * t->letters;
                    size_t a = begin;
                    while (a < end && class_at(class, t->rows, row[a]) == class_at(class, t->rows, other[a])) a++;
                    if (a == end) break;
                }
                j = t->links[j - 1];
            }
            if (!j) { t->links[s] = t->heads[b]; t->heads[b] = s + 1; j = s + 1; }
            next[s] = j;
            if (j != old) changed = 1;
        }
        uint32_t *swap = class;
        class = next;
        next = swap;
    }
}

minimised plain_reduce(tables *t) {
    minimised r = { 9, 0 };
    for (size_t s = 0; s < t->rows; s++) t->live[s] = 1;
    prune(t, t->live);
    for (size_t s = 0; s < t->rows; s++) if (t->flags[s] != 1) t->live[s] = 0;
    grow(t, t->live);
    if (t->live[0] != 1) return r;
    for (size_t s = 0; s < t->rows; s++) t->next[s] = t->live[s] == 1 && t->flags[s] != 1;
    prune(t, t->next);
    for (size_t s = 0; s < t->rows; s++) t->flags[s] = t->live[s] == 1 && t->next[s] != 1;
    refine(t);
    uint32_t n = 0;
    for (size_t s = 0; s < t->rows; s++) if (t->class[s] == s + 1) { t->next[s] = n; t->heads[n++] = s; }
    for (size_t j = 0; j < n; j++) {
        const uint16_t *from = t->entries + t->heads[j] * t->letters;
        uint16_t *to = t->entries + j * t->letters;
        for (size_t a = 0; a < t->letters; a++) { uint32_t c = class_at(t->class, t->rows, from[a]); to[a] = c ? t->next[c - 1] : NONE; }
        t->flags[j] = t->flags[t->heads[j]];
    }
    r.refusal = 0;
    r.states = n;
    return r;
}
