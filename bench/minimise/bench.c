// Runs `minimise` and a plain C program of the same algorithm on the same graphs, one after the other, and prints the time of each
// and their ratio. Each time is the least of several runs. Both answers are compared.
#include "plain.h"
#include <stdio.h>
#include <stdlib.h>
#include <string.h>
#include <time.h>

// the archive's function: a slice is a pointer and a length
extern minimised minimise_c(uint16_t *entries, size_t n, uint8_t *flags, size_t m, size_t letters, size_t rows, uint32_t *live, size_t n1,
    uint32_t *class, size_t n2, uint32_t *next, size_t n3, uint32_t *heads, size_t n4, uint32_t *links, size_t n5, uint32_t *envelopes, size_t n6);

static __attribute__((noinline)) minimised plain(tables *t, size_t room, size_t work) {
    minimised r = { 11, 0 };
    if (plain_is_graph(t)) r = plain_reduce(t);
    memset(t->entries + r.states * t->letters, 0, (room * t->letters - r.states * t->letters) * 2);
    memset(t->flags + r.states, 0, room - r.states);
    memset(t->live, 0, work * 4);
    memset(t->class, 0, work * 4);
    memset(t->next, 0, work * 4);
    memset(t->heads, 0, work * 4);
    memset(t->links, 0, work * 4);
    memset(t->envelopes, 0, work * 4);
    return r;
}

// ---- graphs

static uint64_t seed = 88172645463325252ull;
static uint32_t rnd(uint32_t n) { seed ^= seed << 13; seed ^= seed >> 7; seed ^= seed << 17; return (uint32_t)((seed >> 20) % n); }

// numbers the part that node 0 reaches in the order in which it is first met; gives its size
static size_t renumber(const int32_t *edge, const uint8_t *flag, size_t rows, size_t letters, uint16_t *entries, uint8_t *flags) {
    int32_t *at = malloc(rows * sizeof *at), *order = malloc(rows * sizeof *order);
    size_t met = 1;
    for (size_t s = 0; s < rows; s++) at[s] = -1;
    at[0] = 0;
    order[0] = 0;
    for (size_t i = 0; i < met; i++) for (size_t a = 0; a < letters; a++) {
        int32_t u = edge[order[i] * letters + a];
        if (u < 0) { entries[i * letters + a] = NONE; continue; }
        if (at[u] < 0) { at[u] = met; order[met++] = u; }
        entries[i * letters + a] = at[u];
    }
    for (size_t i = 0; i < met; i++) flags[i] = flag[order[i]];
    free(at);
    free(order);
    return met;
}

// flags never fall: a node that a flagged node leads to is flagged
static void raise(const int32_t *edge, uint8_t *flag, size_t rows, size_t letters) {
    for (int changed = 1; changed;) {
        changed = 0;
        for (size_t s = 0; s < rows; s++) if (flag[s]) for (size_t a = 0; a < letters; a++) {
            int32_t u = edge[s * letters + a];
            if (u >= 0 && !flag[u]) { flag[u] = 1; changed = 1; }
        }
    }
}

enum kind { RANDOM, CHAIN, COUNTER, GRID, LIVE, DEAD, KINDS };
static const char *kind_name[] = { "random", "chain", "counter", "grid", "all live", "all dead" };

static size_t make(enum kind k, size_t rows, size_t letters, uint16_t *entries, uint8_t *flags) {
    int32_t *edge = malloc(rows * letters * sizeof *edge);
    uint8_t *flag = calloc(rows, 1);
    size_t side = 1;
    while ((side + 1) * (side + 1) <= rows) side++;
    if (k == GRID) rows = side * side;
    for (size_t s = 0; s < rows; s++) for (size_t a = 0; a < letters; a++) {
        int32_t u = -1;
        switch (k) {
        // a tenth of the entries missing, a few flagged
        case RANDOM: u = rnd(10) ? (int32_t)rnd(rows) : -1; break;
        // one way on, by letter 0; the other letters are missing
        case CHAIN: u = a == 0 ? (int32_t)(s + 1 < rows ? s + 1 : s) : -1; break;
        // each letter adds its number, up to the last row
        case COUNTER: u = s + a < rows ? (int32_t)(s + a) : (int32_t)(rows - 1); break;
        // four moves on a square, the other letters stay; the far corner is done
        case GRID: {
            size_t x = s % side, y = s / side;
            if (a % 4 == 0 && x + 1 < side) x++;
            else if (a % 4 == 1 && y + 1 < side) y++;
            else if (a % 4 == 2 && x > 0) x--;
            else if (a % 4 == 3 && y > 0) y--;
            u = s + 1 == side * side ? (int32_t)s : (int32_t)(y * side + x);
            break;
        }
        // every entry a row, all flagged: one state
        case LIVE: u = a == 0 && s + 1 < rows ? (int32_t)(s + 1) : (int32_t)rnd(rows); break;
        // a tree that ends: nothing is live
        default: u = s * letters + a + 1 < rows ? (int32_t)(s * letters + a + 1) : -1; break;
        }
        edge[s * letters + a] = u;
    }
    for (size_t s = 0; s < rows; s++) switch (k) {
        case RANDOM: flag[s] = rnd(50) == 0; break;
        case LIVE: case DEAD: flag[s] = 1; break;
        default: flag[s] = s + 1 == rows; break;
    }
    raise(edge, flag, rows, letters);
    size_t n = renumber(edge, flag, rows, letters, entries, flags);
    free(edge);
    free(flag);
    return n;
}

static double now(void) { struct timespec t; clock_gettime(CLOCK_MONOTONIC, &t); return t.tv_sec + t.tv_nsec * 1e-9; }

int main(void) {
    static const size_t all_rows[] = { 64, 512, 4096 }, all_letters[] = { 2, 16, 128, 1024 };
    double worst = 0;
    printf("graph rows letters states: rattle us, c us, ratio\n");
    for (int k = 0; k < KINDS; k++) for (size_t i = 0; i < 3; i++) for (size_t l = 0; l < 4; l++) {
        size_t rows = all_rows[i], letters = all_letters[l], room = rows, work = rows;
        uint16_t *entries = calloc(rows * letters, 2), *mine = malloc(rows * letters * 2), *other = malloc(rows * letters * 2);
        uint8_t *flags = calloc(rows, 1), *my_flags = malloc(rows), *other_flags = malloc(rows);
        uint32_t *w[6];
        for (int j = 0; j < 6; j++) w[j] = calloc(rows, 4);
        size_t n = make(k, rows, letters, entries, flags);
        double best = 1e9, plain_best = 1e9;
        minimised r = { 0, 0 }, p = { 0, 0 };
        // at least five runs of each, and more for at most a fifth of a second
        double began = now();
        for (size_t turn = 0; turn < 5 || now() - began < 0.2; turn++) {
            memcpy(mine, entries, rows * letters * 2);
            memcpy(my_flags, flags, rows);
            double t0 = now();
            r = minimise_c(mine, room * letters, my_flags, room, letters, n, w[0], work, w[1], work, w[2], work, w[3], work, w[4], work, w[5], work);
            double t1 = now();
            memcpy(other, entries, rows * letters * 2);
            memcpy(other_flags, flags, rows);
            tables t = { other, other_flags, letters, n, w[0], w[1], w[2], w[3], w[4], w[5] };
            double t2 = now();
            p = plain(&t, room, work);
            double t3 = now();
            if (t1 - t0 < best) best = t1 - t0;
            if (t3 - t2 < plain_best) plain_best = t3 - t2;
        }
        if (r.refusal != p.refusal || r.states != p.states || memcmp(mine, other, rows * letters * 2) || memcmp(my_flags, other_flags, rows)) {
            printf("the answers differ\n");
            return 1;
        }
        printf("%-8s %5zu %5zu %5u: %10.1f %10.1f %5.2f\n", kind_name[k], n, letters, r.states, best * 1e6, plain_best * 1e6, best / plain_best);
        if (best / plain_best > worst) worst = best / plain_best;
        free(entries); free(mine); free(other); free(flags); free(my_flags); free(other_flags);
        for (int j = 0; j < 6; j++) free(w[j]);
    }
    printf("worst ratio %.2f\n", worst);
    return 0;
}
