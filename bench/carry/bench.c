// Runs `carry` and a plain C program of the same queue on the same tables, one after the other, and prints the time of each and their ratio.
// Each time is the least of several runs. Both answers and lists are compared.
#include "plain.h"
#include <stdio.h>
#include <stdlib.h>
#include <string.h>
#include <time.h>

static uint64_t seed = 88172645463325252ull;
static uint32_t rnd(uint32_t n) { seed ^= seed << 13; seed ^= seed >> 7; seed ^= seed << 17; return (uint32_t)((seed >> 20) % n); }

enum kind { CHAIN, CYCLE, RANDOM, KINDS };
static const char *kind_name[] = { "chain", "cycle", "random" };

static uint16_t entry(enum kind k, size_t rows, size_t letters, size_t s, size_t a) {
    switch (k) {
    // the last letter leads one row on, the others are missing
    case CHAIN: return a != letters - 1 ? 65535 : (uint16_t)(s + 1 < rows ? s + 1 : s);
    // the last letter leads one row on, and from the last row to the first; the others stay
    case CYCLE: return (uint16_t)(a == letters - 1 ? (s + 1) % rows : s);
    // a tenth of the entries is missing
    default: return rnd(10) ? (uint16_t)rnd((uint32_t)rows) : 65535;
    }
}

// one stream that makes the letters
static struct streams stream_for(size_t letters) {
    struct streams s;
    memset(&s, 0, sizeof s);
    s.count = 1;
    s.names[0] = 'x';
    s.lengths[0] = 1;
    s.highs[0] = (int64_t)letters - 1;
    return s;
}

static double now(void) { struct timespec t; clock_gettime(CLOCK_MONOTONIC, &t); return t.tv_sec + t.tv_nsec * 1e-9; }

int main(void) {
    static const size_t all_rows[] = { 2, 64, 512, 4096 }, all_letters[] = { 1, 16, 128, 1024 };
    double worst = 0;
    printf("table rows letters refusal: rattle us, c us, ratio\n");
    for (int k = 0; k < KINDS; k++) for (size_t i = 0; i < 4; i++) for (size_t l = 0; l < 4; l++) {
        size_t rows = all_rows[i], letters = all_letters[l], size = rows * letters;
        struct streams streams = stream_for(letters);
        uint16_t *entries = malloc(size * sizeof *entries), *new_entries = malloc(size * sizeof *new_entries), *mine = malloc(rows * sizeof *mine), *other = malloc(rows * sizeof *other);
        uint8_t *finals = calloc(rows, 1);
        for (size_t s = 0; s < rows; s++) for (size_t a = 0; a < letters; a++) entries[s * letters + a] = entry(k, rows, letters, s, a);
        // a copy, so that each row goes on in itself and every entry of both tables is looked at
        memcpy(new_entries, entries, size * sizeof *entries);
        double best = 1e9, plain_best = 1e9;
        uint32_t r = 0, p = 0;
        // at least nine runs of each, and more for at most a second
        double began = now();
        for (size_t turn = 0; turn < 9 || now() - began < 1; turn++) {
            double t0 = now();
            r = carry_c(entries, size, finals, rows, (uint32_t)letters, streams, new_entries, size, finals, rows, (uint32_t)letters, streams, mine, rows);
            double t1 = now();
            p = plain_carry(entries, size, finals, rows, (uint32_t)letters, streams, new_entries, size, finals, rows, (uint32_t)letters, streams, other, rows);
            double t2 = now();
            if (t1 - t0 < best) best = t1 - t0;
            if (t2 - t1 < plain_best) plain_best = t2 - t1;
        }
        if (r != p || memcmp(mine, other, rows * sizeof *mine)) {
            printf("the answers differ\n");
            return 1;
        }
        printf("%-8s %5zu %5zu %3u: %10.1f %10.1f %5.2f\n", kind_name[k], rows, letters, r, best * 1e6, plain_best * 1e6, best / plain_best);
        fflush(stdout);
        if (best / plain_best > worst) worst = best / plain_best;
        free(entries); free(new_entries); free(finals); free(mine); free(other);
    }
    printf("worst ratio %.2f\n", worst);
    return 0;
}
