// Runs `course` and a plain C program of the same passes on the same tables, one after the other, and prints the time of each and their ratio.
// Each time is the least of several runs. Both answers, lists and work rooms are compared.
#include "plain.h"
#include <stdio.h>
#include <stdlib.h>
#include <string.h>
#include <time.h>

static uint64_t seed = 88172645463325252ull;
static uint32_t rnd(uint32_t n) { seed ^= seed << 13; seed ^= seed >> 7; seed ^= seed << 17; return (uint32_t)((seed >> 20) % n); }

enum kind { CHAIN, LADDER, DENSE, LAYERS, RANDOM, ENDLESS, KINDS };
static const char *kind_name[] = { "chain", "ladder", "dense", "layers", "random", "endless" };

static uint16_t entry(enum kind k, size_t rows, size_t letters, size_t s, size_t a) {
    int is_last = a == letters - 1;
    uint16_t on = (uint16_t)(s + 1 < rows ? s + 1 : s);
    switch (k) {
    // the last letter leads one row on, the others are missing: the longest course, and every entry is looked at
    case CHAIN: return is_last ? on : 65535;
    // the last letter leads one row on, the others to any row up to this one
    case LADDER: return is_last ? on : (uint16_t)rnd((uint32_t)s + 1);
    // every letter but a few, which are others in each row, leads one row on: the longest course with the most ways
    case DENSE: return rnd(4) ? on : 65535;
    // sixteen layers; a letter leads to any row of the next layer, or to none
    case LAYERS: {
        size_t wide = rows / 16 ? rows / 16 : 1, next = (s / wide + 1) * wide;
        return next >= rows || !rnd(4) ? 65535 : (uint16_t)(next + rnd((uint32_t)(rows - next < wide ? rows - next : wide)));
    }
    // a tenth of the entries is missing
    default: return rnd(10) ? (uint16_t)rnd((uint32_t)rows) : 65535;
    }
}

// streams that make the letters: one, or up to eight, of which the first is read
static struct streams streams_for(size_t letters, int many) {
    struct streams s;
    memset(&s, 0, sizeof s);
    size_t left = letters;
    while (s.count == 0 || left > 1) {
        size_t rest = STREAMS_MOST - s.count, size = left;
        if (many && left > 1) for (size = 2; ; size *= 2) {
            size_t reach = 1;
            for (size_t i = 0; i < rest; i++) reach *= size;
            if (reach >= left) break;
        }
        s.names[STREAMS_NAME * s.count] = (uint8_t)('a' + s.count);
        s.lengths[s.count] = 1;
        s.highs[s.count] = (int64_t)size - 1;
        s.kinds[s.count] = many && s.count == 0 && size < letters ? STREAM_READ : STREAM_SET;
        s.count++;
        left /= size;
    }
    return s;
}

static double now(void) { struct timespec t; clock_gettime(CLOCK_MONOTONIC, &t); return t.tv_sec + t.tv_nsec * 1e-9; }

int main(void) {
    static const size_t all_rows[] = { 2, 64, 512, 4096 }, all_letters[] = { 1, 16, 128, 1024 };
    double worst = 0;
    printf("table rows letters streams refusal course: rattle us, c us, ratio\n");
    for (int k = 0; k < KINDS; k++) for (size_t i = 0; i < 4; i++) for (size_t l = 0; l < 4; l++) for (int many = 0; many < (l ? 2 : 1); many++) {
        size_t rows = all_rows[i], letters = all_letters[l], size = rows * letters;
        struct streams streams = streams_for(letters, many);
        uint16_t *entries = malloc(size * sizeof *entries), *work = calloc(size, sizeof *work), *room = calloc(size, sizeof *room);
        uint8_t *finals = calloc(rows, 1);
        uint32_t *mine = malloc(rows * sizeof *mine), *other = malloc(rows * sizeof *other);
        for (size_t s = 0; s < rows; s++) for (size_t a = 0; a < letters; a++) entries[s * letters + a] = entry(k, rows, letters, s, a);
        finals[rows - 1] = k != ENDLESS;
        double best = 1e9, plain_best = 1e9;
        struct course_answer r = { 0, 0 }, p = { 0, 0 };
        // at least five runs of each, and more for at most a fifth of a second
        double began = now();
        for (size_t turn = 0; turn < 5 || now() - began < 0.2; turn++) {
            double t0 = now();
            r = course_c(entries, size, finals, rows, (uint32_t)letters, streams, 0, mine, rows, work, size);
            double t1 = now();
            p = plain_course(entries, size, finals, rows, (uint32_t)letters, streams, 0, other, rows, room, size);
            double t2 = now();
            if (t1 - t0 < best) best = t1 - t0;
            if (t2 - t1 < plain_best) plain_best = t2 - t1;
        }
        if (r.refusal != p.refusal || r.count != p.count || memcmp(mine, other, rows * sizeof *mine) || memcmp(work, room, size * sizeof *work)) {
            printf("the answers differ\n");
            return 1;
        }
        printf("%-8s %5zu %5zu %2zu %3u %5u: %10.1f %10.1f %5.2f\n", kind_name[k], rows, letters, streams.count, r.refusal, r.count, best * 1e6, plain_best * 1e6, best / plain_best);
        fflush(stdout);
        if (best / plain_best > worst) worst = best / plain_best;
        free(entries); free(work); free(room); free(finals); free(mine); free(other);
    }
    printf("worst ratio %.2f\n", worst);
    return 0;
}
