// Runs the archive's compile and the plain C program on the same sheets, one after the other, and prints the time of each and their
// ratio. Each time is the least of several runs. The answers and all tables are compared.
//
//     bench DIRECTORY
//
// The directory is written by sheets.py. As many rows are lent as the sheet has situations, so that clearing unused rows does not
// stand for the rest of the work.
#define _POSIX_C_SOURCE 200809L
#include "plain.h"
#include <stdio.h>
#include <stdlib.h>
#include <string.h>
#include <time.h>

enum { KEY = COMPILE_KEY, WORK = 6, TEXT = 16384 };

typedef struct { size_t entry_count, rows; uint16_t *entries; uint8_t *finals; uint32_t *keys, *work[WORK]; } room;

static void *zeros(size_t count, size_t size) {
    void *p = calloc(count, size);
    if (!p) { fprintf(stderr, "no memory\n"); exit(2); }
    return p;
}

static room lend(size_t rows, size_t letters) {
    room r = { rows * letters, rows, zeros(rows * letters, 2), zeros(rows, 1), zeros(rows * KEY, 4), { 0 } };
    for (int i = 0; i < WORK; i++) r.work[i] = zeros(rows, 4);
    return r;
}

static void take_back(room *r) {
    free(r->entries);
    free(r->finals);
    free(r->keys);
    for (int i = 0; i < WORK; i++) free(r->work[i]);
}

static compiled call(compile_function *f, const uint8_t *text, size_t length, room *r) {
    return f(text, length, r->entries, r->entry_count, r->finals, r->rows, r->keys, r->rows * KEY, r->work[0], r->rows, r->work[1], r->rows,
        r->work[2], r->rows, r->work[3], r->rows, r->work[4], r->rows, r->work[5], r->rows);
}

static int same(const room *a, const room *b) {
    if (memcmp(a->entries, b->entries, a->entry_count * 2) || memcmp(a->finals, b->finals, a->rows)) return 0;
    if (memcmp(a->keys, b->keys, a->rows * KEY * 4)) return 0;
    for (int i = 0; i < WORK; i++) if (memcmp(a->work[i], b->work[i], a->rows * 4)) return 0;
    return 1;
}

// processor time, since other programs may run beside this one
static double now(void) { struct timespec t; clock_gettime(CLOCK_PROCESS_CPUTIME_ID, &t); return t.tv_sec + t.tv_nsec * 1e-9; }

// The time of one call, if it is less than the least so far.
static compiled timed(compile_function *f, const uint8_t *text, size_t length, room *r, double *least) {
    double began = now();
    compiled answer = call(f, text, length, r);
    double took = now() - began;
    if (took < *least) *least = took;
    return answer;
}

static FILE *opened(const char *directory, const char *name, const char *ending) {
    char path[512];
    snprintf(path, sizeof path, "%s/%s%s", directory, name, ending);
    FILE *file = fopen(path, "rb");
    if (!file) { fprintf(stderr, "cannot open %s\n", path); exit(2); }
    return file;
}

static int by_size(const void *a, const void *b) { double x = *(const double *)a, y = *(const double *)b; return (x > y) - (x < y); }

int main(int count, char **words) {
    static uint8_t text[TEXT];
    double ratios[256];
    size_t cases = 0, letters, tokens, situations, states;
    char name[64];
    if (count != 2) { fprintf(stderr, "usage: bench DIRECTORY\n"); return 2; }
    FILE *list = opened(words[1], "list", "");
    printf("%-24s %10s %7s %6s %6s %12s %12s %6s\n", "sheet", "situations", "letters", "tokens", "states", "rattle us", "c us", "ratio");
    while (cases < 256 && fscanf(list, "%63s %zu %zu %zu %zu", name, &letters, &tokens, &situations, &states) == 5) {
        FILE *file = opened(words[1], name, ".sheet");
        size_t length = fread(text, 1, TEXT, file);
        fclose(file);
        room mine = lend(situations, letters), other = lend(situations, letters);
        double least = 1e9, plain_least = 1e9, began = now();
        compiled a, b;
        // at least five runs of each, and more for at most two seconds: other programs on the machine can slow down a shorter time as a whole
        for (size_t turn = 0; turn < 5 || now() - began < 2; turn++) {
            a = timed(compile_c, text, length, &mine, &least);
            b = timed(plain_compile, text, length, &other, &plain_least);
        }
        if (a.refusal || a.situations != situations || a.states != states || memcmp(&a, &b, sizeof a) || !same(&mine, &other)) {
            printf("%s: the answers differ\n", name);
            return 1;
        }
        ratios[cases] = least / plain_least;
        printf("%-24s %10zu %7zu %6zu %6zu %12.1f %12.1f %6.2f\n", name, situations, letters, tokens, states, least * 1e6, plain_least * 1e6, ratios[cases]);
        cases++;
        take_back(&mine);
        take_back(&other);
    }
    fclose(list);
    if (cases == 0) { fprintf(stderr, "no sheets\n"); return 2; }
    qsort(ratios, cases, sizeof *ratios, by_size);
    printf("%zu sheets: ratio %.2f to %.2f, %.2f in the middle\n", cases, ratios[0], ratios[cases - 1], ratios[cases / 2]);
    return 0;
}
