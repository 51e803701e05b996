/* Measures the step of the archive and the same step in C in one run: the same tables, the same record of letters, in
 * turns. For each it prints the least time of a step over all turns, and the ratio of the two.
 */
#define _POSIX_C_SOURCE 199309L
#include <inttypes.h>
#include <stdio.h>
#include <stdlib.h>
#include <time.h>

#include "step_in_c.h"

enum { TURNS = 15, RECORD = 1 << 20 };

static uint64_t seed = UINT64_C(0x9e3779b97f4a7c15);

static uint32_t below(uint32_t bound)
{
    seed ^= seed >> 12;
    seed ^= seed << 25;
    seed ^= seed >> 27;
    return (uint32_t)((seed * UINT64_C(0x2545f4914f6cdd1d)) >> 32) % bound;
}

struct stored_table {
    uint8_t *bytes;
    size_t length;
    uint32_t letters;
};

static struct stored_table make_table(uint32_t rows, uint32_t letters)
{
    struct stored_table table = {NULL, (size_t)rows * letters * 2, letters};
    table.bytes = malloc(table.length);
    if (!table.bytes)
        exit(2);
    for (size_t i = 0; i < (size_t)rows * letters; i++) {
        uint32_t entry = below(rows);
        table.bytes[2 * i] = (uint8_t)(entry & 255);
        table.bytes[2 * i + 1] = (uint8_t)(entry >> 8);
    }
    return table;
}

static double now(void)
{
    struct timespec at;
    clock_gettime(CLOCK_MONOTONIC, &at);
    return (double)at.tv_sec * 1e9 + (double)at.tv_nsec;
}

/* a record followed from state 0, by `step` and by `advance`; each gives the last state, so that none is left out */

typedef uint32_t stepper(const uint8_t *, size_t, uint32_t, uint32_t, uint32_t);
typedef uint32_t advancer(struct step_place *, const uint8_t *, size_t, uint32_t, uint32_t);

static uint32_t follow_by_step(stepper *take, const struct stored_table *table, const uint32_t *record)
{
    uint32_t state = 0;
    for (size_t i = 0; i < RECORD; i++)
        state = take(table->bytes, table->length, table->letters, state, record[i]);
    return state;
}

static uint32_t follow_by_place(advancer *take, const struct stored_table *table, const uint32_t *record)
{
    struct step_place place = {0, 0};
    for (size_t i = 0; i < RECORD; i++)
        take(&place, table->bytes, table->length, table->letters, record[i]);
    return place.state + place.steps;
}

struct times {
    double proved;
    double in_c;
};

static void lower(double *least, double began, double ended)
{
    double each = (ended - began) / RECORD;
    if (*least == 0 || each < *least)
        *least = each;
}

static void same(uint32_t a, uint32_t b)
{
    if (a != b) {
        printf("the two steps differ: %" PRIu32 " and %" PRIu32 "\n", a, b);
        exit(1);
    }
}

static void measure(uint32_t rows, uint32_t letters)
{
    struct stored_table table = make_table(rows, letters);
    uint32_t *record = malloc(RECORD * sizeof *record);
    if (!record)
        exit(2);
    for (size_t i = 0; i < RECORD; i++)
        record[i] = below(letters);
    struct times by_step = {0, 0};
    struct times by_place = {0, 0};
    for (int turn = 0; turn < TURNS; turn++) {
        double t0 = now();
        uint32_t a = follow_by_step(step, &table, record);
        double t1 = now();
        uint32_t b = follow_by_step(step_in_c, &table, record);
        double t2 = now();
        uint32_t c = follow_by_place(advance, &table, record);
        double t3 = now();
        uint32_t d = follow_by_place(advance_in_c, &table, record);
        double t4 = now();
        same(a, b);
        same(c, d);
        lower(&by_step.proved, t0, t1);
        lower(&by_step.in_c, t1, t2);
        lower(&by_place.proved, t2, t3);
        lower(&by_place.in_c, t3, t4);
    }
    printf("%5" PRIu32 " rows %5" PRIu32 " letters   step %6.2f ns, in C %6.2f ns, ratio %.2f   advance %6.2f ns, in C %6.2f ns, ratio %.2f\n",
           rows, letters, by_step.proved, by_step.in_c, by_step.proved / by_step.in_c, by_place.proved, by_place.in_c,
           by_place.proved / by_place.in_c);
    free(record);
    free(table.bytes);
}

int main(void)
{
    measure(2, 4);
    measure(256, 128);
    measure(4096, 8);
    measure(4096, 1024);
    return 0;
}
