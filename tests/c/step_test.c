/* Compares `step` and `advance` of the archive with a step of this file's own, on tables that are sound and on tables
 * and arguments that are damaged. It prints what it compared and how often, and ends with status 1 at a difference.
 * All numbers come from one seed, so every run compares the same.
 */
#define _DEFAULT_SOURCE
#include <inttypes.h>
#include <stdbool.h>
#include <stdio.h>
#include <stdlib.h>
#include <string.h>
#include <sys/mman.h>

#include "step.h"

/* ---- numbers from a seed */

static uint64_t seed = UINT64_C(0x9e3779b97f4a7c15);

static uint32_t any(void)
{
    seed ^= seed >> 12;
    seed ^= seed << 25;
    seed ^= seed >> 27;
    return (uint32_t)((seed * UINT64_C(0x2545f4914f6cdd1d)) >> 32);
}

static uint32_t below(uint32_t bound)
{
    return any() % bound;
}

/* ---- the step again, written from the paper and not from the code under test: rows are counted off one by one, the
 * row is walked to, and the entry is looked for among the rows' numbers */

static uint64_t count_rows(size_t length, uint64_t row_bytes, bool *whole)
{
    uint64_t rows = 0;
    while (length >= row_bytes && rows <= 4096) {
        length -= row_bytes;
        rows++;
    }
    *whole = length == 0;
    return rows;
}

static uint32_t expected_step(const uint8_t *table, size_t length, uint32_t letters, uint32_t state, uint32_t letter)
{
    if (letters == 0)
        return 65536 + 11;
    uint64_t row_bytes = (uint64_t)letters + (uint64_t)letters;
    bool whole;
    uint64_t rows = count_rows(length, row_bytes, &whole);
    if (!whole || rows > 4096 || state >= rows || letter >= letters)
        return 65536 + 11;
    const uint8_t *entry = table;
    for (uint32_t row = 0; row < state; row++)
        entry += row_bytes;
    entry += (uint64_t)letter * 2;
    uint32_t number = (uint32_t)entry[1] << 8 | entry[0];
    if (number == 65535)
        return 65536 + 12;
    for (uint64_t row = 0; row < rows; row++)
        if (number == row)
            return number;
    return 65536 + 11;
}

static uint32_t expected_advance(struct step_place *place, const uint8_t *table, size_t length, uint32_t letters,
                                 uint32_t letter)
{
    uint32_t answer = expected_step(table, length, letters, place->state, letter);
    if (answer <= 65535) {
        place->state = answer;
        if (place->steps != UINT32_MAX)
            place->steps++;
    }
    return answer;
}

/* ---- comparing */

static uint64_t steps_compared;
static uint64_t all_steps_compared;
static uint64_t answers_seen[3];

static void count_answer(uint32_t answer)
{
    steps_compared++;
    answers_seen[answer < 65536 ? 0 : answer == 65536 + 12 ? 2 : 1]++;
}

static void differs(const char *what, size_t length, uint32_t letters, uint32_t state, uint32_t letter, uint32_t got,
                    uint32_t expected)
{
    printf("%s differs: length %zu letters %" PRIu32 " state %" PRIu32 " letter %" PRIu32 ": got %" PRIu32
           ", expected %" PRIu32 "\n",
           what, length, letters, state, letter, got, expected);
    exit(1);
}

static uint32_t compare_step(const uint8_t *table, size_t length, uint32_t letters, uint32_t state, uint32_t letter)
{
    uint32_t got = step(table, length, letters, state, letter);
    uint32_t expected = expected_step(table, length, letters, state, letter);
    if (got != expected)
        differs("step", length, letters, state, letter, got, expected);
    count_answer(got);
    return got;
}

/* The place stands between two numbers that no call may change. */
struct guarded {
    uint32_t in_front;
    struct step_place place;
    uint32_t behind;
};

static uint32_t compare_advance(struct guarded *at, const uint8_t *table, size_t length, uint32_t letters,
                                uint32_t letter)
{
    struct guarded expected_at = *at;
    uint32_t state = at->place.state;
    uint32_t got = advance(&at->place, table, length, letters, letter);
    uint32_t expected = expected_advance(&expected_at.place, table, length, letters, letter);
    if (got != expected)
        differs("advance", length, letters, state, letter, got, expected);
    if (memcmp(at, &expected_at, sizeof *at) != 0) {
        printf("place differs after length %zu letters %" PRIu32 " state %" PRIu32 " letter %" PRIu32 ": got %" PRIu32
               " %" PRIu32 ", expected %" PRIu32 " %" PRIu32 "\n",
               length, letters, state, letter, at->place.state, at->place.steps, expected_at.place.state,
               expected_at.place.steps);
        exit(1);
    }
    count_answer(got);
    return got;
}

static void report(const char *what, uint64_t tables)
{
    printf("%s: %" PRIu64 " tables, %" PRIu64 " steps compared\n", what, tables, steps_compared);
    all_steps_compared += steps_compared;
    steps_compared = 0;
}

/* ---- tables */

enum { MOST_BYTES = 1 << 20 };
static uint8_t room[MOST_BYTES];

static void put_entry(size_t index, uint32_t entry)
{
    room[2 * index] = (uint8_t)(entry & 255);
    room[2 * index + 1] = (uint8_t)(entry >> 8);
}

/* entries below `rows`, and one of `none_in` of them 65,535 */
static size_t sound_table(uint32_t rows, uint32_t letters, uint32_t none_in)
{
    size_t entries = (size_t)rows * letters;
    for (size_t i = 0; i < entries; i++)
        put_entry(i, below(none_in) == 0 ? 65535 : below(rows));
    return 2 * entries;
}

static void every_place(size_t length, uint32_t letters, uint32_t rows)
{
    for (uint32_t state = 0; state < rows + 2; state++)
        for (uint32_t letter = 0; letter < letters + 2; letter++)
            compare_step(room, length, letters, state, letter);
}

static void sound_tables(void)
{
    const uint64_t tables = 400;
    for (uint64_t i = 0; i < tables; i++) {
        uint32_t rows = 1 + below(40);
        uint32_t letters = 1 + below(24);
        size_t length = sound_table(rows, letters, 1 + below(6));
        every_place(length, letters, rows);
    }
    report("sound tables", tables);
}

/* one entry that is no row's number: the first number that is none, one near 65,535, or one whose bytes would be a row's
 * number if they were swapped */
static uint32_t bad_entry(uint32_t rows)
{
    switch (below(4)) {
    case 0:
        return rows;
    case 1:
        return rows + 1 + below(100);
    case 2:
        return 65534 - below(3);
    default:
        return 256 * (1 + below(255));
    }
}

static void tables_with_bad_entries(void)
{
    const uint64_t tables = 400;
    for (uint64_t i = 0; i < tables; i++) {
        uint32_t rows = 1 + below(30);
        uint32_t letters = 1 + below(12);
        size_t length = sound_table(rows, letters, 5);
        for (uint32_t bad = 0; bad < 1 + letters / 2; bad++)
            put_entry(below(rows * letters), bad_entry(rows));
        every_place(length, letters, rows);
    }
    report("tables with entries that are no row", tables);
}

/* the bytes are those of a sound table, and the length or the letter count is another */
static void tables_of_other_lengths(void)
{
    const uint64_t tables = 400;
    for (uint64_t i = 0; i < tables; i++) {
        uint32_t rows = 1 + below(20);
        uint32_t letters = 1 + below(8);
        size_t length = sound_table(rows, letters, 5);
        for (size_t other = length > 9 ? length - 9 : 0; other <= length + 9; other++)
            for (uint32_t count = 0; count < letters + 3; count++)
                compare_step(room, other, count, below(rows + 2), below(letters + 2));
    }
    report("odd and other lengths and letter counts", tables);
}

static void random_bytes(void)
{
    const uint64_t tables = 20000;
    for (uint64_t i = 0; i < tables; i++) {
        size_t length = below(64);
        for (size_t at = 0; at < length; at++)
            room[at] = below(3) == 0 ? 255 : (uint8_t)below(at % 2 == 0 ? 8 : 2);
        for (uint32_t j = 0; j < 20; j++)
            compare_step(room, length, below(6), below(8), below(7));
    }
    report("random bytes", tables);
}

static void no_letters(void)
{
    sound_table(32, 4, 5);
    for (size_t length = 0; length <= 256; length++) {
        compare_step(room, length, 0, 0, 0);
        compare_step(room, length, 0, any(), any());
    }
    report("no letters", 257);
}

static const uint32_t near_top[] = {
    UINT32_MAX,           UINT32_MAX - 1,       UINT32_MAX - 2,      UINT32_C(0x80000001), UINT32_C(0x80000000),
    UINT32_C(0x7fffffff), UINT32_C(0x40000000), UINT32_C(0x10000),   65536 + 1,            65535,
};
enum { NEAR_TOP = sizeof near_top / sizeof near_top[0] };

/* short tables: twice the letter count is far more than the length, or would be little if it were cut to 32 bits */
static void letter_counts_near_the_top(void)
{
    sound_table(16, 1, 5);
    uint64_t tables = 0;
    for (int i = 0; i < NEAR_TOP; i++)
        for (size_t length = 0; length <= 32; length++) {
            tables++;
            for (int j = 0; j < NEAR_TOP; j++) {
                compare_step(room, length, near_top[i], 0, 0);
                compare_step(room, length, near_top[i], 1, near_top[j]);
                compare_step(room, length, near_top[i], near_top[j], 0);
                compare_step(room, length, near_top[i], near_top[j], near_top[j]);
                compare_step(room, length, 1 + (uint32_t)i, near_top[j], 0);
                compare_step(room, length, 1 + (uint32_t)i, 0, near_top[j]);
            }
        }
    report("letter counts, states and letters near the word's top", tables);
}

/* whole rows of so many letters, in memory that is only touched where an entry is read */
static void longest_rows(void)
{
    const size_t most = (size_t)UINT32_MAX * 2;
    uint8_t *table = mmap(NULL, most, PROT_READ | PROT_WRITE, MAP_PRIVATE | MAP_ANONYMOUS | MAP_NORESERVE, -1, 0);
    if (table == MAP_FAILED) {
        printf("longest rows: not compared, the system lends no %zu bytes\n", most);
        return;
    }
    uint64_t tables = 0;
    for (int i = 0; i < NEAR_TOP; i++) {
        uint32_t letters = near_top[i];
        size_t row = (size_t)letters * 2;
        memset(table + row - 2, 255, 2);
        for (uint32_t rows = 0; rows <= 2 && rows * row <= most; rows++) {
            tables++;
            for (uint32_t state = 0; state < rows + 1; state++)
                for (int j = 0; j < 4; j++) {
                    const uint32_t picked[] = {0, letters - 2, letters - 1, letters};
                    compare_step(table, rows * row, letters, state, picked[j]);
                }
        }
        memset(table + row - 2, 0, 2);
    }
    munmap(table, most);
    report("longest rows", tables);
}

static void most_rows(void)
{
    const uint32_t counts[] = {4095, 4096, 4097, 4098, 8192};
    uint64_t tables = 0;
    for (int i = 0; i < 5; i++)
        for (uint32_t letters = 1; letters <= 4; letters++) {
            uint32_t rows = counts[i];
            size_t length = sound_table(rows, letters, 7);
            put_entry(0, 4095);
            put_entry((size_t)4095 * letters - 1, 4096);
            for (size_t other = length - 2; other <= length + 2; other++) {
                tables++;
                for (uint32_t j = 0; j < 60; j++)
                    compare_step(room, other, letters, below(rows + 2), below(letters + 1));
                for (uint32_t state = 4093; state < 4099; state++)
                    for (uint32_t letter = 0; letter <= letters; letter++)
                        compare_step(room, other, letters, state, letter);
                compare_step(room, other, letters, 0, 0);
            }
        }
    report("4,095 to 8,192 rows", tables);
}

/* the running place, from sound and unsound states, and from counts near their top */
static void running_places(void)
{
    const uint64_t tables = 600;
    for (uint64_t i = 0; i < tables; i++) {
        uint32_t rows = 1 + below(12);
        uint32_t letters = 1 + below(6);
        size_t length = sound_table(rows, letters, 8);
        if (i % 4 == 1)
            put_entry(below(rows * letters), bad_entry(rows));
        if (i % 4 == 2)
            length += below(3);
        struct guarded at = {any(), {below(rows + 1), 0}, any()};
        at.place.steps = below(2) == 0 ? below(3) : UINT32_MAX - below(20);
        for (uint32_t j = 0; j < 200; j++)
            compare_advance(&at, room, length, i % 16 == 3 ? 0 : letters, below(8) == 0 ? any() : below(letters));
    }
    report("running places", tables);
}

static void counts_at_the_top(void)
{
    sound_table(1, 1, 2);
    put_entry(0, 0);
    struct guarded at = {7, {0, UINT32_MAX - 3}, 9};
    for (uint32_t j = 0; j < 10; j++)
        compare_advance(&at, room, 2, 1, 0);
    if (at.place.steps != UINT32_MAX) {
        printf("the count of steps did not stay at its top: %" PRIu32 "\n", at.place.steps);
        exit(1);
    }
    report("the count of steps at its top", 1);
}

/* a record of letters is followed exactly as far as the entries, as numbers, can be followed */
static void records(void)
{
    const uint64_t tables = 500;
    for (uint64_t i = 0; i < tables; i++) {
        uint32_t rows = 1 + below(60);
        uint32_t letters = 1 + below(10);
        size_t length = sound_table(rows, letters, 20);
        struct guarded at = {1, {0, 0}, 2};
        uint32_t state = 0;
        for (uint32_t taken = 0; taken < 400; taken++) {
            uint32_t letter = below(letters);
            size_t index = (size_t)state * letters + letter;
            uint32_t entry = room[2 * index] + 256u * room[2 * index + 1];
            uint32_t answer = compare_advance(&at, room, length, letters, letter);
            if (compare_step(room, length, letters, state, letter) != answer)
                differs("advance and step", length, letters, state, letter, answer, entry);
            if (entry == 65535) {
                if (answer != STEP_REFUSED_12)
                    differs("a record's end", length, letters, state, letter, answer, STEP_REFUSED_12);
                break;
            }
            if (answer != entry || at.place.state != entry || at.place.steps != taken + 1)
                differs("a record's step", length, letters, state, letter, answer, entry);
            state = entry;
        }
    }
    report("records", tables);
}

int main(void)
{
    sound_tables();
    tables_with_bad_entries();
    tables_of_other_lengths();
    random_bytes();
    no_letters();
    letter_counts_near_the_top();
    longest_rows();
    most_rows();
    running_places();
    counts_at_the_top();
    records();
    printf("all: %" PRIu64 " steps compared, %" PRIu64 " moved, %" PRIu64 " refused 11, %" PRIu64 " refused 12\n",
           all_steps_compared, answers_seen[0], answers_seen[1], answers_seen[2]);
    return 0;
}
