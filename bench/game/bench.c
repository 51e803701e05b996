// Play tables by the archive of `game_c` and by plain C.
//
//     bench tables                  made tables: C by sweeps down and up the rows, by sweeps along an order, and by lists of entries
//     bench sheets DIRECTORY        the sheets of sheets.py: the whole call, and what it takes beyond the compile, beside C
//
// Each time is the least of several runs. The rows that are kept are compared, and each play table is judged, since its letters are free. Compiled with WITHOUT_ARCHIVE,
// the sheets are run by C alone.
#define _POSIX_C_SOURCE 200809L
#include "plain.h"
#include "../compile/plain.h"
#include <stdio.h>
#include <stdlib.h>
#include <string.h>
#include <time.h>

enum { MOST_ROWS = 4096, MOST_LETTERS = 1024, TEXT = 16384, KEY = COMPILE_KEY, WORK = 6 };
#define NONE STRATEGY_NONE

// processor time, since other programs may run beside this one
static double now(void) { struct timespec t; clock_gettime(CLOCK_PROCESS_CPUTIME_ID, &t); return t.tv_sec + t.tv_nsec * 1e-9; }

static void *zeros(size_t count, size_t size) {
    void *p = calloc(count ? count : 1, size);
    if (!p) { fprintf(stderr, "no memory\n"); exit(2); }
    return p;
}

static void judge(const char *name, const game *g, const uint16_t *play, const uint16_t *other) {
    const char *fault = play_fault(g, play);
    if (!fault) fault = play_fault(g, other);
    for (size_t row = 0; row < g->rows && !fault; row++)
        if ((play[row * g->choices] == NONE) != (other[row * g->choices] == NONE)) fault = "other rows are kept";
    if (fault) { printf("%s: %s\n", name, fault); exit(1); }
}

// ---- made tables

static uint64_t seed = 88172645463325252ull;
static uint32_t rnd(uint32_t n) { seed ^= seed << 13; seed ^= seed >> 7; seed ^= seed << 17; return (uint32_t)((seed >> 20) % n); }

enum kind { COUNTDOWN, COUNTUP, OPEN_TABLE, TRAP, RANDOM, SHUFFLED, KINDS };
static const char *kind_name[] = { "countdown", "countup", "open", "trap", "random", "shuffled" };

// The next row by a letter. Row 0 leads anywhere, as the start of a season does.
static uint16_t next_row(enum kind k, const game *g, const uint16_t *order, size_t s, size_t a) {
    size_t rows = g->rows, way = a % 2;
    switch (k) {
    // one row down or the same row; the first row is final
    case COUNTDOWN: return (uint16_t)(s == 0 ? 0 : s - way);
    // one row up or the same row; the last row is final
    case COUNTUP: return (uint16_t)(s + 1 < rows ? s + way : s);
    // every entry a row, and all are final
    case OPEN_TABLE: return (uint16_t)rnd((uint32_t)rows);
    // one row up; the last row has no entry, so that no row is safe
    case TRAP: return (uint16_t)(s + 1 < rows ? s + 1 : NONE);
    // a tenth is missing, the last tenth of the rows is final
    case RANDOM: return (uint16_t)(rnd(10) ? (s >= rows - rows / 10 - 1 ? rows - 1 - rnd((uint32_t)(rows / 10 + 1)) : rnd((uint32_t)rows)) : NONE);
    // a countdown whose rows stand in any order: order[s] is the row before s
    default: return (uint16_t)(way ? order[s] : s);
    }
}

static int is_final(enum kind k, size_t rows, const uint16_t *order, size_t s) {
    switch (k) {
    case COUNTDOWN: return s == 0;
    case COUNTUP: case TRAP: return s == rows - 1;
    case OPEN_TABLE: return 1;
    case RANDOM: return s >= rows - rows / 10 - 1;
    default: return order[s] == s;
    }
}

// order[s] is the row before s in a chain through all rows, and the first row of the chain itself.
static void shuffle(uint16_t *order, size_t rows) {
    uint16_t *chain = zeros(rows, sizeof *chain);
    for (size_t s = 0; s < rows; s++) chain[s] = (uint16_t)s;
    for (size_t s = rows; s-- > 1;) {
        size_t other = rnd((uint32_t)s + 1);
        uint16_t kept = chain[s];
        chain[s] = chain[other];
        chain[other] = kept;
    }
    order[chain[0]] = chain[0];
    for (size_t s = 1; s < rows; s++) order[chain[s]] = chain[s - 1];
    free(chain);
}

// The choice of a letter: the gauge counts slowest, so that the letters of a choice stand together.
static void run_table(enum kind k, size_t rows, size_t letters, size_t choices) {
    uint16_t *entries = zeros(rows * letters, 2), *letter_choices = zeros(letters, 2), *order = zeros(rows, 2);
    uint16_t *play = zeros(rows * choices, 2), *other = zeros(rows * choices, 2);
    uint16_t *third = zeros(rows * choices, 2);
    uint32_t *safe = zeros(rows, 4), *won = zeros(rows, 4), *room = zeros(rows * (letters + choices + 4) + 1, 4);
    uint8_t *finals = zeros(rows, 1);
    game g = { entries, finals, letter_choices, rows, letters, choices };
    shuffle(order, rows);
    for (size_t a = 0; a < letters; a++) letter_choices[a] = (uint16_t)(a / (letters / choices));
    for (size_t s = 0; s < rows; s++) {
        finals[s] = (uint8_t)is_final(k, rows, order, s);
        for (size_t a = 0; a < letters; a++) entries[s * letters + a] = next_row(k, &g, order, s, a);
    }
    double swept = 1e9, ordered = 1e9, listed = 1e9, began = now();
    int forced = 0;
    // at least three runs of each, and more for at most a fifth of a second
    for (size_t turn = 0; turn < 3 || now() - began < 0.2; turn++) {
        double t0 = now();
        forced = plain_play(&g, safe, won, play);
        double t1 = now();
        ordered_play(&g, safe, won, room, room + rows, room + 2 * rows, other);
        double t2 = now();
        listed_play(&g, room, third);
        double t3 = now();
        if (t1 - t0 < swept) swept = t1 - t0;
        if (t2 - t1 < ordered) ordered = t2 - t1;
        if (t3 - t2 < listed) listed = t3 - t2;
    }
    judge(kind_name[k], &g, play, other);
    judge(kind_name[k], &g, play, third);
    printf("%-9s %5zu %5zu %5zu %s: %10.1f %10.1f %10.1f\n", kind_name[k], rows, letters, choices, forced ? "forced" : "not   ", swept * 1e6, ordered * 1e6, listed * 1e6);
    free(entries); free(letter_choices); free(order); free(play); free(other); free(third); free(safe); free(won); free(room); free(finals);
}

static int run_tables(void) {
    static const size_t all_rows[] = { 64, 1000, 4096 }, all_letters[] = { 4, 64, 1024 };
    printf("table rows letters choices: by sweeps us, along an order us, by lists us\n");
    for (int k = 0; k < KINDS; k++) for (size_t i = 0; i < 3; i++) for (size_t l = 0; l < 3; l++) {
        size_t letters = all_letters[l];
        // a sweep goes a few rows along a shuffled chain, so that the larger ones take many seconds
        if (k == SHUFFLED && all_rows[i] * all_rows[i] * letters > 100000000) continue;
        run_table(k, all_rows[i], letters, 1);
        run_table(k, all_rows[i], letters, letters / 2);
    }
    return 0;
}

// ---- sheets

typedef struct { size_t entry_count, rows, play_count; uint16_t *entries, *play; uint8_t *finals; uint32_t *keys, *work[WORK]; } lent;

static lent lend(size_t rows, size_t letters, size_t choices) {
    lent r = { rows * letters, rows, rows * choices, zeros(rows * letters, 2), zeros(rows * choices, 2), zeros(rows, 1), zeros(rows * KEY, 4), { 0 } };
    for (int i = 0; i < WORK; i++) r.work[i] = zeros(rows, 4);
    return r;
}

static void take_back(lent *r) {
    free(r->entries); free(r->play); free(r->finals); free(r->keys);
    for (int i = 0; i < WORK; i++) free(r->work[i]);
}

static struct compile_answer call(strategy_function *f, const uint8_t *text, size_t length, lent *r, double *least) {
    double began = now();
    struct compile_answer answer = f(text, length, r->entries, r->entry_count, r->finals, r->rows, r->keys, r->rows * KEY, r->work[0], r->rows, r->work[1], r->rows,
        r->work[2], r->rows, r->work[3], r->rows, r->work[4], r->rows, r->work[5], r->rows, r->play, r->play_count);
    double took = now() - began;
    if (took < *least) *least = took;
    return answer;
}

static struct compile_answer call_compile(compile_function *f, const uint8_t *text, size_t length, lent *r, double *least) {
    double began = now();
    struct compile_answer answer = f(text, length, r->entries, r->entry_count, r->finals, r->rows, r->keys, r->rows * KEY, r->work[0], r->rows, r->work[1], r->rows,
        r->work[2], r->rows, r->work[3], r->rows, r->work[4], r->rows, r->work[5], r->rows);
    double took = now() - began;
    if (took < *least) *least = took;
    return answer;
}

// The least times of the passes alone, by sweeps and along an order, on the table of a compile.
static void time_passes(const game *g, lent *r, double *swept, double *ordered) {
    double t0 = now();
    plain_play(g, r->work[0], r->work[1], r->play);
    double t1 = now();
    ordered_play(g, r->work[0], r->work[1], r->work[2], r->work[3], r->work[4], r->play);
    double t2 = now();
    if (t1 - t0 < *swept) *swept = t1 - t0;
    if (t2 - t1 < *ordered) *ordered = t2 - t1;
}

static FILE *opened(const char *directory, const char *name, const char *ending) {
    char path[512];
    snprintf(path, sizeof path, "%s/%s%s", directory, name, ending);
    FILE *file = fopen(path, "rb");
    if (!file) { fprintf(stderr, "cannot open %s\n", path); exit(2); }
    return file;
}

#ifdef WITHOUT_ARCHIVE
#define ARCHIVE_STRATEGY plain_strategy
#define ARCHIVE_COMPILE plain_compile
#else
#define ARCHIVE_STRATEGY strategy_c
#define ARCHIVE_COMPILE compile_c
#endif

static void run_sheet(const char *directory, const char *name, size_t situations, size_t letters, size_t states) {
    static uint8_t text[TEXT + 1];
    uint16_t letter_choices[MOST_LETTERS];
    FILE *file = opened(directory, name, ".sheet");
    size_t length = fread(text, 1, sizeof text, file);
    fclose(file);
    double whole = 1e9, plain_whole = 1e9, alone = 1e9, swept = 1e9, ordered = 1e9;
    // the streams, and with them the number of choices, from a first compile
    lent first = lend(situations, letters, 0);
    struct compile_answer a = call_compile(plain_compile, text, length, &first, &alone), b = a;
    size_t choices = choice_count(&a.streams);
    take_back(&first);
    lent mine = lend(situations, letters, choices), other = lend(situations, letters, choices), third = lend(situations, letters, choices);
    alone = 1e9;
    fill_choices(&a.streams, letters, letter_choices);
    // at least five runs of each, and more for at most a second
    double began = now();
    for (size_t turn = 0; turn < 5 || now() - began < 1; turn++) {
        a = call(ARCHIVE_STRATEGY, text, length, &mine, &whole);
        b = call(plain_strategy, text, length, &other, &plain_whole);
        call_compile(ARCHIVE_COMPILE, text, length, &third, &alone);
        game g = { third.entries, third.finals, letter_choices, states, letters, choices };
        time_passes(&g, &third, &swept, &ordered);
    }
    if (memcmp(&a, &b, sizeof a) || (a.refusal && a.refusal != 16)) { printf("%s: the answers differ\n", name); exit(1); }
    game g = { mine.entries, mine.finals, letter_choices, a.states, letters, choices };
    if (a.refusal == 0) {
        if (a.states != states || memcmp(mine.entries, other.entries, mine.entry_count * 2) || memcmp(mine.finals, other.finals, mine.rows)) {
            printf("%s: the tables differ\n", name);
            exit(1);
        }
        judge(name, &g, mine.play, other.play);
    }
    printf("%-22s %10zu %7zu %7zu %6zu %3u %11.1f %11.1f %5.2f %10.1f %10.1f %10.1f\n", name, situations, letters, choices, states, a.refusal, whole * 1e6, plain_whole * 1e6,
        whole / plain_whole, (whole - alone) * 1e6, swept * 1e6, ordered * 1e6);
    take_back(&mine); take_back(&other); take_back(&third);
}

static int run_sheets(const char *directory) {
    char name[64];
    size_t letters, tokens, situations, states, count = 0;
    FILE *list = opened(directory, "list", "");
#ifdef WITHOUT_ARCHIVE
    printf("without the archive: both columns of a whole call are plain C\n");
#endif
    printf("sheet situations letters choices states refusal: whole call us, C us, ratio; beyond the compile us; the passes in C by sweeps us, along an order us\n");
    while (fscanf(list, "%63s %zu %zu %zu %zu", name, &letters, &tokens, &situations, &states) == 5) {
        run_sheet(directory, name, situations, letters, states);
        count++;
    }
    fclose(list);
    return count ? 0 : 2;
}

int main(int count, char **words) {
    if (count == 2 && !strcmp(words[1], "tables")) return run_tables();
    if (count == 3 && !strcmp(words[1], "sheets")) return run_sheets(words[2]);
    fprintf(stderr, "usage: bench tables | bench sheets DIRECTORY\n");
    return 2;
}
