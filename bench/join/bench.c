// Joins by the archive of `join_c` and by plain C.
//
//     bench tables                  made tables: the whole call by the archive and by C, and in C the search of the pairs in three forms and the passes to the table
//     bench sheets DIRECTORY        the pairs of sheets of sheets.py: the same, beside the compile of a single sheet with both sheets' rules
//
// Each time is the least of several runs. Answers and tables are compared. Compiled with WITHOUT_ARCHIVE, C alone is run.
#define _POSIX_C_SOURCE 200809L
#include "plain.h"
#include "../compile/plain.h"
#include "../minimise/plain.h"
#include <stdio.h>
#include <stdlib.h>
#include <string.h>
#include <time.h>

enum { MOST_ROWS = GIVEN_ROWS, TEXT = 16384, KEY = COMPILE_KEY, WORK = 7 };

#ifdef WITHOUT_ARCHIVE
#define ARCHIVE_JOIN plain_join
#else
#define ARCHIVE_JOIN join_c
#endif

// processor time, since other programs may run beside this one
static double now(void) { struct timespec t; clock_gettime(CLOCK_PROCESS_CPUTIME_ID, &t); return t.tv_sec + t.tv_nsec * 1e-9; }

static void *zeros(size_t count, size_t size) {
    void *p = calloc(count ? count : 1, size);
    if (!p) { fprintf(stderr, "no memory\n"); exit(2); }
    return p;
}

// ---- what is given and lent

typedef struct { uint16_t *entries; uint8_t *finals; size_t rows; uint32_t letters; struct streams streams; } owned;

static given as_given(const owned *o) { given g = { o->entries, o->rows * o->letters, o->finals, o->rows, o->letters, &o->streams }; return g; }

static void take_back_owned(owned *o) { free(o->entries); free(o->finals); }

typedef struct { size_t rows, entry_count; uint16_t *entries; uint8_t *finals; uint32_t *work[WORK]; } lent;

static lent lend(size_t rows, size_t letters) {
    lent r = { rows, rows * letters, zeros(rows * letters, 2), zeros(rows, 1), { 0 } };
    for (int i = 0; i < WORK; i++) r.work[i] = zeros(rows, 4);
    return r;
}

static void take_back(lent *r) {
    free(r->entries); free(r->finals);
    for (int i = 0; i < WORK; i++) free(r->work[i]);
}

static struct join_answer call(join_function *f, const owned *a, const owned *b, lent *r, double *least) {
    double began = now();
    struct join_answer answer = f(a->entries, a->rows * a->letters, a->finals, a->rows, a->letters, a->streams, b->entries, b->rows * b->letters, b->finals, b->rows, b->letters,
        b->streams, r->entries, r->entry_count, r->finals, r->rows, r->work[0], r->rows, r->work[1], r->rows, r->work[2], r->rows, r->work[3], r->rows, r->work[4], r->rows,
        r->work[5], r->rows, r->work[6], r->rows);
    double took = now() - began;
    if (took < *least) *least = took;
    return answer;
}

// ---- the parts of the work in C

typedef struct { double chains, remembered, all, passes; size_t pairs; } parts;

static double timed_search(search_function *f, const given *a, const given *b, const cuts *c, pair_rows *r, uint32_t *all, size_t *pairs) {
    double began = now();
    size_t count = f(a, b, c, r, all);
    if (*pairs && *pairs != count) { printf("the searches differ\n"); exit(1); }
    *pairs = count;
    return now() - began;
}

static void least(double *so_far, double took) { if (took < *so_far) *so_far = took; }

// The least times of the three searches, and of the passes on what they find.
static void time_parts(const owned *left, const owned *right, lent *r, uint32_t *all, parts *p) {
    given a = as_given(left), b = as_given(right);
    struct streams joined;
    cuts c;
    plain_streams(&left->streams, &right->streams, &joined, &c);
    pair_rows rows = { r->entries, r->finals, r->work[0], r->work[4], r->work[5], r->rows, r->rows };
    least(&p->all, timed_search(search_all, &a, &b, &c, &rows, all, &p->pairs));
    least(&p->chains, timed_search(search_chains, &a, &b, &c, &rows, all, &p->pairs));
    least(&p->remembered, timed_search(search_remembered, &a, &b, &c, &rows, all, &p->pairs));
    tables t = { r->entries, r->finals, c.letters, p->pairs, r->work[1], r->work[2], r->work[3], r->work[4], r->work[5], r->work[6] };
    double began = now();
    if (plain_is_graph(&t)) plain_reduce(&t);
    least(&p->passes, now() - began);
}

// The joined letters and pairs of two tables that can be joined.
static size_t count_pairs(const owned *left, const owned *right, size_t *letters) {
    given a = as_given(left), b = as_given(right);
    struct streams joined;
    cuts c;
    if (plain_streams(&left->streams, &right->streams, &joined, &c)) { printf("streams that cannot be joined\n"); exit(1); }
    lent r = lend(MOST_ROWS, c.letters);
    pair_rows rows = { r.entries, r.finals, r.work[0], r.work[4], r.work[5], r.rows, r.rows };
    size_t count = search_chains(&a, &b, &c, &rows, NULL);
    if (!count) { printf("more than %d pairs\n", MOST_ROWS); exit(1); }
    *letters = c.letters;
    take_back(&r);
    return count;
}

// Runs the join of two tables with as many rows lent as there are pairs, and prints its line; gives the least time of the call in C.
static double run_pair(const char *name, const owned *left, const owned *right) {
    size_t letters, pairs = count_pairs(left, right, &letters);
    lent mine = lend(pairs, letters), other = lend(pairs, letters);
    uint32_t *all = zeros(left->rows * right->rows, 4);
    double whole = 1e9, plain_whole = 1e9;
    parts p = { 1e9, 1e9, 1e9, 1e9, 0 };
    struct join_answer a, b;
    double began = now();
    // at least three runs of each, and more for at most a fifth of a second
    for (size_t turn = 0; turn < 3 || now() - began < 0.2; turn++) {
        time_parts(left, right, &other, all, &p);
        a = call(ARCHIVE_JOIN, left, right, &mine, &whole);
        b = call(plain_join, left, right, &other, &plain_whole);
    }
    if (memcmp(&a, &b, sizeof a) || memcmp(mine.entries, other.entries, mine.entry_count * 2) || memcmp(mine.finals, other.finals, mine.rows)) {
        printf("%s: the answers differ\n", name);
        exit(1);
    }
    printf("%-16s %4zu %4zu %5zu %5zu %5u %2u: %10.1f %10.1f %5.2f: %10.1f %10.1f %10.1f %10.1f", name, left->rows, right->rows, letters, pairs, a.states, a.refusal, whole * 1e6,
        plain_whole * 1e6, whole / plain_whole, p.chains * 1e6, p.remembered * 1e6, p.all * 1e6, p.passes * 1e6);
    take_back(&mine); take_back(&other); free(all);
    return plain_whole;
}

// ---- made tables

static uint64_t seed = 88172645463325252ull;
static uint32_t rnd(uint32_t n) { seed ^= seed << 13; seed ^= seed >> 7; seed ^= seed << 17; return (uint32_t)((seed >> 20) % n); }

enum kind { GRID, TURNS, RANDOM, KINDS };
static const char *kind_name[] = { "grid", "turns", "random" };

// The next row by a letter.
static uint16_t next_row(enum kind k, size_t rows, size_t letters, size_t s, size_t a) {
    switch (k) {
    // the second half of the letters goes one row on; the last row is final
    case GRID: return (uint16_t)(a >= letters / 2 && s + 1 < rows ? s + 1 : s);
    // each letter adds its number; all rows are final, and become one state
    case TURNS: return (uint16_t)((s + a) % rows);
    // a tenth is missing; the last tenth of the rows is final and leads to itself
    default: {
        size_t final = rows - rows / 10 - 1;
        return (uint16_t)(rnd(10) ? (s >= final ? final + rnd((uint32_t)(rows - final)) : rnd((uint32_t)rows)) : NONE);
    }
    }
}

static int is_final(enum kind k, size_t rows, size_t s) { return k == GRID ? s == rows - 1 : k == TURNS ? 1 : s >= rows - rows / 10 - 1; }

// A table over a stream of its own and, where `gauge` is above 1, one of so many values that both tables have.
static owned make(enum kind k, const char *name, size_t rows, size_t own, size_t gauge) {
    size_t letters = own * gauge;
    owned o = { zeros(rows * letters, 2), zeros(rows, 1), rows, (uint32_t)letters, { 0 } };
    struct streams *s = &o.streams;
    s->count = gauge > 1 ? 2 : 1;
    const char *names[] = { name, "level" };
    const size_t sizes[] = { own, gauge };
    for (size_t i = 0; i < s->count; i++) {
        memcpy(s->names + STREAMS_NAME * i, names[i], strlen(names[i]));
        s->lengths[i] = (uint8_t)strlen(names[i]);
        s->highs[i] = (int64_t)sizes[i] - 1;
        s->kinds[i] = i == 1;
    }
    for (size_t row = 0; row < rows; row++) {
        o.finals[row] = (uint8_t)is_final(k, rows, row);
        for (size_t a = 0; a < letters; a++) o.entries[row * letters + a] = next_row(k, rows, letters, row, a);
    }
    return o;
}

static const char *heading = "rows letters pairs states refusal: archive us, C us, ratio: in C the search by chains us, remembered us, of all pairs us; the passes us";

static int run_tables(void) {
    static const struct { size_t left, right, own, gauge; } sizes[] = {
        { 8, 8, 2, 1 }, { 16, 16, 8, 4 }, { 64, 64, 2, 1 }, { 64, 64, 8, 4 }, { 64, 64, 8, 16 }, { 64, 64, 32, 1 }, { 1000, 4, 4, 64 }, { 4096, 1, 1, 1024 } };
    printf("table %s\n", heading);
    for (int k = 0; k < KINDS; k++) for (size_t i = 0; i < sizeof sizes / sizeof sizes[0]; i++) {
        // the states of a long chain are told apart in as many rounds as it has rows
        if (k == GRID && sizes[i].left > 64) continue;
        owned left = make(k, "x", sizes[i].left, sizes[i].own, sizes[i].gauge), right = make(k, "y", sizes[i].right, sizes[i].own, sizes[i].gauge);
        run_pair(kind_name[k], &left, &right);
        printf("\n");
        fflush(stdout);
        take_back_owned(&left); take_back_owned(&right);
    }
    return 0;
}

// ---- sheets

typedef struct { lent tables; uint32_t *keys; } compile_room;

static compiled call_compile(const uint8_t *text, size_t length, compile_room *r, double *least_time) {
    lent *l = &r->tables;
    double began = now();
    compiled answer = plain_compile(text, length, l->entries, l->entry_count, l->finals, l->rows, r->keys, l->rows * KEY, l->work[1], l->rows, l->work[2], l->rows,
        l->work[3], l->rows, l->work[4], l->rows, l->work[5], l->rows, l->work[6], l->rows);
    least(least_time, now() - began);
    return answer;
}

static size_t read_text(const char *directory, const char *name, const char *ending, uint8_t *text) {
    char path[512];
    snprintf(path, sizeof path, "%s/%s%s", directory, name, ending);
    FILE *file = fopen(path, "rb");
    if (!file) { fprintf(stderr, "cannot open %s\n", path); exit(2); }
    size_t length = fread(text, 1, TEXT + 1, file);
    fclose(file);
    return length;
}

static compile_room room_for(size_t situations, size_t letters) { compile_room r = { lend(situations, letters), zeros(situations * KEY, 4) }; return r; }

static void take_back_room(compile_room *r) { take_back(&r->tables); free(r->keys); }

// The used rows of a sheet's table.
static owned compiled_table(const char *directory, const char *name, const char *ending, size_t letters, size_t situations) {
    static uint8_t text[TEXT + 1];
    size_t length = read_text(directory, name, ending, text);
    compile_room r = room_for(situations, letters);
    double unused = 1e9;
    compiled answer = call_compile(text, length, &r, &unused);
    if (answer.refusal) { printf("%s%s: refused %u\n", name, ending, answer.refusal); exit(1); }
    owned o = { zeros(answer.states * letters, 2), zeros(answer.states, 1), answer.states, answer.letters, answer.streams };
    memcpy(o.entries, r.tables.entries, answer.states * letters * 2);
    memcpy(o.finals, r.tables.finals, answer.states);
    take_back_room(&r);
    return o;
}

static void run_sheets_pair(const char *directory, const char *name, const size_t *sizes) {
    static uint8_t text[TEXT + 1];
    owned left = compiled_table(directory, name, ".left", sizes[0], sizes[1]), right = compiled_table(directory, name, ".right", sizes[2], sizes[3]);
    double joined = run_pair(name, &left, &right), single = 1e9, began = now();
    if (sizes[5]) {
        size_t length = read_text(directory, name, ".single", text);
        compile_room r = room_for(sizes[5], sizes[4]);
        for (size_t turn = 0; turn < 3 || now() - began < 0.2; turn++) call_compile(text, length, &r, &single);
        printf(": %11.1f %7.3f\n", single * 1e6, joined / single);
        take_back_room(&r);
    } else printf(": more than 4,096 situations\n");
    take_back_owned(&left); take_back_owned(&right);
}

static int run_sheets(const char *directory) {
    char name[64], path[512];
    size_t sizes[6], count = 0;
    snprintf(path, sizeof path, "%s/list", directory);
    FILE *list = fopen(path, "r");
    if (!list) { fprintf(stderr, "cannot open %s\n", path); return 2; }
    printf("sheets %s: the compile of a single sheet in C us, the join's part of it\n", heading);
    while (fscanf(list, "%63s %zu %zu %zu %zu %zu %zu", name, sizes, sizes + 1, sizes + 2, sizes + 3, sizes + 4, sizes + 5) == 7) {
        run_sheets_pair(directory, name, sizes);
        count++;
    }
    fclose(list);
    return count ? 0 : 2;
}

int main(int count, char **words) {
#ifdef WITHOUT_ARCHIVE
    printf("without the archive: both columns of a whole call are plain C\n");
#endif
    if (count == 2 && !strcmp(words[1], "tables")) return run_tables();
    if (count == 3 && !strcmp(words[1], "sheets")) return run_sheets(words[2]);
    fprintf(stderr, "usage: bench tables | bench sheets DIRECTORY\n");
    return 2;
}
