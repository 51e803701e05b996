// What the plain C programs that read a sheet and a record share, for comparing times: a record's lines read by hand as their bytes come, what is printed
// gathered in a buffer, and the sheet's names. A program defines `take_value`.
#ifndef BENCH_RECORD_H
#define BENCH_RECORD_H
#define _POSIX_C_SOURCE 200809L
#include "../compile/plain.h"
#include "../compile/sheet.h"
#include <fcntl.h>
#include <stdlib.h>
#include <string.h>
#include <unistd.h>

enum { CHUNK = 65536, TEXT = 16385, NAME_BYTES = 8 };
static const int64_t beyond = 1000000001;

static uint8_t text[TEXT], chunk[CHUNK], out[CHUNK];
static uint8_t names[STREAMS][NAME_BYTES];
static size_t name_sizes[STREAMS];

static void write_out(size_t size) {
    for (size_t done = 0; done < size;) {
        ssize_t n = write(1, out + done, size - done);
        if (n <= 0) exit(1);
        done += (size_t)n;
    }
}

// Each gives the place behind what it puts.
static size_t put_number(size_t at, uint64_t n) {
    uint8_t digits[20];
    size_t first = sizeof digits;
    do { digits[--first] = (uint8_t)('0' + n % 10); n /= 10; } while (n);
    memcpy(out + at, digits + first, sizeof digits - first);
    return at + sizeof digits - first;
}

static size_t put_text(size_t at, const char *words) {
    memcpy(out + at, words, strlen(words));
    return at + strlen(words);
}

static size_t put_refusal(size_t at, uint32_t number) {
    at = put_number(put_text(at, "refused "), number);
    out[at] = '\n';
    return at + 1;
}

// ---- lines

typedef enum { EMPTY, MINUS, ZERO, DIGITS, BAD } phase;

// A line so far, and its token so far.
typedef struct {
    int begun, token_begun, sound, inside, negative;
    phase token;
    int64_t magnitude;
    size_t tokens, name_place;
    uint32_t letter;
} line;

static const line no_line = { .sound = 1, .inside = 1 };

static inline int is_bracket(uint8_t b) { return b == '(' || b == ')'; }
static inline int is_inside(uint8_t b) { return b > 32 && b < 127 && !is_bracket(b); }

// What a program does with the value of a token that ends, whose stream is there.
static inline void take_value(line *l, int64_t value, int64_t low, int64_t high);

static inline void end_value(line *l, const sheet *s) {
    if (l->token != ZERO && l->token != DIGITS) l->sound = 0;
    if (l->tokens < s->streams) take_value(l, l->negative ? -l->magnitude : l->magnitude, s->lows[l->tokens], s->highs[l->tokens]);
    l->tokens++;
    l->token = EMPTY;
    l->negative = l->token_begun = 0;
    l->magnitude = 0;
}

static inline void value_byte(line *l, uint8_t b) {
    int digit = b >= '0' && b <= '9';
    l->token_begun = 1;
    switch (l->token) {
    case EMPTY: l->token = b == '-' ? MINUS : b == '0' ? ZERO : digit ? DIGITS : BAD; l->negative = b == '-'; break;
    case MINUS: l->token = digit && b != '0' ? DIGITS : BAD; break;
    case DIGITS: if (!digit) l->token = BAD; break;
    default: l->token = BAD;
    }
    if (digit) {
        l->magnitude = l->magnitude * 10 + (b - '0');
        if (l->magnitude > beyond) l->magnitude = beyond;
    }
}

static inline void read_value(line *l, uint8_t b, const sheet *s) {
    l->begun = 1;
    if (b < 32 || b > 126) l->sound = 0;
    if (is_inside(b)) { value_byte(l, b); return; }
    if (l->token_begun) end_value(l, s);
    if (is_bracket(b)) { value_byte(l, b); end_value(l, s); }
}

static void end_name(line *l, const sheet *s) {
    if (l->tokens >= s->streams || l->name_place != name_sizes[l->tokens]) l->sound = 0;
    l->tokens++;
    l->name_place = 0;
    l->token_begun = 0;
}

static void name_byte(line *l, uint8_t b, const sheet *s) {
    l->token_begun = 1;
    if (l->tokens >= s->streams || l->name_place >= name_sizes[l->tokens] || names[l->tokens][l->name_place] != b) l->sound = 0;
    l->name_place++;
}

static void read_name(line *l, uint8_t b, const sheet *s) {
    l->begun = 1;
    if (b < 32 || b > 126) l->sound = 0;
    if (is_inside(b)) { name_byte(l, b, s); return; }
    if (l->token_begun) end_name(l, s);
    if (is_bracket(b)) { name_byte(l, b, s); end_name(l, s); }
}

// What is read next, and whether the names that end are the sheet's.
typedef enum { IN_NAMES, IN_VALUES, ENDED } stage;

static int are_names(line *l, const sheet *s) {
    if (l->token_begun) end_name(l, s);
    return l->sound && l->tokens == s->streams;
}

// The next bytes of the record: how many stand in `chunk`. At the end a byte 10 for a line that is begun, if there is one, and `last` is set.
static inline ssize_t next_chunk(int record, const line *l, int *last) {
    ssize_t n = read(record, chunk, CHUNK);
    if (n > 0) return n;
    *last = 1;
    chunk[0] = 10;
    return l->begun;
}

// ---- the sheet

// The tokens of the sheet's first line.
static void read_names(size_t size) {
    size_t i = 0, at = 0;
    while (at < size && text[at] != 10) {
        while (at < size && text[at] == 32) at++;
        while (at < size && text[at] > 32) names[i][name_sizes[i]++] = text[at++];
        i++;
    }
}

static size_t read_sheet_file(const char *path) {
    int file = open(path, O_RDONLY);
    size_t size = 0;
    for (ssize_t n; file >= 0 && size < TEXT && (n = read(file, text + size, TEXT - size)) > 0;) size += (size_t)n;
    return size;
}

#endif
