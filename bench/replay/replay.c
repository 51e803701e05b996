// The program `replay` as a plain C program, for comparing times: replay SHEET RECORD [START]. The compile is that of bench/compile. The record is
// read in chunks of 65,536 bytes, a line is read by hand as its bytes come, and what is printed is gathered in a buffer of 65,536 bytes. It is
// given sheets and records that can be read.
#include "record.h"

enum { ENTRIES = 32768, ROWS = 256, NO_STATE = 65535, LONGEST_LINE = 32 };

static uint16_t entries[ENTRIES];
static uint8_t finals[ROWS];
static uint32_t keys[ROWS * COMPILE_KEY], work[6][ROWS];

static size_t put_state(size_t at, uint64_t number, uint32_t state) {
    at = put_number(at, number);
    out[at++] = ' ';
    at = put_number(at, state);
    out[at] = '\n';
    return at + 1;
}

// The number of the letter so far.
static inline void take_value(line *l, int64_t value, int64_t low, int64_t high) {
    if (value < low || high < value) l->inside = 0;
    else l->letter = l->letter * (uint32_t)(high - low + 1) + (uint32_t)(value - low);
}

// ---- the record

// The state reached by a line, or 65,536 and the refusal.
static inline uint32_t line_leads(line *l, const sheet *s, uint32_t state) {
    if (l->token_begun) end_value(l, s);
    if (!l->sound || l->tokens != s->streams) return 65536 + 13;
    if (!l->inside) return 65536 + 14;
    uint32_t next = entries[state * s->letters + l->letter];
    return next == NO_STATE ? 65536 + 12 : next;
}

static void play(int record, const sheet *s, uint32_t state) {
    line l = no_line;
    stage where = IN_NAMES;
    uint64_t number = 1;
    size_t size = 0;
    int last = 0;
    while (!last && where != ENDED) {
        ssize_t n = next_chunk(record, &l, &last), i = 0;
        while (i < n && where == IN_NAMES) {
            uint8_t b = chunk[i++];
            if (b != 10) { read_name(&l, b, s); continue; }
            where = are_names(&l, s) ? IN_VALUES : ENDED;
            if (where == IN_VALUES) size = put_text(size, "line state\n");
            else size = put_refusal(size, 13);
            l = no_line;
        }
        while (i < n && where == IN_VALUES) {
            uint8_t b = chunk[i++];
            if (b != 10) { read_value(&l, b, s); continue; }
            uint32_t next = line_leads(&l, s, state);
            if (next >= 65536) { size = put_refusal(size, next - 65536); where = ENDED; break; }
            state = next;
            size = put_state(size, number++, state);
            if (CHUNK - size < LONGEST_LINE) { write_out(size); size = 0; }
            l = no_line;
        }
    }
    if (where == IN_NAMES) size = put_refusal(size, 13);
    write_out(size);
}

int main(int count, char **words) {
    static sheet s;
    size_t size = count > 1 ? read_sheet_file(words[1]) : 0;
    uint32_t refusal = read_sheet(text, size, &s), state = 0;
    size_t rows = refusal ? 0 : ENTRIES / s.letters < ROWS ? ENTRIES / s.letters : ROWS;
    compiled answer = plain_compile(text, size, entries, rows * s.letters, finals, rows, keys, rows * COMPILE_KEY, work[0], rows, work[1], rows,
        work[2], rows, work[3], rows, work[4], rows, work[5], rows);
    if (!answer.refusal && count > 3) {
        char *end = 0;
        state = (uint32_t)strtoul(words[3], &end, 10);
        if (*end || !*words[3] || state >= answer.states) answer.refusal = 11;
    }
    if (answer.refusal) { write_out(put_refusal(0, answer.refusal)); return 0; }
    read_names(size);
    play(count > 2 ? open(words[2], O_RDONLY) : -1, &s, state);
    return 0;
}
