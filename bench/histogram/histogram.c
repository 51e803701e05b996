// The program `histogram` as a plain C program, for comparing times: histogram SHEET RECORD. The sheet is read by bench/compile. The record is read in
// chunks of 65,536 bytes, a line is read by hand as its bytes come, and each value is counted as it ends: what is counted of a record with a fault is not
// printed. It is given sheets and records that can be read.
#include "../replay/record.h"

enum { VALUES = 1024 };

static uint64_t counts[STREAMS][VALUES];

static inline void take_value(line *l, int64_t value, int64_t low, int64_t high) {
    if (value < low || high < value) l->inside = 0;
    else counts[l->tokens][value - low]++;
}

// 13, 14 or 0.
static inline uint32_t line_fault(line *l, const sheet *s) {
    if (l->token_begun) end_value(l, s);
    if (!l->sound || l->tokens != s->streams) return 13;
    return l->inside ? 0 : 14;
}

// The refusal, or 0 and the number of value lines.
static uint32_t count(int record, const sheet *s, uint64_t *total) {
    line l = no_line;
    stage where = IN_NAMES;
    int last = 0;
    while (!last) {
        ssize_t n = next_chunk(record, &l, &last), i = 0;
        while (i < n && where == IN_NAMES) {
            uint8_t b = chunk[i++];
            if (b != 10) { read_name(&l, b, s); continue; }
            if (!are_names(&l, s)) return 13;
            where = IN_VALUES;
            l = no_line;
        }
        while (i < n && where == IN_VALUES) {
            uint8_t b = chunk[i++];
            if (b != 10) { read_value(&l, b, s); continue; }
            uint32_t fault = line_fault(&l, s);
            if (fault) return fault;
            ++*total;
            l = no_line;
        }
    }
    return where == IN_NAMES ? 13 : 0;
}

static size_t put_value(size_t at, size_t stream, int64_t value, uint64_t held) {
    memcpy(out + at, names[stream], name_sizes[stream]);
    at += name_sizes[stream];
    out[at++] = ' ';
    if (value < 0) out[at++] = '-';
    at = put_number(at, (uint64_t)(value < 0 ? -value : value));
    out[at++] = ' ';
    at = put_number(at, held);
    out[at] = '\n';
    return at + 1;
}

static size_t put_counts(const sheet *s, uint64_t total) {
    size_t at = put_text(0, "stream value lines\n");
    for (size_t k = 0; k < s->streams; k++)
        for (int64_t value = s->lows[k]; value <= s->highs[k]; value++) at = put_value(at, k, value, counts[k][value - s->lows[k]]);
    at = put_number(put_text(at, "total "), total);
    out[at] = '\n';
    return at + 1;
}

int main(int words, char **word) {
    static sheet s;
    size_t size = words > 1 ? read_sheet_file(word[1]) : 0;
    uint32_t refusal = read_sheet(text, size, &s);
    uint64_t total = 0;
    if (!refusal) {
        read_names(size);
        refusal = count(words > 2 ? open(word[2], O_RDONLY) : -1, &s, &total);
    }
    write_out(refusal ? put_refusal(0, refusal) : put_counts(&s, total));
    return 0;
}
