// The compile as a plain C program of the same algorithm as crates/compile: the same keys, hash and order of situations, and the same
// passes from the graph to the table. It has no test that a read sheet and a found graph cannot fail.
#include "plain.h"
#include "sheet.h"
#include "../minimise/plain.h"
#include <string.h>

// A key is a size, six letters, eight firsts and the marks of the untils that are done.
enum { KEY = 16, KEY_LETTERS = 1, KEY_FIRSTS = 7, KEY_MARKS = 15, ROWS = 4096 };

// a value within the magnitude bound as a natural number of a key
#define RAISE 1000000000

// stands for no value; no value within the magnitude bound is equal to it
#define ABSENT (RAISE + 1)

// What an expression is evaluated in: the letters that are known, one after the other, and, in a record that was cut, the firsts.
typedef struct { const sheet *s; const int64_t *window, *firsts; int whole; } view;

static int is_opposite(int64_t a, int64_t b) { return a && (a < 0) != (b < 0); }

static int64_t applied(uint8_t kind, int64_t a, int64_t b) {
    if (a == ABSENT || b == ABSENT) return ABSENT;
    switch (kind) {
    case ADD: return a + b;
    case SUBTRACT: return a - b;
    case MULTIPLY: return a * b;
    case DIVIDE: return b ? a / b : ABSENT;
    case REMAINDER: return b ? a % b : ABSENT;
    case LT: return a < b;
    case LE: return a <= b;
    case EQ: return a == b;
    case GE: return a >= b;
    case GT: return a > b;
    case NE: return a != b;
    case AND: return a && b;
    case OR: return a || b;
    case FLOORED_DIVIDE: return b ? a / b - is_opposite(a % b, b) : ABSENT;
    default: return b ? a % b + (is_opposite(a % b, b) ? b : 0) : ABSENT;
    }
}

static int64_t negated(int64_t a) { return a == ABSENT ? ABSENT : !a; }

// The value of the part that ends before `end`, at a place of the window.
static int64_t value_before(const view *v, size_t end, size_t place) {
    const sheet *s = v->s;
    size_t i = end - 1;
    uint8_t kind = s->kinds[i];
    switch (kind) {
    case INTEGER: return s->values[i];
    case NAME: return v->window[place * s->streams + (size_t)s->values[i]];
    case FIRST: return v->whole ? value_before(v, i, 0) : v->firsts[s->values[i]];
    case NEXT: return value_before(v, i, place + 1);
    case NOT: return negated(value_before(v, i, place));
    case IF: {
        size_t middle = s->starts[i - 1];
        int64_t condition = value_before(v, s->starts[middle - 1], place);
        return condition == ABSENT ? ABSENT : value_before(v, condition ? middle : i, place);
    }
    // in a record that was cut, place 0 is not asked for
    case FBY: return place ? value_before(v, i, place - 1) : value_before(v, s->starts[i - 1], 0);
    default: {
        int64_t a = value_before(v, s->starts[i - 1], place);
        int64_t b = value_before(v, i, place);
        return applied(kind, a, b);
    }
    }
}

static int64_t value_of(const view *v, size_t node, size_t place) { return value_before(v, node + 1, place); }

// an `until` takes no value as 0
static int is_true(int64_t a) { return a != 0 && a != ABSENT; }

static int holds(uint8_t relation, int64_t a, int64_t b) {
    if (a == ABSENT || b == ABSENT) return 0;
    switch (relation) {
    case LESS: return a < b;
    case AT_MOST: return a <= b;
    case SAME: return a == b;
    case AT_LEAST: return a >= b;
    case MORE: return a > b;
    case OTHER: return a != b;
    default: return !a || b;
    }
}

// Judges every constraint at a place of the window. Gives whether the record stays lawful, with the marks of the untils that are done.
static int judge(const view *v, size_t place, uint32_t *marks) {
    const sheet *s = v->s;
    uint32_t told = 0, mark = 1;
    for (size_t j = 0; j < s->constraints; j++) {
        if (s->relations[j] == UNTIL) {
            if ((*marks & mark) || is_true(value_of(v, s->rights[j], place))) told |= mark;
            else if (!is_true(value_of(v, s->lefts[j], place))) return 0;
            mark <<= 1;
        } else if (!holds(s->relations[j], value_of(v, s->lefts[j], place), value_of(v, s->rights[j], place))) return 0;
    }
    *marks = told;
    return 1;
}

// What is the same for every letter after the record of a key: its known letters, their values and the values of the firsts.
typedef struct { uint32_t recent[WIDTH + 1]; int64_t window[(WIDTH + 1) * STREAMS], firsts[FIRSTS]; size_t held; } prepared;

static void put_letter(const sheet *s, const int64_t *letter_values, size_t place, uint32_t letter, prepared *p) {
    p->recent[place] = letter;
    for (size_t k = 0; k < s->streams; k++) p->window[place * s->streams + k] = letter_values[letter * s->streams + k];
}

static void prepare(const sheet *s, const int64_t *letter_values, const uint32_t *key, prepared *p) {
    p->held = key[0] < s->width ? key[0] : s->width;
    for (size_t i = 0; i < p->held; i++) put_letter(s, letter_values, i, key[KEY_LETTERS + i], p);
    for (size_t k = 0; k < s->firsts; k++) p->firsts[k] = (int64_t)key[KEY_FIRSTS + k] - RAISE;
}

// Whether the record of a key stays lawful with one more letter; if so, `fresh` gets the longer record's key.
static int extend(const sheet *s, const int64_t *letter_values, const uint32_t *key, prepared *p, uint32_t letter, uint32_t *fresh) {
    size_t size = key[0], held = p->held, count = held + 1;
    uint32_t marks = key[KEY_MARKS];
    put_letter(s, letter_values, held, letter, p);
    view v = { s, p->window, p->firsts, size <= s->width };
    // the time that is newly judged lies D letters back
    if (held >= s->ahead && !judge(&v, held - s->ahead, &marks)) return 0;
    memset(fresh, 0, KEY * sizeof *fresh);
    fresh[0] = (uint32_t)count;
    size_t kept = count < s->width ? count : s->width;
    memcpy(fresh + KEY_LETTERS, p->recent + count - kept, kept * sizeof *fresh);
    if (size == s->width)
        for (size_t k = 0; k < s->firsts; k++) fresh[KEY_FIRSTS + k] = (uint32_t)(value_of(&v, s->first_nodes[k], 0) + RAISE);
    else if (size > s->width)
        memcpy(fresh + KEY_FIRSTS, key + KEY_FIRSTS, s->firsts * sizeof *fresh);
    fresh[KEY_MARKS] = marks;
    return 1;
}

static size_t bucket_of(const uint32_t *key, size_t buckets) {
    uint64_t h = 0;
    for (size_t i = 0; i < KEY; i++) h = (h & 0xffffffffu) * 2654435761u + key[i];
    return h % buckets;
}

typedef struct { uint32_t *keys, *heads, *links; size_t buckets, limit; uint8_t *flags; uint32_t every; } rows;

// The row that holds the key. A new key becomes row n, with its flag, if there is room.
static size_t settle(rows *r, size_t n, const uint32_t *key) {
    size_t b = bucket_of(key, r->buckets);
    for (uint32_t j = r->heads[b]; j; j = r->links[j - 1])
        if (!memcmp(r->keys + (j - 1) * KEY, key, KEY * sizeof *key)) return j - 1;
    if (n < r->limit) {
        memcpy(r->keys + n * KEY, key, KEY * sizeof *key);
        r->links[n] = r->heads[b];
        r->heads[b] = (uint32_t)(n + 1);
        r->flags[n] = key[KEY_MARKS] == r->every;
    }
    return n;
}

static void fill_letters(const sheet *s, int64_t *letter_values) {
    for (size_t letter = 0; letter < s->letters; letter++) {
        size_t rest = letter;
        for (size_t k = s->streams; k-- > 0;) {
            size_t size = (size_t)(s->highs[k] - s->lows[k] + 1);
            letter_values[letter * s->streams + k] = s->lows[k] + (int64_t)(rest % size);
            rest /= size;
        }
    }
}

// Explores row by row and letter by letter. Gives the number of situations, or 0 where they are more than the limit.
static size_t explore(const sheet *s, rows *r, uint16_t *entries) {
    int64_t letter_values[LETTERS * STREAMS];
    uint32_t fresh[KEY] = { 0 };
    size_t n = 1;
    fill_letters(s, letter_values);
    memset(r->heads, 0, r->buckets * sizeof *r->heads);
    if (r->limit == 0) return 0;
    settle(r, 0, fresh);
    for (size_t i = 0; i < n; i++) {
        const uint32_t *key = r->keys + i * KEY;
        prepared p;
        prepare(s, letter_values, key, &p);
        for (size_t letter = 0; letter < s->letters; letter++) {
            size_t row = NONE;
            if (extend(s, letter_values, key, &p, (uint32_t)letter, fresh)) {
                row = settle(r, n, fresh);
                if (row == r->limit) return 0;
                if (row == n) n++;
            }
            *entries++ = (uint16_t)row;
        }
    }
    return n;
}

static size_t fewer(size_t a, size_t b) { return a < b ? a : b; }

// The streams, where everything behind them is zero already.
static void describe(const sheet *s, struct streams *streams) {
    streams->count = s->streams;
    for (size_t k = 0; k < s->streams; k++) {
        memcpy(streams->names + 8 * k, s->names + 8 * k, 8);
        streams->lengths[k] = s->lengths[k];
        streams->lows[k] = s->lows[k];
        streams->highs[k] = s->highs[k];
        streams->kinds[k] = s->stream_kinds[k];
    }
}

compiled plain_compile(const uint8_t *text, size_t length, uint16_t *entries, size_t entry_count, uint8_t *finals, size_t final_count,
    uint32_t *keys, size_t key_count, uint32_t *live, size_t live_count, uint32_t *class, size_t class_count, uint32_t *next, size_t next_count,
    uint32_t *heads, size_t head_count, uint32_t *links, size_t link_count, uint32_t *envelopes, size_t envelope_count) {
    sheet s;
    size_t used = 0;
    compiled answer;
    memset(&answer, 0, sizeof answer);
    answer.refusal = read_sheet(text, length, &s);
    if (answer.refusal == 0) {
        size_t lent = fewer(entry_count / s.letters, fewer(final_count, key_count / KEY));
        lent = fewer(lent, fewer(live_count, fewer(class_count, fewer(next_count, fewer(head_count, fewer(link_count, envelope_count))))));
        rows r = { keys, heads, links, head_count, fewer(lent, ROWS), finals, (1u << s.untils) - 1 };
        size_t count = explore(&s, &r, entries);
        answer.refusal = lent < ROWS ? 10 : 8;
        if (count) {
            tables t = { entries, finals, s.letters, count, live, class, next, heads, links, envelopes };
            minimised m = plain_reduce(&t);
            answer.refusal = m.refusal;
            if (m.refusal == 0) {
                answer.states = m.states;
                answer.situations = (uint32_t)count;
                answer.letters = (uint32_t)s.letters;
                describe(&s, &answer.streams);
                used = m.states * s.letters;
            }
        }
    }
    memset(entries + used, 0, (entry_count - used) * sizeof *entries);
    memset(finals + answer.states, 0, final_count - answer.states);
    memset(keys, 0, key_count * sizeof *keys);
    memset(live, 0, live_count * sizeof *live);
    memset(class, 0, class_count * sizeof *class);
    memset(next, 0, next_count * sizeof *next);
    memset(heads, 0, head_count * sizeof *heads);
    memset(links, 0, link_count * sizeof *links);
    memset(envelopes, 0, envelope_count * sizeof *envelopes);
    return answer;
}
