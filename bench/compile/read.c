// Reads a sheet as crates/reader does: each refusal by a pass of its own, so that the lowest is given.
#include "sheet.h"

#define BOUND 1000000000

typedef struct { const uint8_t *at, *end; } span;

static int is_bracket(uint8_t b) { return b == '(' || b == ')'; }
static int is_inside(uint8_t b) { return b >= 33 && b <= 126 && !is_bracket(b); }

// The first token of the rest, which is cut after it. An empty token says that there is none.
static span next_token(span *rest) {
    const uint8_t *p = rest->at;
    while (p < rest->end && !is_bracket(*p) && !is_inside(*p)) p++;
    span token = { p, p };
    if (p < rest->end) {
        p++;
        if (!is_bracket(*token.at)) while (p < rest->end && is_inside(*p)) p++;
    }
    token.end = p;
    rest->at = p;
    return token;
}

static int is_empty(span s) { return s.at == s.end; }

// The first line of the rest, which is cut after it and its byte 10.
static span next_line(span *rest) {
    const uint8_t *p = rest->at;
    while (p < rest->end && *p != 10) p++;
    span line = { rest->at, p };
    rest->at = p < rest->end ? p + 1 : p;
    return line;
}

static size_t token_count(span text) {
    size_t count = 0;
    while (!is_empty(next_token(&text))) count++;
    return count;
}

static int same_bytes(span a, span b) {
    if (a.end - a.at != b.end - b.at) return 0;
    while (a.at < a.end) if (*a.at++ != *b.at++) return 0;
    return 1;
}

// The place of a token among those of line 1, or their number.
static size_t place_of(span names, span name) {
    for (size_t count = 0;; count++) {
        span token = next_token(&names);
        if (is_empty(token) || same_bytes(token, name)) return count;
    }
}

// A number that tells words of up to seven bytes apart; 0 for a longer one.
static uint64_t word(span token) {
    if (token.end - token.at > 7) return 0;
    uint64_t number = 1;
    while (token.end > token.at) number = number * 256 + *--token.end;
    return number;
}

#define W1(a) (256ull + (a))
#define W2(a, b) (W1(b) * 256 + (a))
#define W3(a, b, c) (W2(b, c) * 256 + (a))
#define W4(a, b, c, d) (W3(b, c, d) * 256 + (a))
#define W5(a, b, c, d, e) (W4(b, c, d, e) * 256 + (a))
#define W7(a, b, c, d, e, f, g) ((W5(c, d, e, f, g) * 256 + (b)) * 256 + (a))

static uint8_t operator_of(span token) {
    switch (word(token)) {
    case W1('+'): return ADD;
    case W1('-'): return SUBTRACT;
    case W1('*'): return MULTIPLY;
    case W1('/'): return DIVIDE;
    case W1('%'): return REMAINDER;
    case W2('l', 't'): return LT;
    case W2('l', 'e'): return LE;
    case W2('e', 'q'): return EQ;
    case W2('g', 'e'): return GE;
    case W2('g', 't'): return GT;
    case W2('n', 'e'): return NE;
    case W3('a', 'n', 'd'): return AND;
    case W2('o', 'r'): return OR;
    case W3('f', 'b', 'y'): return FBY;
    default: return NO_WORD;
    }
}

static uint8_t relation_of(span token) {
    switch (word(token)) {
    case W1('<'): return LESS;
    case W2('<', '='): return AT_MOST;
    case W2('=', '='): return SAME;
    case W2('>', '='): return AT_LEAST;
    case W1('>'): return MORE;
    case W2('!', '='): return OTHER;
    case W2('-', '>'): return IMPLIES;
    case W5('u', 'n', 't', 'i', 'l'): return UNTIL;
    default: return NO_WORD;
    }
}

static uint8_t prefix_of(span token) {
    switch (word(token)) {
    case W5('f', 'i', 'r', 's', 't'): return FIRST;
    case W4('n', 'e', 'x', 't'): return NEXT;
    case W3('n', 'o', 't'): return NOT;
    default: return NO_WORD;
    }
}

static int is_reserved(span token) {
    switch (word(token)) {
    case W2('i', 'f'): case W4('t', 'h', 'e', 'n'): case W4('e', 'l', 's', 'e'): case W5('u', 'n', 't', 'i', 'l'): return 1;
    case W4('r', 'e', 'a', 'd'): case W3('s', 'e', 't'): return 1;
    default: return (operator_of(token) >= LT && operator_of(token) != NO_WORD) || operator_of(token) == FBY || prefix_of(token) != NO_WORD;
    }
}

static int is_name(span token) {
    if (is_empty(token) || token.end - token.at > 8) return 0;
    for (; token.at < token.end; token.at++) if (*token.at < 'a' || *token.at > 'z') return 0;
    return 1;
}

// Whether the token is an integer. One beyond the bound is noted, and read as 0.
static int read_integer(span token, int64_t *value, int *beyond) {
    int negative = !is_empty(token) && *token.at == '-';
    token.at += negative;
    *value = 0;
    if (is_empty(token)) return 0;
    if (*token.at == '0') return token.end - token.at == 1 && !negative;
    int64_t n = 0;
    for (; token.at < token.end; token.at++) {
        if (*token.at < '0' || *token.at > '9') return 0;
        // a number beyond the bound stays so without growing on
        if (n <= BOUND) n = n * 10 + (*token.at - '0');
    }
    if (n > BOUND) *beyond = 1;
    else *value = negative ? -n : n;
    return 1;
}

static int bytes_refused(span text) {
    if (text.end - text.at > 16384) return 1;
    for (; text.at < text.end; text.at++) if (*text.at != 10 && (*text.at < 32 || *text.at > 126)) return 1;
    return 0;
}

static int too_deep(span line) {
    int depth = 0;
    for (; line.at < line.end; line.at++) {
        depth += *line.at == '(';
        depth -= *line.at == ')';
        if (depth > 32) return 1;
    }
    return 0;
}

static int lines_refused(span names, span constraints) {
    size_t count = 0, tokens = 0;
    if (token_count(names) > STREAMS) return 1;
    while (!is_empty(constraints)) {
        span line = next_line(&constraints);
        if (too_deep(line)) return 1;
        count++;
        tokens += token_count(line);
    }
    return count > CONSTRAINTS || tokens > NODES;
}

// ---- constraint lines

typedef struct { span names; sheet *s; int beyond; } reader;

static void put(sheet *s, uint8_t kind, int64_t value, size_t start) {
    s->kinds[s->nodes] = kind;
    s->values[s->nodes] = value;
    s->starts[s->nodes] = (uint16_t)start;
    s->nodes++;
}

static int expression(reader *r, span *rest);

static int leaf(reader *r, span token) {
    sheet *s = r->s;
    int64_t value;
    if (read_integer(token, &value, &r->beyond)) {
        put(s, INTEGER, value, s->nodes);
        return 1;
    }
    if (is_reserved(token) || !is_name(token)) return 0;
    put(s, NAME, (int64_t)place_of(r->names, token), s->nodes);
    return 1;
}

// The text between two brackets is read as an expression by itself.
static int bracketed(reader *r, span *rest) {
    size_t depth = 0;
    const uint8_t *p = rest->at;
    for (; p < rest->end; p++) {
        if (*p == '(') depth++;
        if (*p == ')' && depth-- == 0) break;
    }
    if (p == rest->end) return 0;
    span inside = { rest->at, p };
    rest->at = p + 1;
    return expression(r, &inside) && is_empty(next_token(&inside));
}

static int part(reader *r, span *rest) {
    sheet *s = r->s;
    span token = next_token(rest);
    if (is_empty(token)) return 0;
    uint8_t kind = prefix_of(token);
    if (kind != NO_WORD) {
        size_t start = s->nodes;
        // a `first` takes its number before those inside it
        int64_t value = kind == FIRST ? (int64_t)s->firsts++ : 0;
        if (!part(r, rest)) return 0;
        put(s, kind, value, start);
        return 1;
    }
    return *token.at == '(' ? bracketed(r, rest) : leaf(r, token);
}

static int keyword(span *rest, uint64_t wanted) { return word(next_token(rest)) == wanted; }

static int expression(reader *r, span *rest) {
    sheet *s = r->s;
    size_t start = s->nodes;
    span after = *rest;
    if (keyword(&after, W2('i', 'f'))) {
        *rest = after;
        if (!part(r, rest) || !keyword(rest, W4('t', 'h', 'e', 'n'))) return 0;
        if (!part(r, rest) || !keyword(rest, W4('e', 'l', 's', 'e'))) return 0;
        if (!part(r, rest)) return 0;
        put(s, IF, 0, start);
        return 1;
    }
    if (!part(r, rest)) return 0;
    after = *rest;
    uint8_t kind = operator_of(next_token(&after));
    if (kind == NO_WORD) return 1;
    *rest = after;
    if (!part(r, rest)) return 0;
    put(s, kind, 0, start);
    return 1;
}

static int constraint(reader *r, span line) {
    sheet *s = r->s;
    size_t at = s->constraints++;
    if (!expression(r, &line)) return 0;
    s->lefts[at] = (uint16_t)(s->nodes - 1);
    s->relations[at] = relation_of(next_token(&line));
    if (s->relations[at] == NO_WORD || !expression(r, &line)) return 0;
    s->rights[at] = (uint16_t)(s->nodes - 1);
    s->untils += s->relations[at] == UNTIL;
    return is_empty(next_token(&line));
}

// ---- the header lines

// Whether the three lines name streams with ranges. A fault of a range is noted.
static int read_streams(sheet *s, span names, span lows, span highs, int *faulty) {
    for (;;) {
        span name = next_token(&names), low = next_token(&lows), high = next_token(&highs);
        if (is_empty(name)) return is_empty(low) && is_empty(high) && s->streams > 0;
        int64_t *lowest = &s->lows[s->streams], *highest = &s->highs[s->streams];
        if (!is_name(name) || !read_integer(low, lowest, faulty) || !read_integer(high, highest, faulty)) return 0;
        if (*highest < *lowest) *faulty = 1;
        s->lengths[s->streams] = (uint8_t)(name.end - name.at);
        for (size_t i = 0; i < 8; i++) s->names[8 * s->streams + i] = name.at + i < name.end ? name.at[i] : 0;
        s->streams++;
    }
}

// The release that a line says, or 0 where it says none; a number that is no release's is given as 3.
static int release_of(span line) {
    int64_t number;
    int beyond = 0;
    span first = next_token(&line), second = next_token(&line);
    if (word(first) != W7('r', 'e', 'l', 'e', 'a', 's', 'e') || !is_empty(next_token(&line))) return 0;
    if (!read_integer(second, &number, &beyond)) return 0;
    return !beyond && (number == 1 || number == 2) ? (int)number : 3;
}

// The quotients and remainders of release 2 in the place of those that were read.
static void round_down(sheet *s) {
    for (size_t i = 0; i < s->nodes; i++) {
        if (s->kinds[i] == DIVIDE) s->kinds[i] = FLOORED_DIVIDE;
        else if (s->kinds[i] == REMAINDER) s->kinds[i] = FLOORED_REMAINDER;
    }
}

// The kind of a stream that a token says: 0 for set, 1 for read.
static uint8_t stream_kind_of(span token) {
    switch (word(token)) {
    case W3('s', 'e', 't'): return 0;
    case W4('r', 'e', 'a', 'd'): return 1;
    default: return NO_WORD;
    }
}

// Whether the line has one kind for each stream.
static int read_kinds(sheet *s, span line) {
    for (size_t k = 0; k < s->streams; k++) {
        s->stream_kinds[k] = stream_kind_of(next_token(&line));
        if (s->stream_kinds[k] == NO_WORD) return 0;
    }
    return is_empty(next_token(&line));
}

static int names_refused(span names) {
    for (;;) {
        span name = next_token(&names);
        if (is_empty(name)) return 0;
        if (is_reserved(name) || place_of(names, name) < token_count(names)) return 1;
    }
}

static int some_unknown(const sheet *s) {
    for (size_t i = 0; i < s->nodes; i++) if (s->kinds[i] == NAME && s->values[i] >= (int64_t)s->streams) return 1;
    return 0;
}

// ---- intervals, reach and back

// `ahead` is the largest reach of what a `first` stands before.
typedef struct { int ok; int64_t low, high; size_t reach, back, ahead; } summary;

static int64_t least(int64_t a, int64_t b) { return a < b ? a : b; }
static int64_t greatest(int64_t a, int64_t b) { return a < b ? b : a; }
static size_t larger(size_t a, size_t b) { return a < b ? b : a; }

static summary within(summary x, int64_t low, int64_t high) {
    x.ok &= low >= -BOUND && high <= BOUND;
    x.low = low;
    x.high = high;
    return x;
}

static summary joined(summary a, summary b) {
    summary x = { a.ok & b.ok, 0, 0, larger(a.reach, b.reach), larger(a.back, b.back), larger(a.ahead, b.ahead) };
    return x;
}

static summary over_ends(summary x, int64_t p, int64_t q, int64_t r, int64_t s) {
    return within(x, least(least(p, q), least(r, s)), greatest(greatest(p, q), greatest(r, s)));
}

static int64_t magnitude(summary a) {
    return greatest(-a.low, greatest(a.low, greatest(-a.high, a.high)));
}

static summary operated(uint8_t kind, summary a, summary b) {
    summary x = joined(a, b);
    if (!x.ok) return x;
    int64_t most = magnitude(a);
    int64_t divisor = greatest(magnitude(b) - 1, 0), left = least(most, divisor);
    switch (kind) {
    case ADD: return within(x, a.low + b.low, a.high + b.high);
    case SUBTRACT: return within(x, a.low - b.high, a.high - b.low);
    case MULTIPLY: return over_ends(x, a.low * b.low, a.low * b.high, a.high * b.low, a.high * b.high);
    case DIVIDE: case FLOORED_DIVIDE: return within(x, -most, most);
    case FLOORED_REMAINDER: return within(x, -divisor, divisor);
    case REMAINDER: return within(x, a.low >= 0 ? 0 : -left, a.high <= 0 ? 0 : left);
    default: return within(x, 0, 1);
    }
}

static summary summary_before(const sheet *s, size_t end) {
    size_t i = end - 1;
    summary a, b, x = { 1, 0, 0, 0, 0, 0 };
    switch (s->kinds[i]) {
    case INTEGER: return within(x, s->values[i], s->values[i]);
    case NAME: return within(x, s->lows[s->values[i]], s->highs[s->values[i]]);
    case FIRST:
        x = summary_before(s, i);
        x.ahead = larger(x.reach, x.ahead);
        x.back = 0;
        return x;
    case NEXT:
        x = summary_before(s, i);
        x.reach++;
        x.back -= x.back > 0;
        return x;
    case NOT: return within(summary_before(s, i), 0, 1);
    case IF: {
        size_t middle = s->starts[i - 1];
        x = summary_before(s, s->starts[middle - 1]);
        a = summary_before(s, middle);
        b = summary_before(s, i);
        return within(joined(x, joined(a, b)), least(a.low, b.low), greatest(a.high, b.high));
    }
    case FBY:
        a = summary_before(s, s->starts[i - 1]);
        b = summary_before(s, i);
        b.reach -= b.reach > 0;
        x = within(joined(a, b), least(a.low, b.low), greatest(a.high, b.high));
        x.back = b.back + 1;
        return x;
    default:
        a = summary_before(s, s->starts[i - 1]);
        b = summary_before(s, i);
        return operated(s->kinds[i], a, b);
    }
}

// D and D + B of all sides; gives whether every interval is within the bound.
static int find_extent(sheet *s) {
    summary all = { 1, 0, 0, 0, 0, 0 };
    for (size_t j = 0; j < s->constraints; j++)
        all = joined(all, joined(summary_before(s, s->lefts[j] + 1u), summary_before(s, s->rights[j] + 1u)));
    s->ahead = larger(all.reach, all.ahead);
    s->width = s->ahead + all.back;
    return all.ok;
}

// The number of letters, or one more than the bound.
static size_t letter_count(const sheet *s) {
    int64_t count = 1;
    for (size_t k = s->streams; k-- > 0;) count = least(count * (s->highs[k] - s->lows[k] + 1), LETTERS + 1);
    return (size_t)count;
}

uint32_t read_sheet(const uint8_t *text, size_t length, sheet *s) {
    span all = { text, text + length }, rest = all;
    int faulty = 0;
    s->streams = s->constraints = s->nodes = s->untils = s->firsts = 0;
    for (size_t k = 0; k < STREAMS; k++) s->stream_kinds[k] = 0;
    if (bytes_refused(all)) return 1;
    span behind = rest;
    int release = release_of(next_line(&behind));
    if (release) rest = behind;
    span names = next_line(&rest), lows = next_line(&rest);
    int whole = !is_empty(rest);
    span highs = next_line(&rest), after = rest, fourth = next_line(&after), first = fourth;
    int said = stream_kind_of(next_token(&first)) != NO_WORD;
    if (said) rest = after;
    if (lines_refused(names, rest)) return 2;
    if (release > 2 || !whole || !read_streams(s, names, lows, highs, &faulty)) return 3;
    if (said && !read_kinds(s, fourth)) return 3;
    reader r = { names, s, 0 };
    while (!is_empty(rest)) if (!constraint(&r, next_line(&rest))) return 3;
    if (release == 2) round_down(s);
    if (names_refused(names) || some_unknown(s)) return 4;
    if (faulty || r.beyond) return 5;
    if (!find_extent(s)) return 6;
    s->letters = letter_count(s);
    if (s->letters > LETTERS || s->untils > UNTILS || s->firsts > FIRSTS || s->width > WIDTH) return 7;
    for (size_t i = 0; i < s->nodes; i++) if (s->kinds[i] == FIRST) s->first_nodes[s->values[i]] = (uint16_t)i;
    return 0;
}
