// A play table by sweeps over the rows, and the compile with one. The compile is that of bench/compile.
#include "plain.h"
#include "../compile/plain.h"
#include "../compile/sheet.h"
#include <string.h>

enum { MOST_ROWS = 4096 };
#define NONE STRATEGY_NONE

// Writes to the row of the play table, for each choice, the first letter that leads to a marked row, or 65,535; gives whether each choice has one.
static int answer_row(const game *g, size_t row, const uint32_t *marks, uint16_t *play) {
    const uint16_t *entries = g->entries + row * g->letters;
    size_t answered = 0;
    for (size_t c = 0; c < g->choices; c++) play[c] = NONE;
    for (size_t a = 0; a < g->letters && answered < g->choices; a++) {
        uint16_t entry = entries[a], choice = g->letter_choices[a];
        if (entry == NONE || !marks[entry] || play[choice] != NONE) continue;
        play[choice] = (uint16_t)a;
        answered++;
    }
    return answered == g->choices;
}

// Clears the mark of a row in which some choice has no answer into the marked rows; gives whether it did.
static size_t fall(const game *g, size_t row, uint32_t *safe, uint16_t *play) {
    if (!safe[row] || answer_row(g, row, safe, play + row * g->choices)) return 0;
    safe[row] = 0;
    return 1;
}

// Marks a row in which every choice has an answer into the marked rows, and leaves these answers in the play table; gives whether it did.
static size_t rise(const game *g, size_t row, const uint32_t *safe, uint32_t *won, uint16_t *play) {
    if (won[row] || !safe[row] || !answer_row(g, row, won, play + row * g->choices)) return 0;
    won[row] = 1;
    return 1;
}

// The row at a place of a sweep. Sweeps go by turns, the first one down: from the last row to the first, or, where an order is given, from its first row to its last.
static size_t row_at(const game *g, const uint32_t *order, size_t turn, size_t i) {
    if (order) return order[turn % 2 ? g->rows - 1 - i : i];
    return turn % 2 ? i : g->rows - 1 - i;
}

static int find_play(const game *g, const uint32_t *order, uint32_t *safe, uint32_t *won, uint16_t *play) {
    size_t changed = 1;
    for (size_t row = 0; row < g->rows; row++) safe[row] = 1;
    for (size_t turn = 0; changed; turn++) {
        changed = 0;
        for (size_t i = 0; i < g->rows; i++) changed += fall(g, row_at(g, order, turn, i), safe, play);
    }
    // the answers of a safe row lead to safe rows since the last sweep, and those of a final one to final rows
    for (size_t row = 0; row < g->rows; row++) won[row] = safe[row] && g->finals[row];
    changed = 1;
    for (size_t turn = 0; changed; turn++) {
        changed = 0;
        for (size_t i = 0; i < g->rows; i++) changed += rise(g, row_at(g, order, turn, i), safe, won, play);
    }
    for (size_t row = 0; row < g->rows; row++)
        if (!won[row]) for (size_t c = 0; c < g->choices; c++) play[row * g->choices + c] = NONE;
    return won[0] == 1;
}

int plain_play(const game *g, uint32_t *safe, uint32_t *won, uint16_t *play) {
    return find_play(g, NULL, safe, won, play);
}

// ---- by an order in which a row mostly stands behind those that it leads to

// The rows in the order in which a search in depth leaves them. next_letters[row] is one more than the letters of the row that were looked at.
static void leave_order(const game *g, uint32_t *order, uint32_t *path, uint32_t *next_letters) {
    size_t count = 0;
    memset(next_letters, 0, g->rows * sizeof *next_letters);
    for (size_t start = 0; start < g->rows; start++) {
        size_t depth = 0;
        if (next_letters[start]) continue;
        next_letters[start] = 1;
        path[depth++] = (uint32_t)start;
        while (depth) {
            size_t row = path[depth - 1], letter = next_letters[row] - 1;
            const uint16_t *entries = g->entries + row * g->letters;
            while (letter < g->letters && (entries[letter] == NONE || next_letters[entries[letter]])) letter++;
            next_letters[row] = (uint32_t)letter + 1;
            if (letter == g->letters) {
                order[count++] = (uint32_t)row;
                depth--;
            } else {
                next_letters[entries[letter]] = 1;
                path[depth++] = entries[letter];
            }
        }
    }
}

int ordered_play(const game *g, uint32_t *safe, uint32_t *won, uint32_t *order, uint32_t *path, uint32_t *next_letters, uint16_t *play) {
    leave_order(g, order, path, next_letters);
    return find_play(g, order, safe, won, play);
}

// ---- by lists of entries

// ends[t] is, after the lists are filled, where the list of the entries that lead to row t begins; it ends where that of the next row begins.
static void fill_lists(const game *g, uint32_t *ends, uint32_t *list) {
    const size_t count = g->rows * g->letters;
    memset(ends, 0, (g->rows + 1) * sizeof *ends);
    for (size_t i = 0; i < count; i++) if (g->entries[i] != NONE) ends[g->entries[i]]++;
    for (size_t row = 1; row <= g->rows; row++) ends[row] += ends[row - 1];
    for (size_t i = count; i-- > 0;) if (g->entries[i] != NONE) list[--ends[g->entries[i]]] = (uint32_t)i;
}

int listed_play(const game *g, uint32_t *room, uint16_t *play) {
    const size_t rows = g->rows, choices = g->choices;
    uint32_t *ends = room, *list = ends + rows + 1, *ways = list + rows * g->letters, *missing = ways + rows * choices, *queue = missing + rows, *state = queue + rows;
    size_t count = 0;
    fill_lists(g, ends, list);
    // ways: how many letters of a row and choice lead to rows that are still safe; a row that loses its last way is taken out
    memset(ways, 0, rows * choices * sizeof *ways);
    memset(state, 0, rows * sizeof *state);
    for (size_t row = 0; row < rows; row++) for (size_t a = 0; a < g->letters; a++)
        if (g->entries[row * g->letters + a] != NONE) ways[row * choices + g->letter_choices[a]]++;
    enum { SAFE, LOST, WON };
    for (size_t row = 0; row < rows; row++) for (size_t c = 0; c < choices; c++) if (!ways[row * choices + c] && state[row] == SAFE) {
        state[row] = LOST;
        queue[count++] = (uint32_t)row;
    }
    for (size_t head = 0; head < count; head++) for (uint32_t i = ends[queue[head]]; i < ends[queue[head] + 1]; i++) {
        size_t row = list[i] / g->letters, place = row * choices + g->letter_choices[list[i] % g->letters];
        if (--ways[place] == 0 && state[row] == SAFE) {
            state[row] = LOST;
            queue[count++] = (uint32_t)row;
        }
    }
    // missing: how many choices of a row have no answer yet; a final row needs none to be won
    for (size_t i = 0; i < rows * choices; i++) play[i] = NONE;
    count = 0;
    for (size_t row = 0; row < rows; row++) {
        missing[row] = (uint32_t)choices;
        if (state[row] == SAFE && g->finals[row]) {
            state[row] = WON;
            queue[count++] = (uint32_t)row;
        }
    }
    for (size_t head = 0; head < count; head++) for (uint32_t i = ends[queue[head]]; i < ends[queue[head] + 1]; i++) {
        size_t row = list[i] / g->letters, letter = list[i] % g->letters, place = row * choices + g->letter_choices[letter];
        if (state[row] == LOST || play[place] != NONE) continue;
        // the answers of a row that is not final are those that were there before it was won
        if (state[row] == WON && !g->finals[row]) continue;
        play[place] = (uint16_t)letter;
        if (--missing[row] == 0 && state[row] == SAFE) {
            state[row] = WON;
            queue[count++] = (uint32_t)row;
        }
    }
    for (size_t row = 0; row < rows; row++) if (state[row] != WON) for (size_t c = 0; c < choices; c++) play[row * choices + c] = NONE;
    return state[0] == WON;
}

// ---- whether it is a play table

static int is_kept(const game *g, const uint16_t *play, size_t row) { return play[row * g->choices] != NONE; }

static const char *row_fault(const game *g, const uint16_t *play, size_t row) {
    for (size_t c = 0; c < g->choices; c++) {
        uint16_t letter = play[row * g->choices + c];
        if (!is_kept(g, play, row)) {
            if (letter != NONE) return "a row with letters and 65,535";
            continue;
        }
        if (letter >= g->letters || g->letter_choices[letter] != c) return "no letter of the choice";
        uint16_t entry = g->entries[row * g->letters + letter];
        if (entry == NONE || !is_kept(g, play, entry)) return "a play that comes to an end";
    }
    return NULL;
}

// Follows all plays from the row to final rows. A row that is met again before its own plays have come to their end lies on a play that meets no final row.
enum { NEW, OPEN, DONE };

static int has_endless_play(const game *g, const uint16_t *play, size_t start, uint8_t *met, uint16_t *path, uint16_t *next) {
    size_t depth = 0;
    if (met[start] == NEW) path[depth++] = (uint16_t)start;
    while (depth) {
        size_t row = path[depth - 1];
        if (met[row] == NEW) next[row] = 0;
        met[row] = OPEN;
        if (g->finals[row] || next[row] == g->choices) {
            met[row] = DONE;
            depth--;
            continue;
        }
        uint16_t entry = g->entries[row * g->letters + play[row * g->choices + next[row]++]];
        if (met[entry] == OPEN) return 1;
        if (met[entry] == NEW) path[depth++] = entry;
    }
    return 0;
}

const char *play_fault(const game *g, const uint16_t *play) {
    uint8_t met[MOST_ROWS] = { 0 };
    uint16_t path[MOST_ROWS], next[MOST_ROWS];
    for (size_t row = 0; row < g->rows; row++) {
        const char *fault = row_fault(g, play, row);
        if (fault) return fault;
    }
    for (size_t row = 0; row < g->rows; row++)
        if (is_kept(g, play, row) && has_endless_play(g, play, row, met, path, next)) return "a play that meets no final row";
    return NULL;
}

// ---- the compile with a play table

static size_t size_of(const struct streams *streams, size_t stream) { return (size_t)(streams->highs[stream] - streams->lows[stream] + 1); }

size_t choice_count(const struct streams *streams) {
    size_t count = 1;
    for (size_t k = 0; k < streams->count; k++) if (streams->kinds[k] == STREAM_READ) count *= size_of(streams, k);
    return count;
}

void fill_choices(const struct streams *streams, size_t letters, uint16_t *letter_choices) {
    for (size_t letter = 0; letter < letters; letter++) {
        size_t rest = letter, choice = 0, stride = 1;
        for (size_t k = streams->count; k-- > 0;) {
            size_t size = size_of(streams, k);
            if (streams->kinds[k] == STREAM_READ) {
                choice += rest % size * stride;
                stride *= size;
            }
            rest /= size;
        }
        letter_choices[letter] = (uint16_t)choice;
    }
}

static size_t fewer(size_t a, size_t b) { return a < b ? a : b; }

// The choices of the sheet of a text, or 1 where it is refused.
static size_t choices_in(const uint8_t *text, size_t length) {
    sheet s;
    size_t count = 1;
    if (read_sheet(text, length, &s)) return 1;
    for (size_t k = 0; k < s.streams; k++) if (s.stream_kinds[k] == STREAM_READ) count *= (size_t)(s.highs[k] - s.lows[k] + 1);
    return count;
}

struct compile_answer plain_strategy(const uint8_t *text, size_t length, uint16_t *entries, size_t entry_count, uint8_t *finals, size_t final_count,
    uint32_t *keys, size_t key_count, uint32_t *live, size_t live_count, uint32_t *class, size_t class_count, uint32_t *next, size_t next_count,
    uint32_t *heads, size_t head_count, uint32_t *links, size_t link_count, uint32_t *envelopes, size_t envelope_count, uint16_t *play, size_t play_count) {
    uint16_t letter_choices[LETTERS];
    size_t choices = choices_in(text, length), held = fewer(final_count, play_count / choices), used = 0;
    memset(finals + held, 0, final_count - held);
    struct compile_answer answer = plain_compile(text, length, entries, entry_count, finals, held, keys, key_count, live, live_count, class, class_count, next, next_count,
        heads, head_count, links, link_count, envelopes, envelope_count);
    if (answer.refusal == 0) {
        game g = { entries, finals, letter_choices, answer.states, answer.letters, choices };
        fill_choices(&answer.streams, answer.letters, letter_choices);
        int forced = plain_play(&g, live, class, play);
        memset(live, 0, answer.states * sizeof *live);
        memset(class, 0, answer.states * sizeof *class);
        if (forced) used = answer.states * choices;
        else {
            memset(entries, 0, (size_t)answer.states * answer.letters * sizeof *entries);
            memset(finals, 0, answer.states);
            memset(&answer, 0, sizeof answer);
            answer.refusal = 16;
        }
    }
    memset(play + used, 0, (play_count - used) * sizeof *play);
    return answer;
}
