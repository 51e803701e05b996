// The passes of `course` (crates/course, crates/changes, crates/tables and crates/streams) as a plain C program.
#include "plain.h"
#include <string.h>

#define MOST_ROWS 4096
#define MOST_LETTERS 1024
#define NONE UINT16_MAX

// the streams' sizes and whether they are set
typedef struct { size_t count, sizes[STREAMS_MOST]; int set[STREAMS_MOST]; } shape;

static int is_well_formed(const uint16_t *entries, size_t entry_count, const uint8_t *finals, size_t rows, size_t letters) {
    if (letters == 0 || rows == 0 || rows > MOST_ROWS || entry_count % letters != 0 || entry_count / letters != rows) return 0;
    for (size_t i = 0; i < rows; i++) if (finals[i] > 1) return 0;
    const uint16_t limit = (uint16_t)rows;
    int all = 1;
    for (size_t i = 0; i < entry_count; i++) all &= (entries[i] < limit) | (entries[i] == NONE);
    return all;
}

static int is_reserved(const uint8_t *name, size_t length) {
    static const char *words[] = { "lt", "le", "eq", "ge", "gt", "ne", "and", "or", "fby", "if", "then", "else", "first", "next", "not", "until", "read", "set" };
    for (size_t i = 0; i < sizeof words / sizeof *words; i++) if (strlen(words[i]) == length && memcmp(words[i], name, length) == 0) return 1;
    return 0;
}

static int streams_fit(const struct streams *s, size_t letters) {
    size_t made = 1;
    if (s->count == 0 || s->count > STREAMS_MOST || letters > MOST_LETTERS) return 0;
    for (size_t k = 0; k < s->count; k++) {
        const uint8_t *name = s->names + STREAMS_NAME * k;
        size_t length = s->lengths[k];
        if (s->kinds[k] > STREAM_READ || s->lows[k] < -1000000000 || s->highs[k] > 1000000000 || s->lows[k] > s->highs[k]) return 0;
        if (length == 0 || length > STREAMS_NAME || is_reserved(name, length)) return 0;
        for (size_t i = 0; i < length; i++) if (name[i] < 'a' || name[i] > 'z') return 0;
        for (size_t j = 0; j < k; j++) if (s->lengths[j] == length && memcmp(s->names + STREAMS_NAME * j, name, length) == 0) return 0;
        made *= (size_t)(s->highs[k] - s->lows[k] + 1);
        if (made > MOST_LETTERS) return 0;
    }
    return made == letters;
}

static size_t meet_rows(const uint16_t *entries, size_t letters, uint16_t start, uint16_t *layers, uint16_t *queue) {
    size_t count = 1;
    layers[start] = 0;
    queue[0] = start;
    for (size_t head = 0; head < count; head++) {
        const uint16_t *row = entries + queue[head] * letters;
        uint16_t next = layers[queue[head]] + 1;
        for (size_t a = 0; a < letters; a++) if (row[a] != NONE && layers[row[a]] == NONE) {
            layers[row[a]] = next;
            queue[count++] = row[a];
        }
    }
    return count;
}

// what the rest of a course costs behind the letter a
static uint16_t cost_behind(uint16_t entry, size_t a, const uint8_t *finals, size_t letters, uint16_t next, uint16_t goal, const uint16_t *layers, const uint16_t *costs) {
    if (entry == NONE || layers[entry] != next) return NONE;
    if (next != goal) return costs[entry * letters + a];
    return finals[entry] == 1 ? 0 : NONE;
}

// the least over all letters of the changes to a letter and its cost, stream by stream
static void lower_costs(const shape *s, uint16_t *row, size_t letters) {
    size_t stride = 1;
    for (size_t j = s->count; j > 0; j--) {
        size_t size = s->sizes[j - 1], width = size * stride;
        int set = s->set[j - 1];
        for (size_t start = 0; start < letters; start += width) for (size_t o = 0; o < stride; o++) {
            uint16_t *column = row + start + o, least = column[0];
            for (size_t d = 0; d < size; d++) if (column[d * stride] < least) least = column[d * stride];
            for (size_t d = 0; d < size; d++) {
                uint16_t own = column[d * stride];
                column[d * stride] = !set ? least : least < own ? least + 1 : own;
            }
        }
        stride = width;
    }
}

// the changes from one letter to each
static void count_changes(const shape *s, size_t letter, uint16_t *changes) {
    size_t stride = 1;
    changes[0] = 0;
    for (size_t j = s->count; j > 0; j--) {
        size_t size = s->sizes[j - 1], own = letter / stride % size;
        for (size_t d = size; d > 0; d--) {
            uint16_t more = s->set[j - 1] && d - 1 != own;
            for (size_t o = 0; o < stride; o++) changes[(d - 1) * stride + o] = changes[o] + more;
        }
        stride *= size;
    }
}

static size_t cheapest_letter(const uint16_t *row, const uint8_t *finals, size_t letters, uint16_t next, uint16_t goal, const uint16_t *layers, const uint16_t *costs, const uint16_t *changes) {
    size_t best = 0;
    uint32_t least = 131072;
    for (size_t a = 0; a < letters; a++) {
        uint16_t cost = cost_behind(row[a], a, finals, letters, next, goal, layers, costs);
        uint32_t total = cost == NONE ? 131072 : (uint32_t)changes[a] + cost;
        if (total < least) { least = total; best = a; }
    }
    return best;
}

static struct course_answer find_course(const uint16_t *entries, size_t entry_count, const uint8_t *finals, size_t rows, size_t letters, const shape *s, uint16_t state,
    uint32_t *list, size_t room, uint16_t *work, size_t work_count) {
    uint16_t layers[MOST_ROWS], queue[MOST_ROWS], changes[MOST_LETTERS], goal = NONE;
    memset(layers, 255, sizeof layers);
    memset(queue, 0, sizeof queue);
    size_t met = meet_rows(entries, letters, state, layers, queue);
    for (size_t i = 0; i < rows; i++) if (finals[i] == 1 && layers[i] < goal) goal = layers[i];
    if (goal == NONE) return (struct course_answer){ 15, 0 };
    if (work_count < entry_count || room < goal) return (struct course_answer){ 10, 0 };
    for (size_t left = met; left > 0; left--) {
        size_t row = queue[left - 1];
        if (layers[row] >= goal) continue;
        for (size_t a = 0; a < letters; a++) work[row * letters + a] = cost_behind(entries[row * letters + a], a, finals, letters, layers[row] + 1, goal, layers, work);
        lower_costs(s, work + row * letters, letters);
    }
    memset(changes, 0, sizeof changes);
    size_t row = state;
    for (size_t i = 0; i < goal; i++) {
        size_t letter = cheapest_letter(entries + row * letters, finals, letters, layers[row] + 1, goal, layers, work, changes);
        list[i] = (uint32_t)letter;
        row = entries[row * letters + letter];
        count_changes(s, letter, changes);
    }
    return (struct course_answer){ 0, goal };
}

struct course_answer plain_course(const uint16_t *entries, size_t entry_count, const uint8_t *finals, size_t rows, uint32_t letters, struct streams streams,
    uint32_t state, uint32_t *list, size_t room, uint16_t *work, size_t work_count) {
    struct course_answer answer = { 11, 0 };
    memset(list, 0, room * sizeof *list);
    if (is_well_formed(entries, entry_count, finals, rows, letters) && streams_fit(&streams, letters) && state < rows) {
        shape s = { .count = streams.count };
        for (size_t k = 0; k < s.count; k++) {
            s.sizes[k] = (size_t)(streams.highs[k] - streams.lows[k] + 1);
            s.set[k] = streams.kinds[k] != STREAM_READ;
        }
        answer = find_course(entries, entry_count, finals, rows, letters, &s, (uint16_t)state, list, room, work, work_count);
    }
    memset(work, 0, work_count * sizeof *work);
    return answer;
}
