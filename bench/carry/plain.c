// A queue over the old rows from row 0 on, with the new state of each: a row that is met first gets it, and a row that is met again must have it.
#include "plain.h"
#include <string.h>

static int same_streams(const struct streams *a, const struct streams *b) {
    if (a->count != b->count) return 0;
    for (size_t k = 0; k < a->count; k++) if (!same_name(a, k, b, k) || !same_range_and_kind(a, k, b, k)) return 0;
    return 1;
}

// Fills the new state of each old row, CARRY_NONE for a row that no record reaches; gives whether each row that is reached has one.
static int find_states(const given *old, const given *new, uint16_t *states) {
    uint16_t queue[GIVEN_ROWS];
    size_t count = 1;
    for (size_t row = 0; row < old->rows; row++) states[row] = CARRY_NONE;
    states[0] = 0;
    queue[0] = 0;
    for (size_t head = 0; head < count; head++) {
        const uint16_t *from = old->entries + queue[head] * old->letters, *to = new->entries + states[queue[head]] * new->letters;
        for (size_t a = 0; a < old->letters; a++) {
            if (from[a] == CARRY_NONE) continue;
            if (to[a] == CARRY_NONE) return 0;
            if (states[from[a]] == CARRY_NONE) {
                states[from[a]] = to[a];
                queue[count++] = from[a];
            } else if (states[from[a]] != to[a]) return 0;
        }
    }
    return 1;
}

uint32_t plain_carry(const uint16_t *old_entries, size_t old_entry_count, const uint8_t *old_finals, size_t old_final_count, uint32_t old_letters,
    struct streams old_streams, const uint16_t *new_entries, size_t new_entry_count, const uint8_t *new_finals, size_t new_final_count,
    uint32_t new_letters, struct streams new_streams, uint16_t *list, size_t list_count) {
    given old = { old_entries, old_entry_count, old_finals, old_final_count, old_letters, &old_streams };
    given new = { new_entries, new_entry_count, new_finals, new_final_count, new_letters, &new_streams };
    uint16_t states[GIVEN_ROWS];
    memset(list, 0, list_count * sizeof *list);
    if (!plain_is_given(&old) || !plain_is_given(&new)) return 11;
    if (!same_streams(&old_streams, &new_streams)) return 17;
    if (!find_states(&old, &new, states)) return 18;
    if (list_count < old.rows) return 10;
    memcpy(list, states, old.rows * sizeof *list);
    return 0;
}
