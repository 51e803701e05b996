#include "step_in_c.h"

uint32_t step_in_c(const uint8_t *table, size_t length, uint32_t letters, uint32_t state, uint32_t letter)
{
    if (letters == 0)
        return STEP_REFUSED_11;
    size_t row = (size_t)letters * 2;
    if (length % row != 0)
        return STEP_REFUSED_11;
    size_t rows = length / row;
    if (rows > STEP_MOST_ROWS || state >= rows || letter >= letters)
        return STEP_REFUSED_11;
    const uint8_t *at = table + ((size_t)state * letters + letter) * 2;
    uint32_t entry = at[0] | (uint32_t)at[1] << 8;
    if (entry == STEP_NO_STATE)
        return STEP_REFUSED_12;
    if (entry >= rows)
        return STEP_REFUSED_11;
    return entry;
}

uint32_t advance_in_c(struct step_place *place, const uint8_t *table, size_t length, uint32_t letters, uint32_t letter)
{
    uint32_t answer = step_in_c(table, length, letters, place->state, letter);
    if (answer < STEP_REFUSED) {
        place->state = answer;
        if (place->steps < STEP_MOST_STEPS)
            place->steps++;
    }
    return answer;
}
