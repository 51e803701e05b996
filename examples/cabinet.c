/* The loop of a flood gate's cabinet: each reading is a letter, and the table says whether it may come.
 *
 * cabinet.h is what `export` prints for cabinet.sheet, which asks that the gate is open in the reading after one of
 * level 2. Its table has two states: 0, and 1 after level 2. When a level is read, the cabinet first asks which values
 * of the gate are allowed now.
 */
#include <inttypes.h>
#include <stdio.h>

#include "cabinet.h"
#include "step.h"

/* the streams, in the order of the sheet */
enum { LEVEL, GATE };

struct reading {
    int32_t level;
    int32_t gate;
};

/* the last reading is of a broken sensor: level 3 is no level of the sheet */
static const struct reading readings[] = {
    {0, 0}, {1, 0}, {2, 0}, {2, 1}, {1, 0}, {1, 1}, {0, 0}, {3, 0},
};

static int is_within(int stream, int32_t value)
{
    return sheet_lows[stream] <= value && value <= sheet_highs[stream];
}

/* The letter of a reading: the last stream counts fastest. A value outside its range has no letter; SHEET_LETTERS is
 * none, and a step refuses it with 11. */
static uint32_t letter_of(struct reading reading)
{
    uint32_t gates = (uint32_t)(sheet_highs[GATE] - sheet_lows[GATE]) + 1;
    if (!is_within(LEVEL, reading.level) || !is_within(GATE, reading.gate))
        return SHEET_LETTERS;
    return (uint32_t)(reading.level - sheet_lows[LEVEL]) * gates + (uint32_t)(reading.gate - sheet_lows[GATE]);
}

/* Prints the values of the gate that the table allows beside a level: those whose step moves. A step changes nothing. */
static void print_allowed(uint32_t state, int32_t level)
{
    printf("%s %" PRId32 ", %s may be", sheet_names[LEVEL], level, sheet_names[GATE]);
    for (int32_t gate = sheet_lows[GATE]; gate <= sheet_highs[GATE]; gate++) {
        struct reading reading = {level, gate};
        if (step(sheet_table, sizeof sheet_table, SHEET_LETTERS, state, letter_of(reading)) < STEP_REFUSED)
            printf(" %" PRId32, gate);
    }
    printf("\n");
}

int main(void)
{
    struct step_place place = {0, 0};
    for (size_t i = 0; i < sizeof readings / sizeof readings[0]; i++) {
        print_allowed(place.state, readings[i].level);
        uint32_t answer = advance(&place, sheet_table, sizeof sheet_table, SHEET_LETTERS, letter_of(readings[i]));
        printf("    %s %" PRId32 ": ", sheet_names[GATE], readings[i].gate);
        if (answer < STEP_REFUSED) {
            printf("state %" PRIu32 " after %" PRIu32 " steps\n", place.state, place.steps);
        } else if (answer == STEP_REFUSED_12) {
            /* level and gate together are what the sheet forbids: raise the alarm and wait for the next reading from the same place */
            printf("refused 12, alarm; still state %" PRIu32 " after %" PRIu32 " steps\n", place.state, place.steps);
        } else {
            /* the table or the reading is wrong: no further step can be trusted */
            printf("refused 11, stopped\n");
            break;
        }
    }
    return 0;
}
