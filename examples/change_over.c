/* A cabinet that changes its rules while it runs: readings come one by one, and between two of them a new sheet takes over.
 *
 * The sheet in use says that a gate which opens stays open for three times, and that it opens when called. A first new sheet, by which the gate
 * is open only when called, cannot take over: the gate already stood open without a call. A second one, by which two times are enough, can.
 */
#include <inttypes.h>
#include <stdbool.h>
#include <stdio.h>
#include <string.h>

#include "carry.h"
#include "compile.h"
#include "step.h"

#define STREAMS_OF_ALL "call gate\n0 0\n1 1\nread set\n"

static const char three_times[] = STREAMS_OF_ALL "( gate gt ( 0 fby gate ) ) -> ( ( next gate ) and ( next next gate ) )\ncall -> gate\n";
static const char only_called[] = STREAMS_OF_ALL "gate == call\n";
static const char two_times[] = STREAMS_OF_ALL "( gate gt ( 0 fby gate ) ) -> ( next gate )\ncall -> gate\n";

/* room for the situations of each sheet */
enum { LETTERS = 4, ROWS = 256 };

/* the rules of one sheet: its table, and what the compile tells of it */
struct rules {
    uint16_t entries[ROWS * LETTERS];
    uint8_t finals[ROWS];
    struct compile_answer told;
};

static size_t entry_count(const struct rules *rules)
{
    return (size_t)rules->told.states * rules->told.letters;
}

static bool compile_rules(struct rules *rules, const char *sheet)
{
    static uint32_t keys[ROWS * COMPILE_KEY], live[ROWS], class_names[ROWS], next[ROWS], heads[ROWS], links[ROWS], envelopes[ROWS];
    rules->told = compile_c((const uint8_t *)sheet, strlen(sheet), rules->entries, ROWS * LETTERS, rules->finals, ROWS, keys, ROWS * COMPILE_KEY,
        live, ROWS, class_names, ROWS, next, ROWS, heads, ROWS, links, ROWS, envelopes, ROWS);
    return rules->told.refusal == 0;
}

/* The place goes on in the new rules. With a refusal it stays as it is, and so do the rules in use. */
static uint32_t change_over(struct step_place *place, const struct rules *in_use, const struct rules *changed)
{
    uint16_t list[ROWS];
    uint32_t refusal = carry_c(in_use->entries, entry_count(in_use), in_use->finals, in_use->told.states, in_use->told.letters, in_use->told.streams,
        changed->entries, entry_count(changed), changed->finals, changed->told.states, changed->told.letters, changed->told.streams, list, ROWS);
    if (refusal == 0)
        place->state = list[place->state];
    return refusal;
}

/* A reading of call and gate. On x86-64 a number's low byte comes first, as the step wants it. */
static uint32_t take(struct step_place *place, const struct rules *rules, uint32_t call, uint32_t gate)
{
    return advance(place, (const uint8_t *)rules->entries, 2 * entry_count(rules), rules->told.letters, 2 * call + gate);
}

struct reading {
    uint32_t call;
    uint32_t gate;
};

/* the change comes behind the fourth; then the gate opens for two times, and for one, which neither sheet allows */
static const struct reading readings[] = {{0, 0}, {1, 1}, {0, 1}, {0, 1}, {0, 0}, {0, 1}, {0, 1}, {0, 0}, {0, 1}, {0, 0}, {0, 1}};
enum { READINGS = sizeof readings / sizeof readings[0], CHANGE_AFTER = 4 };

static void try_change(const struct rules **in_use, const struct rules *changed, const char *name, struct step_place *place)
{
    uint32_t before = place->state, refusal = change_over(place, *in_use, changed);
    if (refusal != 0) {
        printf("%s: refused %" PRIu32 ", the rules in use stay; still state %" PRIu32 "\n", name, refusal, place->state);
        return;
    }
    *in_use = changed;
    printf("%s: takes over, from state %" PRIu32 " to state %" PRIu32 " after %" PRIu32 " steps\n", name, before, place->state, place->steps);
}

static void run(const struct rules *in_use, const struct rules *refused, const struct rules *changed)
{
    struct step_place place = {0, 0}, from_the_start = {0, 0};
    for (size_t i = 0; i < READINGS; i++) {
        if (i == CHANGE_AFTER) {
            try_change(&in_use, refused, "open only when called", &place);
            try_change(&in_use, changed, "open for two times", &place);
        }
        uint32_t answer = take(&place, in_use, readings[i].call, readings[i].gate);
        take(&from_the_start, changed, readings[i].call, readings[i].gate);
        printf("call %" PRIu32 " gate %" PRIu32 ": %sstate %" PRIu32 "\n", readings[i].call, readings[i].gate,
            answer < STEP_REFUSED ? "" : "refused 12, alarm; still ", place.state);
    }
    printf("under the last rules from the first reading: state %" PRIu32 " after %" PRIu32 " steps\n", from_the_start.state, from_the_start.steps);
}

int main(void)
{
    static struct rules in_use, refused, changed;
    if (!compile_rules(&in_use, three_times) || !compile_rules(&refused, only_called) || !compile_rules(&changed, two_times))
        return 1;
    run(&in_use, &refused, &changed);
    return 0;
}
