/* A program that calls the function of one archive and needs no other library. Compiled as C and as C++; CALL is 1 for the step, 2 for the compile,
 * 3 for the normal form, 4 for the compile with a play table, 5 for the course, 6 for going on in a new table and 7 for the join. */
#include "carry.h"
#include "compile.h"
#include "course.h"
#include "join.h"
#include "normal_form.h"
#include "step.h"
#include "strategy.h"

#if CALL < 5
static const uint8_t sheet[] = {'x', '\n', '0', '\n', '1', '\n', 'r', 'e', 'a', 'd', '\n', 'x', ' ', '=', '=', ' ', '1'};
#elif CALL > 5
static struct streams one_stream(uint8_t name)
{
    struct streams streams = {1, {0}, {1}, {0}, {1}, {STREAM_READ}};
    streams.names[0] = name;
    return streams;
}
#endif

#if CALL == 1
static int called(void)
{
    static const uint8_t table[] = {0, 0};
    struct step_place place = {0, 0};
    return step(sheet, 0, 0, 0, 0) == STEP_REFUSED_11 && advance(&place, table, sizeof table, 1, 0) == 0 && place.steps == 1;
}
#elif CALL == 2
static int called(void)
{
    uint16_t entries[8];
    uint8_t finals[4];
    uint32_t keys[4 * COMPILE_KEY], live[4], class_names[4], next[4], heads[4], links[4], envelopes[4];
    struct compile_answer answer =
        compile_c(sheet, sizeof sheet, entries, 8, finals, 4, keys, 4 * COMPILE_KEY, live, 4, class_names, 4, next, 4, heads, 4, links, 4, envelopes, 4);
    const struct streams *told = &answer.streams;
    return answer.refusal == 0 && answer.states == 1 && entries[0] == 65535 && entries[1] == 0 && finals[0] == 1 && answer.letters == 2
        && told->count == 1 && told->lengths[0] == 1 && told->names[0] == 'x' && told->lows[0] == 0 && told->highs[0] == 1 && told->kinds[0] == STREAM_READ;
}
#elif CALL == 3
static int called(void)
{
    struct normal_form_entry list[1];
    struct normal_form_answer answer = normal_form_c(sheet, sizeof sheet, list, 1);
    return answer.refusal == 0 && answer.entries == 1 && answer.added == 0;
}
#elif CALL == 4
/* the river can prevent that the gauge is always 1; without the rule it plays 0 or 1 */
static int called(void)
{
    uint16_t entries[8], play[8];
    uint8_t finals[4];
    uint32_t keys[4 * COMPILE_KEY], live[4], class_names[4], next[4], heads[4], links[4], envelopes[4];
    struct compile_answer prevented = strategy_c(sheet, sizeof sheet, entries, 8, finals, 4, keys, 4 * COMPILE_KEY, live, 4, class_names, 4, next, 4,
        heads, 4, links, 4, envelopes, 4, play, 8);
    int zero = entries[0] == 0 && finals[0] == 0 && play[0] == 0;
    struct compile_answer forced = strategy_c(sheet, 10, entries, 8, finals, 4, keys, 4 * COMPILE_KEY, live, 4, class_names, 4, next, 4,
        heads, 4, links, 4, envelopes, 4, play, 8);
    return prevented.refusal == 16 && prevented.states == 0 && prevented.letters == 0 && zero
        && forced.refusal == 0 && forced.states == 1 && forced.streams.kinds[0] == STREAM_READ && play[0] == 0 && play[1] == 1 && play[2] == 0;
}
#elif CALL == 5
/* two streams of two values, with the kinds given */
static struct streams two(uint8_t first, uint8_t second)
{
    struct streams streams = {2, {0}, {1, 1}, {0}, {1, 1}, {0}};
    streams.names[0] = 'a';
    streams.names[STREAMS_NAME] = 'b';
    streams.kinds[0] = first;
    streams.kinds[1] = second;
    return streams;
}

/* the sheet a b|0 0|1 1|1 until ( a and ( 0 fby b ) ): its one course of two letters with the fewest changes */
static int leads(struct streams streams, uint32_t first, uint32_t second)
{
    static const uint16_t entries[12] = {0, 1, 0, 1, 0, 1, 2, 2, 2, 2, 2, 2};
    static const uint8_t finals[3] = {0, 0, 1};
    uint32_t list[3] = {7, 7, 7};
    uint16_t work[12] = {7};
    struct course_answer answer = course_c(entries, 12, finals, 3, 4, streams, 0, list, 3, work, 12);
    return answer.refusal == 0 && answer.count == 2 && list[0] == first && list[1] == second && list[2] == 0 && work[0] == 0;
}

/* with these streams, this much work room and this long a list the call is refused */
static int refuses(struct streams streams, size_t work_count, size_t room, uint32_t refusal)
{
    static const uint16_t entries[12] = {0, 1, 0, 1, 0, 1, 2, 2, 2, 2, 2, 2};
    static const uint8_t finals[3] = {0, 0, 1};
    uint32_t list[3] = {7, 7, 7};
    uint16_t work[12] = {7};
    struct course_answer answer = course_c(entries, 12, finals, 3, 4, streams, 0, list, room, work, work_count);
    return answer.refusal == refusal && answer.count == 0 && list[0] == 0 && work[0] == 0;
}

static int called(void)
{
    struct streams set = two(STREAM_SET, STREAM_SET), odd = two(STREAM_SET, 2), wide = set, turned = set;
    wide.lows[0] = INT64_MIN;
    wide.highs[0] = INT64_MAX;
    turned.lows[0] = INT64_MAX;
    turned.highs[0] = INT64_MIN;
    return leads(set, 3, 3) && leads(two(STREAM_READ, STREAM_SET), 1, 3) && leads(two(STREAM_SET, STREAM_READ), 3, 2)
        && leads(two(STREAM_READ, STREAM_READ), 1, 2) && refuses(odd, 12, 3, 11) && refuses(wide, 12, 3, 11) && refuses(turned, 12, 3, 11)
        && refuses(set, 11, 3, 10) && refuses(set, 12, 1, 10);
}
#elif CALL == 6
/* from the table of `1 until x` to that of the stream without rules, and back, which no state has; and to another stream */
static int called(void)
{
    static const uint16_t until[] = {0, 1, 1, 1}, any[] = {0, 0};
    static const uint8_t until_finals[] = {0, 1}, any_finals[] = {1};
    struct streams x = one_stream('x'), y = one_stream('y');
    uint16_t list[4] = {9, 9, 9, 9};
    uint32_t carried = carry_c(until, 4, until_finals, 2, 2, x, any, 2, any_finals, 1, 2, x, list, 4);
    int filled = list[0] == 0 && list[1] == 0 && list[2] == 0 && list[3] == 0;
    uint32_t itself = carry_c(until, 4, until_finals, 2, 2, x, until, 4, until_finals, 2, 2, x, list, 4);
    int same = list[0] == 0 && list[1] == 1;
    return carried == 0 && filled && itself == 0 && same && carry_c(any, 2, any_finals, 1, 2, x, until, 4, until_finals, 2, 2, x, list, 4) == 18 && list[1] == 0
        && carry_c(until, 4, until_finals, 2, 2, x, any, 2, any_finals, 1, 2, y, list, 4) == 17
        && carry_c(until, 4, until_finals, 2, 2, x, any, 2, any_finals, 1, 2, x, list, 1) == 10;
}
#else
enum { ROWS = 4, LETTERS = 4 };

static uint16_t entries[ROWS * LETTERS];
static uint8_t finals[ROWS];
static uint32_t work[7][ROWS];

/* the table of `1 until x` joined with the one row of another sheet, with so many rows lent */
static struct join_answer joined(const uint16_t *row, uint32_t letters, struct streams streams, size_t rows)
{
    static const uint16_t until[] = {0, 1, 1, 1};
    static const uint8_t until_finals[] = {0, 1}, row_finals[] = {1};
    for (size_t i = 0; i < ROWS * LETTERS; i++)
        entries[i] = 9;
    for (size_t i = 0; i < ROWS; i++)
        finals[i] = 9;
    return join_c(until, 4, until_finals, 2, 2, one_stream('x'), row, letters, row_finals, 1, letters, streams, entries, rows * LETTERS, finals, rows,
        work[0], rows, work[1], rows, work[2], rows, work[3], rows, work[4], rows, work[5], rows, work[6], rows);
}

/* with `x == 1`: one state is left of two pairs */
static int joins(void)
{
    static const uint16_t one[] = {65535, 0};
    struct join_answer answer = joined(one, 2, one_stream('x'), ROWS);
    const struct streams *told = &answer.streams;
    return answer.refusal == 0 && answer.states == 1 && answer.pairs == 2 && answer.letters == 2 && told->count == 1 && told->names[0] == 'x'
        && told->lengths[0] == 1 && told->lows[0] == 0 && told->highs[0] == 1 && told->kinds[0] == STREAM_READ && entries[0] == 65535 && entries[1] == 0
        && entries[2] == 0 && finals[0] == 1 && finals[1] == 0;
}

/* with `y == 1`: y counts fastest */
static int joins_streams(void)
{
    static const uint16_t one[] = {65535, 0};
    struct join_answer answer = joined(one, 2, one_stream('y'), ROWS);
    const struct streams *told = &answer.streams;
    return answer.refusal == 0 && answer.states == 2 && answer.pairs == 2 && answer.letters == 4 && told->count == 2 && told->names[0] == 'x'
        && told->names[STREAMS_NAME] == 'y' && entries[0] == 65535 && entries[1] == 0 && entries[2] == 65535 && entries[3] == 1 && entries[4] == 65535
        && entries[5] == 1 && entries[6] == 65535 && entries[7] == 1 && finals[0] == 0 && finals[1] == 1;
}

static int refuses(const uint16_t *row, uint32_t letters, struct streams streams, size_t rows, uint32_t refusal)
{
    struct join_answer answer = joined(row, letters, streams, rows);
    return answer.refusal == refusal && answer.states == 0 && answer.pairs == 0 && answer.letters == 0 && answer.streams.count == 0 && entries[0] == 0
        && finals[0] == 0;
}

static int called(void)
{
    static const uint16_t one[] = {65535, 0}, zero[] = {0, 65535}, any[] = {0, 0, 0};
    struct streams x = one_stream('x'), wide = x;
    wide.highs[0] = 2;
    return joins() && joins_streams() && refuses(any, 3, x, ROWS, 11) && refuses(any, 3, wide, ROWS, 17) && refuses(one, 2, x, 1, 10)
        && refuses(zero, 2, x, ROWS, 9);
}
#endif

int main(void)
{
    return called() ? 0 : 1;
}
