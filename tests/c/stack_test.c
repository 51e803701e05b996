/* The stack that a call takes. Each sheet is compiled, without and with a play table, and its normal form is made, twice: on a large stack, and in a thread
 * whose whole stack is the figure that the header states, with a page below it that cannot be touched. Both calls must give the same answer and the same tables,
 * and the first may use no more than the figure. The stack of two steps, of calls for a course, of calls for the states of a new table and of joins is measured
 * too. It prints the most that was used, and ends with status 1 at a difference.
 *
 *     stack_test all          prints what each of its sheets takes: bytes of the compile, of that with a play table and of the normal form, their
 *                             refusals, the sheet
 *     stack_test FILE ..      the same of the sheets in these files
 */
#define _GNU_SOURCE
#include <limits.h>
#include <pthread.h>
#include <stdbool.h>
#include <stdio.h>
#include <stdlib.h>
#include <string.h>
#include <sys/mman.h>

#include "carry.h"
#include "compile.h"
#include "course.h"
#include "join.h"
#include "normal_form.h"
#include "step.h"
#include "strategy.h"

static void fail(const char *what)
{
    fprintf(stderr, "stack_test: %s\n", what);
    exit(1);
}

/* ---- a thread on memory of its own, and what it writes there */

enum { PATTERN = 0xa5, PAGE = 4096, LARGE = 8 << 20 };

static uint8_t *room(size_t size)
{
    uint8_t *below = mmap(NULL, size + PAGE, PROT_READ | PROT_WRITE, MAP_PRIVATE | MAP_ANONYMOUS, -1, 0);
    if (below == MAP_FAILED || mprotect(below, PAGE, PROT_NONE))
        fail("no memory for a stack");
    return below + PAGE;
}

struct task {
    void (*call)(void);
    uint8_t *from; /* where the frame of the caller ends */
};

static void *run_task(void *argument)
{
    struct task *task = argument;
    task->from = __builtin_frame_address(0);
    task->call();
    return NULL;
}

/* Runs the call in a thread with this stack. Gives the bytes between the caller's frame and the lowest byte that was written. */
static size_t used(uint8_t *stack, size_t size, void (*call)(void))
{
    memset(stack, PATTERN, size);
    pthread_attr_t attributes;
    pthread_t thread;
    struct task task = {call, NULL};
    if (pthread_attr_init(&attributes) || pthread_attr_setstack(&attributes, stack, size) || pthread_create(&thread, &attributes, run_task, &task) || pthread_join(thread, NULL))
        fail("a thread did not run");
    pthread_attr_destroy(&attributes);
    size_t lowest = 0;
    while (lowest < size && stack[lowest] == PATTERN)
        lowest++;
    return (size_t)(task.from - (stack + lowest));
}

/* ---- the calls, on tables that all of them share */

enum { ROWS = 64, MOST_LETTERS = 1024, RECORDS = 4200 };

struct tables {
    uint16_t entries[ROWS * MOST_LETTERS];
    uint8_t finals[ROWS];
    uint32_t keys[ROWS * COMPILE_KEY];
    uint32_t work[6][ROWS];
    uint16_t play[ROWS * MOST_LETTERS];
};

static const uint8_t *text;
static size_t length;
static struct tables compiled, compiled_again;
static struct compile_answer compile_answer;
static struct normal_form_entry list[RECORDS], list_again[RECORDS];
static struct normal_form_answer normal_form_answer;
static uint32_t step_answer;
static struct step_place place;

static void call_compile(void)
{
    struct tables *t = &compiled;
    compile_answer = compile_c(text, length, t->entries, ROWS * MOST_LETTERS, t->finals, ROWS, t->keys, ROWS * COMPILE_KEY, t->work[0], ROWS,
        t->work[1], ROWS, t->work[2], ROWS, t->work[3], ROWS, t->work[4], ROWS, t->work[5], ROWS);
}

static void call_strategy(void)
{
    struct tables *t = &compiled;
    compile_answer = strategy_c(text, length, t->entries, ROWS * MOST_LETTERS, t->finals, ROWS, t->keys, ROWS * COMPILE_KEY, t->work[0], ROWS,
        t->work[1], ROWS, t->work[2], ROWS, t->work[3], ROWS, t->work[4], ROWS, t->work[5], ROWS, t->play, ROWS * MOST_LETTERS);
}

static void call_normal_form(void)
{
    normal_form_answer = normal_form_c(text, length, list, RECORDS);
}

static void call_steps(void)
{
    static const uint8_t table[] = {1, 0, 255, 255, 255, 255, 0, 0};
    place = (struct step_place){0, 0};
    step_answer = advance(&place, table, sizeof table, 2, 0);
    step_answer = step_answer << 16 | step(table, sizeof table, 2, 1, 1);
}

/* a table in which each letter leads one row on, but for one in each row, and the last row is final: a course through all rows */
static struct streams streams;
static uint32_t course[ROWS];
static uint16_t work[ROWS * MOST_LETTERS];
static struct course_answer course_answer;

static void call_course(void)
{
    struct tables *t = &compiled;
    course_answer = course_c(t->entries, ROWS * MOST_LETTERS, t->finals, ROWS, MOST_LETTERS, streams, 0, course, ROWS, work, ROWS * MOST_LETTERS);
}

/* from the same table to itself: each row goes on in itself */
static uint16_t carried[ROWS];
static uint32_t carry_refusal;

static void call_carry(void)
{
    struct tables *t = &compiled;
    carry_refusal = carry_c(t->entries, ROWS * MOST_LETTERS, t->finals, ROWS, MOST_LETTERS, streams, t->entries, ROWS * MOST_LETTERS, t->finals, ROWS,
        MOST_LETTERS, streams, carried, ROWS);
}

/* the same table with itself */
static struct join_answer join_answer;

static void call_join(void)
{
    const struct tables *t = &compiled;
    struct tables *joined = &compiled_again;
    join_answer = join_c(t->entries, ROWS * MOST_LETTERS, t->finals, ROWS, MOST_LETTERS, streams, t->entries, ROWS * MOST_LETTERS, t->finals, ROWS,
        MOST_LETTERS, streams, joined->entries, ROWS * MOST_LETTERS, joined->finals, ROWS, joined->keys, ROWS, joined->work[0], ROWS, joined->work[1], ROWS,
        joined->work[2], ROWS, joined->work[3], ROWS, joined->work[4], ROWS, joined->work[5], ROWS);
}

/* ---- the sheets */

static char sheet[1 << 15];

static void put(const char *word)
{
    strcat(sheet, word);
}

static void put_times(size_t times, const char *word)
{
    char *end = sheet + strlen(sheet);
    for (size_t i = 0; i < times; i++)
        end = stpcpy(end, word);
}

enum { TOKENS = 1024, DEPTH = 32 };

/* Brackets to the deepest level, each with `opening` and then a number of prefixes behind it; what is inside, and what closes each. */
static void put_nested(const char *opening, size_t prefixes, const char *prefix, const char *inside, const char *closing)
{
    for (size_t level = 0; level < DEPTH; level++) {
        put("( ");
        put(opening);
        put_times(prefixes, prefix);
    }
    put(inside);
    put_times(DEPTH, closing);
}

static const char *const small = "level gate\n0 0\n2 1\n( level ge 2 ) -> gate\n";
static const char *const one_stream = "x\n0\n1\n";
static const char *const most_letters = "x\n0\n1023\n";
static const char *const most_streams = "a b c d e f g h\n0 0 0 0 0 0 0 0\n1 1 1 1 1 1 1 1\n";
static const char *const most_choices = "x\n0\n1023\nread\n";
static const char *const choices_and_letters = "x y\n0 0\n31 31\nread set\n";

/* Writes the sheet with this number, and gives its name; no name behind the last. Most come twice, with few letters and with as many as there may
 * be. */
static const char *write_sheet(size_t number)
{
    sheet[0] = 0;
    const char *header = number % 2 ? most_letters : one_stream;
    switch (number / 2) {
    case 0:
        put(number % 2 ? "" : small);
        return number % 2 ? "the empty sheet" : "P1";
    case 1:
        put(header);
        put_times(TOKENS - 3, "not ");
        put("x == 0");
        return "1,021 `not`";
    case 2:
        put(header);
        put_times(TOKENS - 3, "first ");
        put("x == 0");
        return "1,021 `first`";
    case 3:
        put(header);
        put_times(TOKENS - 3, "next ");
        put("x == 0");
        return "1,021 `next`";
    case 4:
        put(header);
        put_times((TOKENS - 3) / 2, "not first ");
        put("x == 0");
        return "510 `not first`";
    case 5:
        put(header);
        put_times(500, "not ");
        put_times(8, "not first ");
        put_times(488, "not ");
        put("x == 0");
        return "`not` with 8 `first`";
    case 6:
        put(header);
        put_times(6, "not next ");
        put_times(1000, "not ");
        put("x == 0");
        return "`not` with 6 `next`";
    case 7:
        put(header);
        put("1 and not ");
        put_nested("1 and ", 27, "not ", "x", " )");
        put(" == 0");
        return "33 levels of `1 and`, and 27 `not` at each";
    case 8:
        put(header);
        put_nested("", 29, "not ", "x and 1", " )");
        put(" == 0");
        return "32 levels with 29 `not` at each";
    case 9:
        put(header);
        put_nested("if 1 then 0 else ", 24, "not ", "x", " )");
        put(" == 0");
        return "32 levels of `if`, and 24 `not` at each";
    case 10:
        put(header);
        put_nested("if ", 23, "not ", "x", " then 1 else 0 )");
        put(" == 0");
        return "32 levels of `if` with 23 `not` in each condition";
    case 11:
        put(header);
        put_nested("0 fby ", 27, "not ", "x", " )");
        put(" == 0");
        return "32 levels of `0 fby`, and 27 `not` at each";
    case 12:
        put(header);
        put_nested("", 1, "not ", "x", " fby 0 )");
        put(" == 0");
        return "32 levels of `not .. fby 0`";
    case 13:
        put(header);
        put_times(16, "x == ( 0 fby ( 0 fby next x ) ) % 2\n");
        put_times(8, "1 until ( first x )\n");
        return "16 constraints with two `fby`, 8 with `until` and `first`";
    case 14:
        put(header);
        put_times(8, "( first next next x ) until ( 0 fby ( 0 fby ( 0 fby x ) ) )\n");
        return "8 `until` with 8 `first`, D 2 and B 3";
    case 15:
        put(header);
        put_times(31, "x == x + 0 - 0\n");
        return "31 constraints that are not of the form";
    case 16:
        put(number % 2 ? most_streams : header);
        put_times(32, number % 2 ? "( a fby b ) == ( c fby d )\n" : "( 0 fby next x ) >= 0\n");
        return number % 2 ? "32 constraints over 8 streams" : "32 constraints";
    case 17:
        put(header);
        put("if 1 then 1 else not ");
        put_nested("if 1 then 1 else ", 1, "not ", "x", " )");
        put(" == if 1 then 1 else 0");
        return "33 levels of `if` with a `not`";
    case 18:
        put(header);
        put_nested("2 * ", 24, "next ", "x", " )");
        put(" == 0");
        return "32 levels of `2 *`, and 24 `next` at each";
    case 19:
        put(header);
        put_times(204, "not not not not ");
        put_nested("x or ", 0, "", "x", " )");
        put(" == 0");
        return "816 `not` before 32 levels of `x or`";
    case 20:
        put(number % 2 ? most_choices : choices_and_letters);
        put("1 and not ");
        put_nested("1 and ", 26, "not ", "x", " )");
        put(" >= 0");
        return number % 2 ? "33 levels, of a gauge with 1,024 values" : "33 levels, of a gauge and a gate with 32 values";
    default:
        return NULL;
    }
}

/* ---- comparing */

static uint8_t *large, *stated_compile, *stated_strategy, *stated_normal_form, *stated_course, *stated_carry, *stated_join, *stated_step;
static size_t most_compile, most_strategy, most_normal_form;

/* A call that fills the tables: on a large stack, and on one of the figure. */
static void check_tables(const char *call_name, const char *name, void (*call)(void), uint8_t *stated, size_t figure, size_t *most)
{
    memset(&compiled, 0xff, sizeof compiled);
    size_t bytes = used(large, LARGE, call);
    struct compile_answer answer = compile_answer;
    memcpy(&compiled_again, &compiled, sizeof compiled);
    if (bytes > *most)
        *most = bytes;
    if (bytes > figure) {
        fprintf(stderr, "%s: %s takes %zu bytes of stack\n", name, call_name, bytes);
        fail("more than the header states");
    }
    memset(&compiled, 0xff, sizeof compiled);
    used(stated, figure, call);
    if (memcmp(&answer, &compile_answer, sizeof answer) || memcmp(&compiled, &compiled_again, sizeof compiled)) {
        fprintf(stderr, "%s: %s\n", name, call_name);
        fail("a call differs on a smaller stack");
    }
}

static void check_normal_form(const char *name)
{
    memset(list, 0xff, sizeof list);
    size_t bytes = used(large, LARGE, call_normal_form);
    struct normal_form_answer answer = normal_form_answer;
    memcpy(list_again, list, sizeof list);
    if (bytes > most_normal_form)
        most_normal_form = bytes;
    if (bytes > NORMAL_FORM_STACK) {
        fprintf(stderr, "%s: the normal form takes %zu bytes of stack\n", name, bytes);
        fail("more than the header states");
    }
    memset(list, 0xff, sizeof list);
    used(stated_normal_form, NORMAL_FORM_STACK, call_normal_form);
    if (memcmp(&answer, &normal_form_answer, sizeof answer) || memcmp(list, list_again, sizeof list))
        fail("the normal form differs on a smaller stack");
}

static void check_steps(void)
{
    size_t bytes = used(stated_step, PTHREAD_STACK_MIN, call_steps);
    if (bytes > STEP_STACK)
        fail("a step takes more than the header states");
    if (step_answer != (1u << 16 | 0) || place.state != 1 || place.steps != 1)
        fail("a step differs on a smaller stack");
    printf("stack: a step takes %zu bytes of %u\n", bytes, STEP_STACK);
}

static void make_chain(void)
{
    memset(&compiled, 0, sizeof compiled);
    for (size_t row = 0; row < ROWS; row++)
        for (size_t letter = 0; letter < MOST_LETTERS; letter++)
            compiled.entries[row * MOST_LETTERS + letter] = (uint16_t)(row + 1 < ROWS && letter != 7 * row ? row + 1 : 65535);
    compiled.finals[ROWS - 1] = 1;
    streams.count = STREAMS_MOST;
    for (size_t k = 0; k < STREAMS_MOST; k++) {
        streams.names[STREAMS_NAME * k] = (uint8_t)('a' + k);
        streams.lengths[k] = 1;
        streams.highs[k] = k < 2 ? 3 : 1;
        streams.kinds[k] = k % 2 ? STREAM_READ : STREAM_SET;
    }
}

/* One call that gives a course and one that is refused. */
static void check_course(void)
{
    size_t most = 0;
    make_chain();
    for (int refused = 0; refused < 2; refused++) {
        streams.kinds[0] = refused ? 2 : STREAM_SET;
        memset(course, 0xff, sizeof course);
        size_t bytes = used(large, LARGE, call_course);
        struct course_answer answer = course_answer;
        uint32_t last = course[ROWS - 2];
        if (bytes > most)
            most = bytes;
        if (bytes > COURSE_STACK)
            fail("a course takes more than the header states");
        memset(course, 0xff, sizeof course);
        used(stated_course, COURSE_STACK, call_course);
        if (answer.refusal != (refused ? 11 : 0) || answer.count != (refused ? 0 : ROWS - 1))
            fail("a course is wrong");
        if (memcmp(&answer, &course_answer, sizeof answer) || course[ROWS - 2] != last)
            fail("a course differs on a smaller stack");
    }
    printf("stack: a course takes %zu bytes of %d\n", most, COURSE_STACK);
}

/* One call that gives the states and one that is refused, along the table of the courses. */
static void check_carry(void)
{
    size_t most = 0;
    make_chain();
    for (int refused = 0; refused < 2; refused++) {
        streams.kinds[0] = refused ? 2 : STREAM_SET;
        memset(carried, 0xff, sizeof carried);
        size_t bytes = used(large, LARGE, call_carry);
        uint32_t refusal = carry_refusal;
        uint16_t last = carried[ROWS - 1];
        if (bytes > most)
            most = bytes;
        if (bytes > CARRY_STACK)
            fail("going on in a new table takes more than the header states");
        memset(carried, 0xff, sizeof carried);
        used(stated_carry, CARRY_STACK, call_carry);
        if (refusal != (refused ? 11 : 0) || last != (refused ? 0 : ROWS - 1))
            fail("going on in a new table is wrong");
        if (carry_refusal != refusal || carried[ROWS - 1] != last)
            fail("going on in a new table differs on a smaller stack");
    }
    printf("stack: going on in a new table takes %zu bytes of %d\n", most, CARRY_STACK);
}

/* One call that gives a table and one that is refused, on the table of the courses; its last row leads to itself, so that there are solutions. */
static void check_join(void)
{
    size_t most = 0, before_last = (ROWS - 2) * MOST_LETTERS;
    make_chain();
    for (size_t letter = 0; letter < MOST_LETTERS; letter++)
        compiled.entries[(ROWS - 1) * MOST_LETTERS + letter] = ROWS - 1;
    for (int refused = 0; refused < 2; refused++) {
        streams.kinds[0] = refused ? 2 : STREAM_SET;
        memset(&compiled_again, 0xff, sizeof compiled_again);
        size_t bytes = used(large, LARGE, call_join);
        struct join_answer answer = join_answer;
        uint16_t entry = compiled_again.entries[before_last];
        if (bytes > most)
            most = bytes;
        if (bytes > JOIN_STACK)
            fail("a join takes more than the header states");
        memset(&compiled_again, 0xff, sizeof compiled_again);
        used(stated_join, JOIN_STACK, call_join);
        if (answer.refusal != (refused ? 11 : 0) || answer.states != (refused ? 0 : ROWS) || answer.pairs != answer.states || entry != (refused ? 0 : ROWS - 1))
            fail("a join is wrong");
        if (memcmp(&answer, &join_answer, sizeof answer) || compiled_again.entries[before_last] != entry)
            fail("a join differs on a smaller stack");
    }
    printf("stack: a join takes %zu bytes of %d\n", most, JOIN_STACK);
}

static void measure(const char *name)
{
    size_t compile_bytes = used(large, LARGE, call_compile);
    uint32_t compile_refusal = compile_answer.refusal;
    size_t strategy_bytes = used(large, LARGE, call_strategy);
    size_t normal_form_bytes = used(large, LARGE, call_normal_form);
    printf("%7zu %7zu %7zu  %2u %2u %2u  %s\n", compile_bytes, strategy_bytes, normal_form_bytes, compile_refusal, compile_answer.refusal,
        normal_form_answer.refusal, name);
}

static void measure_file(const char *name)
{
    FILE *file = fopen(name, "rb");
    if (!file)
        fail("a file cannot be read");
    length = fread(sheet, 1, sizeof sheet, file);
    fclose(file);
    text = (const uint8_t *)sheet;
    measure(name);
}

int main(int count, char **words)
{
    large = room(LARGE);
    stated_compile = room(COMPILE_STACK);
    stated_strategy = room(STRATEGY_STACK);
    stated_normal_form = room(NORMAL_FORM_STACK);
    stated_course = room(COURSE_STACK);
    stated_carry = room(CARRY_STACK);
    stated_join = room(JOIN_STACK);
    stated_step = room(PTHREAD_STACK_MIN);
    bool print = count == 2 && strcmp(words[1], "all") == 0;
    for (int i = 1; i < count && !print; i++)
        measure_file(words[i]);
    if (count > 1 && !print)
        return 0;
    size_t sheets = 0;
    for (const char *name; (name = write_sheet(sheets)); sheets++) {
        text = (const uint8_t *)sheet;
        length = strlen(sheet);
        if (print) {
            measure(name);
        } else {
            check_tables("the compile", name, call_compile, stated_compile, COMPILE_STACK, &most_compile);
            check_tables("the play table", name, call_strategy, stated_strategy, STRATEGY_STACK, &most_strategy);
            check_normal_form(name);
        }
    }
    if (print)
        return 0;
    check_steps();
    check_course();
    check_carry();
    check_join();
    printf("stack: of %zu sheets, the compile takes at most %zu bytes of %d, the play table %zu of %d, the normal form %zu of %d\n", sheets, most_compile,
        COMPILE_STACK, most_strategy, STRATEGY_STACK, most_normal_form, NORMAL_FORM_STACK);
    return 0;
}
