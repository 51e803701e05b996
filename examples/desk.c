/* A desk program: it compiles the sheet on standard input, says what the streams are, takes one step from the start for each
 * letter, and prints the course from the start to a final state. It knows nothing of the sheet but what the compile tells: the
 * letters and the streams.
 */
#include <inttypes.h>
#include <stdio.h>

#include "compile.h"
#include "course.h"
#include "step.h"

enum { MOST_BYTES = 16384, MOST_LETTERS = 1024, ROWS = 64 };

static uint8_t text[MOST_BYTES + 1];
static uint16_t entries[ROWS * MOST_LETTERS];
static uint8_t finals[ROWS];
static uint32_t keys[ROWS * COMPILE_KEY], live[ROWS], class_names[ROWS], next[ROWS], heads[ROWS], links[ROWS], envelopes[ROWS];
static uint32_t list[ROWS];
static uint16_t work[ROWS * MOST_LETTERS];

static void print_name(const struct streams *streams, size_t stream)
{
    printf("%.*s", streams->lengths[stream], (const char *)streams->names + STREAMS_NAME * stream);
}

/* the value of a stream in a letter: the last stream counts fastest, values rise from the lowest */
static int64_t value_in(const struct streams *streams, uint32_t letter, size_t stream)
{
    for (size_t k = streams->count; --k > stream;)
        letter /= (uint32_t)(streams->highs[k] - streams->lows[k] + 1);
    return streams->lows[stream] + letter % (uint32_t)(streams->highs[stream] - streams->lows[stream] + 1);
}

static void print_streams(const struct streams *streams)
{
    for (size_t k = 0; k < streams->count; k++) {
        print_name(streams, k);
        printf(" from %" PRId64 " to %" PRId64 ", %s\n", streams->lows[k], streams->highs[k], streams->kinds[k] == STREAM_READ ? "read" : "set");
    }
}

static void print_letter(const struct streams *streams, uint32_t letter)
{
    for (size_t k = 0; k < streams->count; k++) {
        print_name(streams, k);
        printf(" %" PRId64 " ", value_in(streams, letter, k));
    }
}

static void print_step(const struct compile_answer *answer, uint32_t letter)
{
    /* the used rows alone; on x86-64 a number's low byte comes first, as the step wants it */
    size_t used = (size_t)2 * answer->states * answer->letters;
    uint32_t state = step((const uint8_t *)entries, used, answer->letters, 0, letter);
    print_letter(&answer->streams, letter);
    if (state < STEP_REFUSED)
        printf("leads to state %" PRIu32 "\n", state);
    else
        printf("is not allowed\n");
}

/* the course of fewest letters, and of these with the fewest changes of set streams; the list has room for any of a compiled table */
static void print_course(const struct compile_answer *answer)
{
    struct course_answer course = course_c(entries, (size_t)answer->states * answer->letters, finals, answer->states, answer->letters,
        answer->streams, 0, list, ROWS, work, ROWS * MOST_LETTERS);
    printf("letters to a final state: %" PRIu32 "\n", course.count);
    for (uint32_t i = 0; i < course.count; i++) {
        print_letter(&answer->streams, list[i]);
        printf("is letter %" PRIu32 "\n", list[i]);
    }
}

int main(void)
{
    size_t length = fread(text, 1, sizeof text, stdin);
    struct compile_answer answer = compile_c(text, length, entries, ROWS * MOST_LETTERS, finals, ROWS, keys, ROWS * COMPILE_KEY, live, ROWS,
        class_names, ROWS, next, ROWS, heads, ROWS, links, ROWS, envelopes, ROWS);
    if (answer.refusal != 0) {
        printf("refused %" PRIu32 "\n", answer.refusal);
        return 0;
    }
    print_streams(&answer.streams);
    printf("%" PRIu32 " letters, %" PRIu32 " states\n", answer.letters, answer.states);
    for (uint32_t letter = 0; letter < answer.letters; letter++)
        print_step(&answer, letter);
    print_course(&answer);
    return 0;
}
