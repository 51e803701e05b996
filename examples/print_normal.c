/* Reads a sheet from standard input and prints the entries of its normal form, one a line, from its text and the list alone.
 * An added stream is written # and its number. */
#include <stdint.h>
#include <stdio.h>

#include "normal_form.h"

#define MOST_BYTES 16384
#define MOST_ENTRIES (32 + 4 * 1024)

static uint8_t text[MOST_BYTES + 1];
static struct normal_form_entry list[MOST_ENTRIES];

/* The entry of the stream that stands for the longest `next` or `fby` from the place `at` on that ends no later than `end`, or null. */
static const struct normal_form_entry *replacing(uint32_t entries, unsigned at, unsigned end)
{
    const struct normal_form_entry *found = NULL;
    for (uint32_t i = 0; i < entries; i++) {
        const struct normal_form_entry *entry = &list[i];
        if (entry->replaces && entry->left_begin == at && entry->left_end <= end
            && (found == NULL || entry->left_end > found->left_end))
            found = entry;
    }
    return found;
}

static void print_side(uint32_t entries, unsigned begin, unsigned end)
{
    for (unsigned at = begin; at < end;) {
        const struct normal_form_entry *stream = replacing(entries, at, end);
        if (stream != NULL) {
            printf("#%u", stream->left);
            at = stream->left_end;
            if (at < end && text[at] != ' ')
                putchar(' '); /* the next token may stand against a bracket that was replaced */
        } else {
            putchar(text[at]);
            at++;
        }
    }
}

static void print_entry(uint32_t entries, const struct normal_form_entry *entry)
{
    static const char *const signs[] = {"<", "<=", "==", ">=", ">", "!=", "->", "until"};
    switch (entry->kind) {
    case 1:
        print_side(entries, entry->left_begin, entry->left_end);
        printf(" %s ", signs[entry->relation]);
        print_side(entries, entry->right_begin, entry->right_end);
        break;
    case 2:
        printf("#%u until #%u", entry->left, entry->right);
        break;
    case 3:
        printf("#%u == ", entry->left);
        print_side(entries, entry->right_begin, entry->right_end);
        break;
    case 4:
        printf("#%u == next #%u", entry->left, entry->right);
        break;
    case 5:
        printf("first #%u == first #%u", entry->left, entry->right);
        break;
    }
    if (entry->kind != 1)
        printf(", #%u from %lld to %lld", entry->left, (long long)entry->low, (long long)entry->high);
    putchar('\n');
}

int main(void)
{
    size_t length = fread(text, 1, sizeof text, stdin);
    struct normal_form_answer answer = normal_form_c(text, length, list, MOST_ENTRIES);
    if (answer.refusal != 0)
        printf("refused %u\n", answer.refusal);
    for (uint32_t i = 0; i < answer.entries; i++)
        print_entry(answer.entries, &list[i]);
    return 0;
}
