// A sheet as it is stored after reading: the same arrays as crates/reader keeps.
#ifndef BENCH_COMPILE_SHEET_H
#define BENCH_COMPILE_SHEET_H
#include <stddef.h>
#include <stdint.h>

enum { STREAMS = 8, CONSTRAINTS = 32, NODES = 1024, LETTERS = 1024, FIRSTS = 8, UNTILS = 8, WIDTH = 6 };

// the kinds of nodes and the relations, with the numbers that the crates give them
enum { INTEGER, NAME, FIRST, NEXT, NOT, IF, FBY, ADD, SUBTRACT, MULTIPLY, DIVIDE, REMAINDER, LT, LE, EQ, GE, GT, NE, AND, OR, FLOORED_DIVIDE, FLOORED_REMAINDER };
enum { LESS, AT_MOST, SAME, AT_LEAST, MORE, OTHER, IMPLIES, UNTIL };
#define NO_WORD 255

// Nodes stand in postfix order. A node's start is the place of the first node of its subtree, so the part on the left of the part
// that ends before `end` ends before starts[end - 1].
typedef struct {
    size_t streams, letters, constraints, nodes, untils, firsts;
    // D, and D + B
    size_t ahead, width;
    int64_t lows[STREAMS], highs[STREAMS];
    // eight bytes for each name, their lengths, and the kinds, 0 for set and 1 for read
    uint8_t names[8 * STREAMS], lengths[STREAMS], stream_kinds[STREAMS];
    uint8_t relations[CONSTRAINTS];
    uint16_t lefts[CONSTRAINTS], rights[CONSTRAINTS], first_nodes[FIRSTS];
    uint8_t kinds[NODES];
    int64_t values[NODES];
    uint16_t starts[NODES];
} sheet;

// The lowest refusal 1 to 7 that applies, or 0 with the sheet.
uint32_t read_sheet(const uint8_t *text, size_t length, sheet *s);

#endif
