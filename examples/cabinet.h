/* The table of a sheet for step.h, written by export. */
#ifndef SHEET_TABLE_H
#define SHEET_TABLE_H

#include <stdint.h>

enum { SHEET_STREAMS = 2, SHEET_LETTERS = 6, SHEET_STATES = 2 };
#define SHEET_CRC32 UINT32_C(577124828)

static const char *const sheet_names[SHEET_STREAMS] = {
    "level", "gate",
};
static const int32_t sheet_lows[SHEET_STREAMS] = {
    0, 0,
};
static const int32_t sheet_highs[SHEET_STREAMS] = {
    2, 1,
};
static const uint8_t sheet_kinds[SHEET_STREAMS] = {
    1, 0,
};
static const uint8_t sheet_table[2 * SHEET_STATES * SHEET_LETTERS] = {
    0, 0, 0, 0, 0, 0, 0, 0, 1, 0, 1, 0,
    255, 255, 0, 0, 255, 255, 0, 0, 255, 255, 1, 0,
};
static const uint8_t sheet_finals[SHEET_STATES] = {
    1, 1,
};

#endif
