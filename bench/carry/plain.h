// Going on from an old table in a new one as a plain C program, with the arguments of the archive's function.
#ifndef BENCH_CARRY_PLAIN_H
#define BENCH_CARRY_PLAIN_H
#include "../../include/carry.h"
#include "../given/plain.h"

uint32_t plain_carry(const uint16_t *old_entries, size_t old_entry_count, const uint8_t *old_finals, size_t old_final_count, uint32_t old_letters,
    struct streams old_streams, const uint16_t *new_entries, size_t new_entry_count, const uint8_t *new_finals, size_t new_final_count,
    uint32_t new_letters, struct streams new_streams, uint16_t *list, size_t list_count);

#endif
