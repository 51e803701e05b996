// The compile as a plain C program, with the arguments of the archive's function: each table is a pointer and a length.
#ifndef BENCH_COMPILE_PLAIN_H
#define BENCH_COMPILE_PLAIN_H
#include "../../include/compile.h"

typedef struct compile_answer compiled;

typedef compiled compile_function(const uint8_t *text, size_t length, uint16_t *entries, size_t entry_count, uint8_t *finals, size_t final_count,
    uint32_t *keys, size_t key_count, uint32_t *live, size_t live_count, uint32_t *class, size_t class_count, uint32_t *next, size_t next_count,
    uint32_t *heads, size_t head_count, uint32_t *links, size_t link_count, uint32_t *envelopes, size_t envelope_count);

compile_function plain_compile;

#endif
