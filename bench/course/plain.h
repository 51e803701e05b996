// The passes of `course` as a plain C program.
#ifndef BENCH_COURSE_PLAIN_H
#define BENCH_COURSE_PLAIN_H
#include "course.h"

// The course of fewest letters from the state to a final state, of these the one with the fewest changes, and of these the first in number order;
// refusal 11, 15 or 10.
struct course_answer plain_course(const uint16_t *entries, size_t entry_count, const uint8_t *finals, size_t rows, uint32_t letters, struct streams streams,
    uint32_t state, uint32_t *list, size_t room, uint16_t *work, size_t work_count);

#endif
