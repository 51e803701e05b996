// The passes of `minimise` as a plain C program. The benchmarks of the passes and of the whole compile use it.
#ifndef BENCH_MINIMISE_PLAIN_H
#define BENCH_MINIMISE_PLAIN_H
#include <stddef.h>
#include <stdint.h>

#define NONE 65535

typedef struct { uint32_t refusal, states; } minimised;

typedef struct { uint16_t *entries; uint8_t *flags; size_t letters, rows; uint32_t *live, *class, *next, *heads, *links, *envelopes; } tables;

// Whether the tables are a graph whose rows stand in the order in which they are first met.
int plain_is_graph(const tables *t);

// From a graph to the table of its language, in the first rows; refusal 0 or 9. What lies beyond the used rows is not cleared.
minimised plain_reduce(tables *t);

#endif
