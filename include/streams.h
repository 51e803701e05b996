/* streams.h: streams as calls from C describe them.
 *
 * The first `count` places of each list are used, one a stream, in the order of the sheet's names. Stream k has the name in the
 * first `lengths[k]` bytes from `names + STREAMS_NAME * k` on, without a byte behind them that ends it, the lowest value `lows[k]`,
 * the highest `highs[k]`, and the kind `kinds[k]`. What a call gives back is zero behind what is used; a call that
 * is given streams does not look there.
 */
#ifndef STREAMS_H
#define STREAMS_H
#include <stddef.h>
#include <stdint.h>

/* the most streams, and the most bytes of a name */
enum { STREAMS_MOST = 8, STREAMS_NAME = 8 };

/* kinds: a gate is set, a gauge is read */
enum { STREAM_SET = 0, STREAM_READ = 1 };

struct streams {
    size_t count;
    uint8_t names[STREAMS_MOST * STREAMS_NAME];
    uint8_t lengths[STREAMS_MOST];
    int64_t lows[STREAMS_MOST];
    int64_t highs[STREAMS_MOST];
    uint8_t kinds[STREAMS_MOST];
};

#endif
