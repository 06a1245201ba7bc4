/* What a call may write to: bytes at the edge (edges.h), painted before it together with all that is beside them. */
#ifndef OUTPUTS_H
#define OUTPUTS_H
#include "edges.h"

#define PAINT 0xa5
#define PAINTED_SIZE ((size_t)0xa5a5a5a5a5a5a5a5u)
enum { OUTPUT = 4096 };
struct output {
    uint8_t *area, *at;
};

static void *paint(struct output *out, size_t capacity) {
    if (!out->area) out->area = pages(OUTPUT) + (edge == AT_END ? EDGE_PAGE - OUTPUT : 0);
    out->at = out->area + (edge == AT_END ? OUTPUT - capacity : 0);
    return memset(out->area, PAINT, OUTPUT), out->at;
}
static size_t *paint_size(struct output *out) { return (size_t *)paint(out, sizeof(size_t)); }

/* Whether all is as it was but this many bytes. */
static int is_left_but(const struct output *out, size_t written) {
    size_t i;
    for (i = 0; i < OUTPUT; i++)
        if (out->area[i] != PAINT && (out->area + i < out->at || out->area + i >= out->at + written)) return 0;
    return 1;
}
#endif
