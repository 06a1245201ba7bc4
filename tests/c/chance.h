#ifndef CHANCE_H
#define CHANCE_H
#include <stddef.h>
#include <stdint.h>

/* Numbers that are the same each time (Marsaglia's xorshift64). */
static uint64_t seed = 88172645463325252u;
static size_t below(size_t limit) {
    seed ^= seed << 13;
    seed ^= seed >> 7;
    seed ^= seed << 17;
    return (size_t)(seed % limit);
}

#endif
