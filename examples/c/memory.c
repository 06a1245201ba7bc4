/* SPDX-License-Identifier: MIT */
#include <stddef.h>
#include <stdint.h>

void *memcpy(void *to, const void *from, size_t n);
void *memmove(void *to, const void *from, size_t n);
void *memset(void *to, int x, size_t n);

/* What the library calls, where there is no C library. The loops are through volatile pointers, or the compiler could
 * make calls of these functions out of them. */
void *memcpy(void *to, const void *from, size_t n) {
    volatile uint8_t *t = to;
    const volatile uint8_t *f = from;
    while (n--) *t++ = *f++;
    return to;
}
void *memmove(void *to, const void *from, size_t n) {
    volatile uint8_t *t = to;
    const volatile uint8_t *f = from;
    if (t <= f) return memcpy(to, from, n);
    while (n--) t[n] = f[n];
    return to;
}
void *memset(void *to, int x, size_t n) {
    volatile uint8_t *t = to;
    while (n--) *t++ = (uint8_t)x;
    return to;
}
