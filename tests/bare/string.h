/* Of C's string.h what tests of the library use, for processors that have no C library here (bare.c). */
#ifndef BARE_STRING_H
#define BARE_STRING_H
#include <stddef.h>
int memcmp(const void *, const void *, size_t);
size_t strlen(const char *);
void *memcpy(void *, const void *, size_t);
void *memmove(void *, const void *, size_t);
void *memset(void *, int, size_t);
#endif
