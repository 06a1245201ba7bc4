/* Of C's stdio.h what tests of the library use, for processors that have no C library here (bare.c). */
#ifndef BARE_STDIO_H
#define BARE_STDIO_H
#include <stddef.h>
int printf(const char *, ...);
#endif
