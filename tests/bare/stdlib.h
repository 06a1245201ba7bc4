/* Of C's stdlib.h what tests of the library use, for processors that have no C library here (bare.c). */
#ifndef BARE_STDLIB_H
#define BARE_STDLIB_H
void exit(int);
#endif
