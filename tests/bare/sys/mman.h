/* Of POSIX's sys/mman.h what tests of the library use, for processors that have no C library here: bare.c has the pages,
 * which nothing protects, since programs are run without an edge there. */
#ifndef BARE_MMAN_H
#define BARE_MMAN_H
#include <stddef.h>
enum { PROT_NONE, PROT_READ, PROT_WRITE, MAP_PRIVATE = 0, MAP_ANONYMOUS = 0, MAP_NORESERVE = 0 };
#define MAP_FAILED ((void *)-1)
void *mmap(void *, size_t, int, int, int, long);
int mprotect(void *, size_t, int);
#endif
