/* A window of 2 MiB of addresses, through which the kernel looks at memory a page at a time. */
#ifndef WINDOW_H
#define WINDOW_H
#include "zacpi_map.h"
#ifdef __cplusplus
extern "C" {
#endif

/* The memory that may be looked at: ascending ranges of whole pages, none of which touch. */
struct window_memory {
    const struct zacpi_range *ranges;
    size_t length;
};

/* Makes such ranges of the pages that have a byte of these, which are changed, but none of `own`, and returns how many
 * they are: none if there are more than `capacity`, or one ends too high. */
size_t pages_of(struct zacpi_range *ranges, size_t length, struct zacpi_range own, struct zacpi_range *out,
                size_t capacity);

/* Maps by pages what the memory (`context`, a struct window_memory) has, to be read, and unmaps it (zacpi_map.h). Null
 * if the range isn't whole in one of its ranges, or the window is full. */
const void *map_window(void *context, uint64_t address, uint64_t length);
void unmap_window(void *context, const void *at, uint64_t address, uint64_t length);
/* The most pages of the 512 that were mapped at once. */
uint64_t window_most(void);
/* Maps the page of a device's register, to be written, uncached, whatever the memory map has there; null if there is no
 * room. */
volatile void *map_register(uint64_t address);

#ifdef __cplusplus
}
#endif
#endif
