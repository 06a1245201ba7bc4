/* What the loader passes about the machine: multiboot 1, multiboot 2, or PVH. */
#ifndef LOADER_H
#define LOADER_H
#include "lines.h"
#ifdef __cplusplus
extern "C" {
#endif

struct loaded {
    const char *by;                 /* the loader's protocol; null if it is none of the three */
    struct zacpi_range memory[128]; /* what its memory map names, free or not */
    size_t memory_length;
    const volatile uint8_t *words; /* the command line */
    uint64_t rsdp;                 /* where the RSDP is, or a copy of it, if it passes that; else 0 */
};

/* Reads the loader's information, and prints its memory map. Ranges above the capacity are left out: memory
 * that isn't in the map isn't looked at. */
void ask_loader(uint32_t magic, uint32_t information, const struct printer *p, struct loaded *out);
/* What follows a name that a word of the command line begins with, or null. */
const volatile uint8_t *word_after(const struct loaded *loaded, const char *name);

#ifdef __cplusplus
}
#endif
#endif
