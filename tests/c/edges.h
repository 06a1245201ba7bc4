/* Bytes at the edge of a page that nobody may touch, where reading or writing one more ends the program. A program that
 * is run with the word `end` has them end there, and with `begin` begin after it; without a word they are anywhere. */
#ifndef EDGES_H
#define EDGES_H
#include "zacpi.h"
#include <stdio.h>
#include <stdlib.h>
#include <string.h>
#include <sys/mman.h>

#define EDGE_PAGE 0x10000u /* as large as pages are where these run */
static enum { NO_EDGE, AT_END, AT_BEGIN } edge;

static inline int is_word(const char *text, const char *word, size_t length) {
    return strlen(text) == length && !memcmp(text, word, length);
}
/* Takes the word from the end of the arguments, if it is there. */
static inline void take_edge(int *argc, char **argv) {
    const char *last = *argc > 1 ? argv[*argc - 1] : "";
    edge = is_word(last, "end", 3) ? AT_END : is_word(last, "begin", 5) ? AT_BEGIN : NO_EDGE;
    *argc -= edge != NO_EDGE;
}
/* Whether nothing else is there. */
static inline int edge_of(int argc, char **argv) {
    take_edge(&argc, argv);
    return argc < 2;
}

/* Whole pages between two that can't be touched. */
static inline uint8_t *pages(size_t length) {
    const size_t whole = (length + EDGE_PAGE - 1) / EDGE_PAGE * EDGE_PAGE;
    uint8_t *base = (uint8_t *)mmap(NULL, whole + 2 * EDGE_PAGE, PROT_NONE, MAP_PRIVATE | MAP_ANONYMOUS, -1, 0);
    if (base == (uint8_t *)MAP_FAILED || (whole && mprotect(base + EDGE_PAGE, whole, PROT_READ | PROT_WRITE))) exit(2);
    return base + EDGE_PAGE;
}
/* Where bytes of this length are in pages for as many or more. */
static inline uint8_t *in_pages_for(uint8_t *area, size_t most, size_t length) {
    return area + (edge == AT_END ? (most + EDGE_PAGE - 1) / EDGE_PAGE * EDGE_PAGE - length : 0);
}
/* A copy of bytes at the edge, which is never given back. */
static inline void *at_edge(const void *bytes, size_t length) {
    uint8_t *at = in_pages_for(pages(length), length, length);
    if (length) memcpy(at, bytes, length);
    return at;
}
/* The same of bytes that aren't written yet: whatever reads them or leaves one has another value. */
static inline void *painted_at_edge(size_t length) {
    return memset(in_pages_for(pages(length), length, length), 0xa5, length);
}
/* Pages that are used again, for bytes of this length. */
struct again {
    uint8_t *area;
    size_t most;
};
static inline void *again_at_edge(struct again *it, size_t length) {
    if (!it->area || it->most < length) it->area = pages(length), it->most = length;
    return in_pages_for(it->area, it->most, length);
}
/* What a call writes, painted: three outputs at most, each in pages of its own. */
static inline void *painted_again(size_t number, size_t length) {
    static struct again places[3];
    return memset(again_at_edge(&places[number], length), 0xa5, length);
}
#define COPIED(value) at_edge(&(value), sizeof(value))
#define PAINTED(type) ((type *)painted_at_edge(sizeof(type)))

/* Regions that are at the edge, and so is their list; without an edge they are where they were. */
static inline const struct zacpi_region *all_at_edge(const struct zacpi_region *regions, size_t count) {
    struct zacpi_region *copies;
    size_t i;
    if (edge == NO_EDGE) return regions;
    copies = (struct zacpi_region *)at_edge(regions, count * sizeof *regions);
    for (i = 0; i < count; i++) copies[i].bytes = (const uint8_t *)at_edge(copies[i].bytes, (size_t)copies[i].length);
    return copies;
}
/* The same in pages that are used again, of at most 65536 regions. */
static inline const struct zacpi_region *again_all_at_edge(const struct zacpi_region *regions, size_t count) {
    static struct again list, bytes[65536];
    struct zacpi_region *const copies = (struct zacpi_region *)again_at_edge(&list, count * sizeof *regions);
    size_t i;
    if (edge == NO_EDGE) return regions;
    for (i = 0; i < count; i++) {
        uint8_t *const to = (uint8_t *)again_at_edge(&bytes[i], (size_t)regions[i].length);
        copies[i] = regions[i];
        copies[i].bytes = (const uint8_t *)memcpy(to, regions[i].bytes, (size_t)regions[i].length);
    }
    return copies;
}
#endif
