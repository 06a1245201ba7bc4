/* A mapper for zacpi_map.h that counts what it maps. Pages without access are before and after each range that it maps,
 * and what it unmaps becomes such pages, so reading them ends the program. A range ends at such a page, or with the
 * word `begin` begins after one. */
#ifndef MAPPER_H
#define MAPPER_H
#include "edges.h"
#include "zacpi_map.h"

/* No byte of it is padding. */
typedef char mapper_is_full[sizeof(struct zacpi_mapper) == 3 * sizeof(void *) + sizeof(size_t) ? 1 : -1];

enum { PAGE = 4096, MOST = 4096 };

/* The memory that there is, in ascending order, none of which touches. */
static struct zacpi_region there[MOST + 1];
static size_t there_count;
/* What is mapped of it, and what was asked for and isn't: at the edge (edges.h), and else before one more of each. */
static struct zacpi_region *regions;
static struct zacpi_range *ranges;
static void make_lists(size_t capacity, size_t room) {
    static struct again areas[2];
    again_at_edge(&areas[0], (MOST + 1) * sizeof *regions);
    again_at_edge(&areas[1], (MOST + 1) * sizeof *ranges);
    regions = (struct zacpi_region *)again_at_edge(&areas[0], capacity * sizeof *regions);
    ranges = (struct zacpi_range *)again_at_edge(&areas[1], room * sizeof *ranges);
}
/* The mapper's page: each range begins and ends at a multiple of it. */
static uint64_t unit;

/* What the mapper has mapped, also what it unmapped since, how many of these are mapped now, and how many were at most
 * when one more was asked for or the run ended: as many regions there were. */
static struct {
    uint64_t address, length;
    uint8_t *base;
    const void *at;
    int is_mapped;
} mapped[MOST];
static size_t mapped_count, mapped_now, mapped_most;
/* Whether the run is at its search, after which all is unmapped: there may be the most regions then, too. How many
 * ranges it requested. */
static int is_searching;
static size_t searched;
/* The ranges that it refused, and whether there is room for them, so that none is requested again. */
static struct zacpi_range refused[MOST];
static size_t refused_count;
static int are_kept;

static int wrong(const char *what) {
    fprintf(stderr, "%s\n", what);
    return 0;
}
static void end(const char *what) {
    wrong(what);
    exit(1);
}
static int holds(uint64_t outer, uint64_t outer_length, uint64_t address, uint64_t length) {
    return address >= outer && length <= outer_length && address - outer <= outer_length - length;
}
static size_t in_pages(uint64_t length) { return (size_t)(length + PAGE - 1) / PAGE * PAGE; }

static const void *map(void *context, uint64_t address, uint64_t length) {
    const size_t size = in_pages(length);
    uint8_t *base, *at;
    size_t i;
    if (context != &mapped) end("map: another context");
    if (address % unit || length % unit || !length) end("map: no whole pages");
    for (i = 0; i < mapped_count; i++)
        if (mapped[i].is_mapped && holds(mapped[i].address, mapped[i].length, address, length))
            end("map: it is mapped");
    if (mapped_now > mapped_most) mapped_most = mapped_now;
    for (i = 0; are_kept && !is_searching && i < refused_count; i++)
        if (holds(address, length, refused[i].address, refused[i].length)) end("map: a refused range again");
    for (i = 0; i < there_count && !holds(there[i].address, there[i].length, address, length); i++) continue;
    if (refused_count == MOST || mapped_count == MOST) end("map: too many");
    if (i == there_count) {
        refused[refused_count].address = address;
        refused[refused_count++].length = length;
        return NULL;
    }
    base = (uint8_t *)mmap(NULL, size + 2 * PAGE, PROT_NONE, MAP_PRIVATE | MAP_ANONYMOUS, -1, 0);
    if (base == MAP_FAILED || mprotect(base + PAGE, size, PROT_READ | PROT_WRITE)) end("map: no memory");
    at = base + PAGE + (edge == AT_BEGIN ? 0 : size - length);
    memcpy(at, there[i].bytes + (address - there[i].address), (size_t)length);
    if (mprotect(base + PAGE, size, PROT_READ)) end("map: no protection");
    mapped[mapped_count].address = address;
    mapped[mapped_count].length = length;
    mapped[mapped_count].base = base;
    mapped[mapped_count].at = at;
    mapped[mapped_count++].is_mapped = 1;
    mapped_now++;
    return at;
}
/* Whether a range that is mapped now holds this one. */
static int is_held(uint64_t address, uint64_t length) {
    size_t i;
    for (i = 0; i < mapped_count; i++)
        if (mapped[i].is_mapped && holds(mapped[i].address, mapped[i].length, address, length)) return 1;
    return 0;
}
/* The pages stay without access until the run ends, so that nothing else takes their place. */
static void unmap(void *context, const void *at, uint64_t address, uint64_t length) {
    size_t i;
    if (context != &mapped) end("unmap: another context");
    for (i = 0; i < mapped_count && mapped[i].at != at; i++) continue;
    if (i == mapped_count || !mapped[i].is_mapped || mapped[i].address != address || mapped[i].length != length)
        end("unmap: what isn't mapped");
    if (mprotect(mapped[i].base + PAGE, in_pages(length), PROT_NONE)) end("unmap: no protection");
    mapped[i].is_mapped = 0;
    if (is_searching && !is_held(address, length)) {
        if (mapped_now > mapped_most) mapped_most = mapped_now;
        is_searching = 0;
        searched = mapped_count + refused_count;
        refused_count = 0;
    }
    mapped_now--;
}
static void forget(void) {
    while (mapped_count) {
        mapped_count--;
        munmap(mapped[mapped_count].base, in_pages(mapped[mapped_count].length) + 2 * PAGE);
    }
    refused_count = 0;
}
#endif
