#include "window.h"

enum { PRESENT = 1, WRITABLE = 2, UNCACHED = 1 << 4 | 1 << 3, PAGE = 4096, PAGES = 512 };
extern volatile uint64_t window_pages[PAGES]; /* the page table (boot.s) */
static uint8_t *const window = (uint8_t *)0xffffffffc0000000;
static uint64_t mapped, most;

uint64_t window_most(void) { return most; }

static void to_pages(struct zacpi_range *range) {
    const uint64_t in_page = range->length ? range->address % PAGE : 0;
    range->address -= in_page, range->length = (range->length + in_page + PAGE - 1) / PAGE * PAGE;
}
size_t pages_of(struct zacpi_range *ranges, size_t length, struct zacpi_range own, struct zacpi_range *out,
                size_t capacity) {
    const struct zacpi_range all = {0, 1ull << 40};
    size_t count = 0;
    to_pages(&own);
    for (size_t i = 0; i < length; i++) to_pages(ranges + i);
    return zacpi_clip_ranges(ranges, length, &own, 1, &all, out, capacity, &count) || count > capacity ? 0 : count;
}

/* The first of `count` pages that are free one after the other; PAGES if there are none. */
static uint64_t free_pages(uint64_t count) {
    uint64_t first = 0, i;
    for (i = 0; i < PAGES && i - first < count; i++)
        if (window_pages[i]) first = i + 1;
    return i - first == count ? first : PAGES;
}

static uint8_t *map_pages(uint64_t address, uint64_t count, uint64_t flags) {
    const uint64_t first = count && count <= PAGES ? free_pages(count) : PAGES;
    if (first == PAGES) return 0;
    for (uint64_t i = 0; i < count; i++) window_pages[first + i] = (address + i * PAGE) | flags;
    mapped += count;
    if (mapped > most) most = mapped;
    return window + first * PAGE;
}

const void *map_window(void *context, uint64_t address, uint64_t length) {
    const struct window_memory *memory = (const struct window_memory *)context;
    for (size_t i = 0; i < memory->length; i++) {
        const struct zacpi_range *range = memory->ranges + i;
        if (address >= range->address && length <= range->length && address - range->address <= range->length - length)
            return map_pages(address, length / PAGE, PRESENT);
    }
    return 0;
}

void unmap_window(void *context, const void *at, uint64_t address, uint64_t length) {
    const uint64_t first = (uint64_t)((const uint8_t *)at - window) / PAGE, count = length / PAGE;
    (void)context, (void)address;
    for (uint64_t i = first; i < first + count; i++) {
        window_pages[i] = 0;
        __asm__ volatile("invlpg (%0)" ::"r"(window + i * PAGE) : "memory");
    }
    mapped -= count;
}

volatile void *map_register(uint64_t address) {
    uint8_t *page = address >> 52 ? 0 : map_pages(address / PAGE * PAGE, 1, PRESENT | WRITABLE | UNCACHED);
    return page ? page + address % PAGE : 0;
}
