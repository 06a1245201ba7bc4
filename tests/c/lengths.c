/* Tables of 2^32 bytes, or a little more, that a call only finds too long once it has looked at each item: lists that
 * lie in memory as one page, again and again. Prints how many tables were tried; the status is 0 if each is
 * ZACPI_TOO_LONG, and nothing is written. It takes seconds, so it is run once, by no emulator. Skipped where an address
 * has 32 bits, or there isn't so much address space. cc -std=c99 -Iinclude tests/c/lengths.c ARCHIVE */
#define _GNU_SOURCE
#include "edges.h"
#include <unistd.h>

#define FOUR_GIB ((uint64_t)1 << 32)
enum { CHUNK = 0x10000 * 33 }; /* a multiple of each page's size, and of each record's */

static const struct zacpi_table_ids ids = {{'G'}, {'M'}, {0}, 0, {'Z'}, 0};

static void *skipped(void) {
    puts("skipped: there isn't so much address space");
    exit(0);
}
/* Whole chunks for so many bytes, each of which is the same memory with these records. */
static void *repeated(const void *record, size_t size, uint64_t length) {
    const uint64_t whole = (length + CHUNK - 1) / CHUNK * CHUNK;
    const int file = memfd_create("chunk", 0);
    uint8_t *chunk, *base;
    uint64_t at;
    if (CHUNK % size || file < 0 || ftruncate(file, CHUNK)) return skipped();
    base = mmap(NULL, (size_t)whole, PROT_NONE, MAP_PRIVATE | MAP_ANONYMOUS | MAP_NORESERVE, -1, 0);
    if (base == (uint8_t *)MAP_FAILED) return skipped();
    for (at = 0; at < whole; at += CHUNK)
        if (mmap(base + at, CHUNK, PROT_READ | PROT_WRITE, MAP_SHARED | MAP_FIXED, file, 0) == MAP_FAILED)
            return skipped();
    for (chunk = base; chunk < base + CHUNK; chunk += size) memcpy(chunk, record, size);
    close(file);
    return base;
}

/* GICC Affinities have 18 bytes each, after 48 and these Memory Affinities of 40 bytes. */
static zacpi_status srat_of(size_t memory, size_t giccs, uint8_t *to, size_t capacity, size_t *length) {
    static const struct zacpi_gicc_domain domain = {1, 2};
    static const struct zacpi_memory_affinity ranges[7] = {{.length = 1}, {.length = 1}, {.length = 1}, {.length = 1},
                                                           {.length = 1}, {.length = 1}, {.length = 1}};
    const struct zacpi_srat_contents given = {NULL,  0,      repeated(&domain, sizeof domain, giccs * sizeof domain),
                                              giccs, ranges, memory};
    return zacpi_write_srat(&ids, &given, to, capacity, length);
}
static zacpi_status long_srat(uint8_t *to, size_t capacity, size_t *length) {
    return srat_of(0, (size_t)((FOUR_GIB - 48 + 17) / 18), to, capacity, length);
}
static zacpi_status exact_srat(uint8_t *to, size_t capacity, size_t *length) {
    return srat_of(7, (size_t)((FOUR_GIB - 48 - 7 * 40) / 18), to, capacity, length);
}

/* A GT Block of 1637 frames has 20 bytes and 40 for each frame, after 104; a watchdog has 28. */
enum { FRAMES = 1637, BLOCK = 20 + 40 * FRAMES };
static zacpi_status gtdt_of(const size_t counts[3], uint8_t *to, size_t capacity, size_t *length) {
    static struct zacpi_gt_frame frames[FRAMES];
    const struct zacpi_arm_timer timer = {29, ZACPI_POLARITY_LOW, ZACPI_TRIGGER_LEVEL, 0, 1};
    const size_t count = counts[0] + counts[1] + counts[2]; /* long blocks, those of two frames, and watchdogs */
    struct zacpi_platform_timer *blocks = calloc(count, sizeof *blocks);
    struct zacpi_gtdt_contents given;
    zacpi_status got;
    size_t i;
    memset(&given, 0, sizeof given);
    given.timers.secure_el1 = given.timers.non_secure_el1 = given.timers.virtual_el1 = given.timers.el2 = timer;
    for (i = 0; i < FRAMES; i++) {
        frames[i].physical_polarity = frames[i].virtual_polarity = ZACPI_POLARITY_LOW;
        frames[i].physical_trigger = frames[i].virtual_trigger = ZACPI_TRIGGER_LEVEL;
    }
    if (!blocks) skipped();
    for (i = 0; i < count; i++) {
        blocks[i].frames = frames, blocks[i].frames_length = i < counts[0] ? FRAMES : 2;
        blocks[i].kind = i >= counts[0] + counts[1];
        blocks[i].watchdog.polarity = ZACPI_POLARITY_LOW, blocks[i].watchdog.trigger = ZACPI_TRIGGER_LEVEL;
    }
    given.platform_timers = blocks, given.platform_timers_length = count;
    got = zacpi_write_gtdt(&ids, &given, to, capacity, length);
    free(blocks);
    return got;
}
static zacpi_status long_gtdt(uint8_t *to, size_t capacity, size_t *length) {
    const size_t counts[3] = {(size_t)((FOUR_GIB - 104 + BLOCK - 1) / BLOCK), 0, 0};
    return gtdt_of(counts, to, capacity, length);
}
/* 104 + 65572 * 65500 + 100 + 39 * 28 */
static zacpi_status exact_gtdt(uint8_t *to, size_t capacity, size_t *length) {
    static const size_t counts[3] = {65572, 1, 39};
    return gtdt_of(counts, to, capacity, length);
}

/* An XSDT lists 0x1ffffffb tables at most (36 bytes, and 8 for each). */
static zacpi_status long_xsdt(uint8_t *to, size_t capacity, size_t *length) {
    static const uint8_t oem[36] = {'O', 'E', 'M', '9', 36, 0, 0, 0, 1, 0xc1};
    const struct zacpi_listed_table table = {oem, 36};
    struct zacpi_machine machine = {ids, {0}, NULL, 0x1ffffffc, NULL, 0, NULL, 0};
    machine.tables = repeated(&table, sizeof table, 0x1ffffffc * (uint64_t)sizeof table);
    (void)to, (void)capacity;
    return zacpi_tables_size(&machine, length);
}

int main(void) {
    static zacpi_status (*const all[])(uint8_t * to, size_t capacity,
                                       size_t * length) = {long_srat, exact_srat, long_gtdt, exact_gtdt, long_xsdt};
    uint8_t *to = sizeof to < 8 ? NULL
                                : mmap(NULL, (size_t)(FOUR_GIB + CHUNK), PROT_NONE,
                                       MAP_PRIVATE | MAP_ANONYMOUS | MAP_NORESERVE, -1, 0);
    size_t i, failed = 0;
    if (!to || to == (uint8_t *)MAP_FAILED) skipped();
    for (i = 0; i < sizeof all / sizeof *all; i++) {
        size_t length = 77;
        const zacpi_status got = all[i](to, (size_t)(FOUR_GIB + CHUNK), &length);
        if (got == ZACPI_TOO_LONG && length == 77) continue;
        failed++;
        printf("FAILED: %lu: %u\n", (unsigned long)i, (unsigned)got);
    }
    printf("%lu tables\n", (unsigned long)i);
    return failed ? 1 : 0;
}
