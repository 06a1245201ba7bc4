/* What a program that is called with IMAGE START looks at: one table, and its bytes. */
#ifndef TABLE_H
#define TABLE_H
#include "image.h"
#include "start.h"

static struct zacpi_source source;
static struct zacpi_table table;
static const uint8_t *bytes;

/* Finds the first valid table of a signature. Returns how many arguments were taken; without one the program ends. */
static int open_table(int argc, char **argv, const char *letters) {
    static struct zacpi_region regions[1024];
    uint8_t revision;
    size_t length = 0;
    const int taken = start_of(argc, argv, &source, &revision);
    const uint8_t *image = taken ? contents(argv[1], &length) : NULL;
    source.regions = regions;
    if (image && !regions_of(image, length, regions, 1024, &source.regions_length) &&
        !zacpi_find_table(&source, zacpi_signature_of(letters), &table, NULL))
        bytes = zacpi_table_bytes(source.regions, source.regions_length, &table);
    if (bytes) return taken;
    fputs("no such table\n", stderr);
    exit(1);
}

/* What is at an offset of the table, if `length` bytes are there. */
static inline const void *at(uint32_t offset, size_t length) {
    return offset <= table.length && length <= table.length - offset ? bytes + offset : NULL;
}

/* The offsets of the table's first 1024 entries by a walk, and how many these are. */
static uint32_t offsets[1024];
static inline size_t walk_entries(struct zacpi_walk walk) {
    static struct zacpi_entry entries[1024];
    size_t count = 0, i;
    uint8_t malformed;
    if (zacpi_list_entries(&source, table.address, &walk, entries, 1024, &count, &malformed, NULL)) return 0;
    if (count > 1024) count = 1024;
    for (i = 0; i < count; i++) offsets[i] = (uint32_t)(entries[i].address - table.address);
    return count;
}
#endif
