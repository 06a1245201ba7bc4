/* on_demand MEMORY ADDRESS: how many processors a machine has, from the RSDP at a physical address on, while no more of
 * its memory is mapped than the tables need. MEMORY is a file with a byte for each physical address, from 0 on. */
#define _DEFAULT_SOURCE
#include "zacpi_map.h"
#include <fcntl.h>
#include <stdio.h>
#include <stdlib.h>
#include <sys/mman.h>
#include <sys/stat.h>

static struct {
    int file;
    uint64_t length;
} memory;

static const void *map(void *context, uint64_t address, uint64_t length) {
    void *at;
    (void)context;
    if (length > memory.length || address > memory.length - length) return NULL; /* no memory is there */
    at = mmap(NULL, (size_t)length, PROT_READ, MAP_PRIVATE, memory.file, (off_t)address);
    return at == MAP_FAILED ? NULL : at;
}
static void unmap(void *context, const void *at, uint64_t address, uint64_t length) {
    (void)context;
    (void)address;
    munmap((void *)at, (size_t)length);
}

/* How many processors the tables list, from an RSDP on. */
static zacpi_status count_processors(uint64_t rsdp, size_t *count) {
    static struct zacpi_region regions[64];
    static struct zacpi_range ranges[128];
    struct zacpi_processor first;
    struct zacpi_signature signature;
    struct zacpi_mapper mapper = {NULL, map, unmap, 0}; /* by pages of 4 KiB */
    struct zacpi_source source = {regions, 0, rsdp, ZACPI_START_RSDP, ZACPI_ACCEPT_SUMS | ZACPI_ACCEPT_IDS};
    zacpi_status status = zacpi_map_tables(&mapper, &source, regions, 64, ranges, 128);
    if (status != ZACPI_OK) return status;
    status = zacpi_list_processors(&source, &first, 1, count, &signature);
    zacpi_unmap_tables(&mapper, &source);
    return status;
}

int main(int argc, char **argv) {
    struct stat about;
    zacpi_status status;
    size_t count;
    if (argc != 3) return 2;
    memory.file = open(argv[1], O_RDONLY);
    if (memory.file < 0 || fstat(memory.file, &about)) return 1;
    memory.length = ((uint64_t)about.st_size + 4095) / 4096 * 4096; /* zeros end its last page */
    status = count_processors(strtoull(argv[2], NULL, 16), &count);
    if (status != ZACPI_OK) {
        fprintf(stderr, "%s\n", zacpi_status_name(status));
        return 1;
    }
    printf("%lu processors\n", (unsigned long)count);
    return 0;
}
