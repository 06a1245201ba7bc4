/* boots FILE: what programs do at their start, over the memory from 0x7000000 on that examples/guest wrote to FILE for
 * 64 processors, with a copy of its RSDP where QEMU's firmware has one. Each step is a function, whose instructions
 * scripts/speed counts. Prints what each found; the status is 0 if they found the same. */
#include "zacpi_map.h"
#include <stdio.h>
#include <string.h>

enum { LOW = 0x100000, RSDP = 0xf59e0, TABLES = 0x7000000, SIZE = 1 << 16, WANTED = 5, PROCESSORS = 64 };
static uint8_t low[LOW], tables[SIZE];
static const char wanted_letters[] = "FACPAPICHPETSRATSLIT";

/* Memory is there all the time, as with an identity map. */
static const uint8_t *at(uint64_t address, uint64_t length) {
    if (address && address < LOW && length <= LOW - address) return low + address;
    if (address - TABLES < SIZE && length <= SIZE - (address - TABLES)) return tables + (address - TABLES);
    return NULL;
}
static const void *map(void *context, uint64_t address, uint64_t length) {
    (void)context;
    return at(address, length);
}
static void unmap(void *context, const void *from, uint64_t address, uint64_t length) {
    (void)context, (void)from, (void)address, (void)length;
}

/* The least: a search and the sums of the root table and of the tables that are wanted, in C, byte by byte. */
static uint8_t sum(const uint8_t *bytes, uint32_t length) {
    uint8_t all = 0;
    while (length--) all = (uint8_t)(all + *bytes++);
    return all;
}
static uint32_t four(const uint8_t *bytes) {
    uint32_t number;
    memcpy(&number, bytes, 4);
    return number;
}
size_t least_maps(void);
size_t least_maps(void) {
    const uint8_t *place = low + 0xe0000, *root, *table;
    uint32_t i, k;
    size_t found = 0;
    while (place < low + LOW && (memcmp(place, "RSD PTR ", 8) || sum(place, 20))) place += 16;
    if (place == low + LOW || place[15] < 2 || sum(place, 36)) return 0;
    root = at(four(place + 24), 36);
    if (!root || !at(four(place + 24), four(root + 4)) || sum(root, four(root + 4))) return 0;
    for (i = 36; i + 8 <= four(root + 4); i += 8) {
        table = at(four(root + i), 36);
        for (k = 0; table && k < WANTED; k++)
            if (!memcmp(table, wanted_letters + 4 * k, 4)) found += !sum(table, four(table + 4));
    }
    return found;
}

/* The same by the library, from a search on: what is mapped is in `source`. */
static struct zacpi_region regions[32];
static struct zacpi_range ranges[32];
static struct zacpi_source source = {NULL, 0, 0, ZACPI_START_SEARCH, ZACPI_ACCEPT_SUMS | ZACPI_ACCEPT_IDS};
zacpi_status maps(void);
zacpi_status maps(void) {
    const struct zacpi_mapper mapper = {NULL, map, unmap, 1};
    struct zacpi_signature wanted[WANTED];
    memcpy(wanted, wanted_letters, sizeof wanted);
    return zacpi_map_wanted_tables(&mapper, &source, wanted, WANTED, regions, 32, ranges, 32);
}

/* The domain of each processor, by a call for each. */
size_t domains_by_calls(uint32_t *domains);
size_t domains_by_calls(uint32_t *domains) {
    struct zacpi_processor processors[PROCESSORS];
    size_t count = 0, found = 0, i;
    if (zacpi_list_processors(&source, processors, PROCESSORS, &count, NULL)) return 0;
    for (i = 0; i < count && i < PROCESSORS; i++)
        found += !zacpi_domain_of_apic(&source, processors[i].local_apic_id, &domains[i], NULL);
    return found;
}
/* And by the list. */
size_t domains_by_list(uint32_t *domains);
size_t domains_by_list(uint32_t *domains) {
    struct zacpi_processor processors[PROCESSORS];
    struct zacpi_processor_affinity affinities[PROCESSORS];
    size_t count = 0, many = 0, found = 0, i, k;
    if (zacpi_list_processors(&source, processors, PROCESSORS, &count, NULL)) return 0;
    if (zacpi_list_processor_affinities(&source, affinities, PROCESSORS, &many, NULL)) return 0;
    for (i = 0; i < count && i < PROCESSORS; i++) {
        for (k = i; k < i + many && affinities[k % many].id != processors[i].local_apic_id; k++) continue;
        if (k < i + many) domains[i] = affinities[k % many].domain, found++;
    }
    return found;
}

int main(int argc, char **argv) {
    static uint32_t by_calls[PROCESSORS], by_list[PROCESSORS];
    FILE *const file = argc == 2 ? fopen(argv[1], "rb") : NULL;
    size_t least, one, other;
    if (!file || !fread(tables, 1, SIZE, file)) return fputs("usage: boots FILE\n", stderr), 2;
    fclose(file);
    memcpy(low + RSDP, tables, 36);
    least = least_maps();
    if (maps()) return 1;
    one = domains_by_calls(by_calls);
    other = domains_by_list(by_list);
    printf("%lu tables, %lu regions, %lu and %lu domains\n", (unsigned long)least, (unsigned long)source.regions_length,
           (unsigned long)one, (unsigned long)other);
    return least != WANTED || one != PROCESSORS || other != PROCESSORS ||
           memcmp(by_calls, by_list, sizeof by_list) != 0;
}
