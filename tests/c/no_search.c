/* no_search: with a library that was compiled with ZACPI_NO_SEARCH, a search is an unknown start of each call, and
 * zacpi_map.h, which makes searches itself, finds the RSDP as ever. The machine has an RSDP of revision 0 at 0xf0000,
 * whose RSDT at 0xe0000 lists nothing. */
#include "zacpi_map.h"
#include <stdio.h>
#include <string.h>

enum { MIB = 0x100000, RSDP = 0xf0000, RSDT = 0xe0000 };
static uint8_t memory[MIB];
static uint32_t wrong;

static const void *map(void *context, uint64_t address, uint64_t length) {
    (void)context;
    return address && address < MIB && length <= MIB - address ? memory + address : NULL;
}
static void unmap(void *context, const void *at, uint64_t address, uint64_t length) {
    (void)context, (void)at, (void)address, (void)length;
}
static void want(int line, zacpi_status is, zacpi_status wanted) {
    if (is == wanted) return;
    printf("line %d: %lu and not %lu\n", line, (unsigned long)is, (unsigned long)wanted);
    wrong = 1;
}
#define WANT(is, wanted) want(__LINE__, is, wanted)

static void starts(void) {
    struct zacpi_region all;
    struct zacpi_source source = {NULL, 1, RSDP, ZACPI_START_RSDP, 0};
    struct zacpi_root root;
    struct zacpi_rsdp rsdp;
    struct zacpi_signature named = ZACPI_SIGNATURE("none");
    size_t count;
    all.address = 0;
    all.bytes = memory;
    all.length = MIB;
    source.regions = &all;
    WANT(zacpi_open(&source, &root, NULL), ZACPI_OK);
    WANT(zacpi_get_rsdp(&source, &rsdp, NULL), ZACPI_OK);
    for (source.start = ZACPI_START_BIOS_SEARCH; source.start <= ZACPI_START_SEARCH; source.start++) {
        WANT(zacpi_open(&source, &root, NULL), ZACPI_UNKNOWN_START);
        WANT(zacpi_get_rsdp(&source, &rsdp, NULL), ZACPI_UNKNOWN_START);
        WANT(zacpi_list_tables(&source, NULL, 0, &count, NULL), ZACPI_UNKNOWN_START);
        WANT(zacpi_list_missing_ranges(&source, NULL, 0, &count, NULL), ZACPI_UNKNOWN_START);
    }
    /* An RSDP's error names no table. */
    source.start = ZACPI_START_RSDP;
    memory[RSDP + 8]++;
    WANT(zacpi_get_rsdp(&source, &rsdp, &named), ZACPI_RSDP_INVALID_CHECKSUM);
    WANT(memcmp(&named, "none", 4) != 0, 0);
    memory[RSDP + 8]--;
    source.start = ZACPI_START_RSDT;
    source.address = RSDT;
    WANT(zacpi_open(&source, &root, NULL), ZACPI_OK);
    WANT(zacpi_get_rsdp(&source, &rsdp, NULL), ZACPI_UNKNOWN_START);
}

static void maps(uint32_t start, zacpi_status wanted) {
    static struct zacpi_region regions[40];
    static struct zacpi_range ranges[8];
    const struct zacpi_mapper mapper = {NULL, map, unmap, 1};
    struct zacpi_source source = {NULL, 0, 0, 0, 0};
    struct zacpi_root root;
    source.start = start;
    WANT(zacpi_map_tables(&mapper, &source, regions, 40, ranges, 8), wanted);
    if (wanted != ZACPI_OK) return;
    WANT(source.start, ZACPI_START_RSDP);
    WANT(zacpi_open(&source, &root, NULL), ZACPI_OK);
    WANT((uint32_t)root.address, RSDT);
    WANT((uint32_t)root.rsdp_address, RSDP);
}

int main(void) {
    /* "RSD PTR " sums to 0x21f, and RsdtAddress to 0x0e: Checksum is 0xd3. "RSDT" sums to 0x13d, and Length to 0x24:
     * it is 0x9f. */
    memcpy(memory + RSDP, "RSD PTR \xd3", 9);
    memcpy(memory + RSDT, "RSDT\x24\0\0\0\0\x9f", 10);
    memory[RSDP + 18] = 0x0e;
    starts();
    maps(ZACPI_START_SEARCH, ZACPI_OK);
    /* Where there is none the library's search would have the error. */
    memory[RSDP] = 0;
    maps(ZACPI_START_SEARCH, ZACPI_UNKNOWN_START);
    return (int)wrong;
}
