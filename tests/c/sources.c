/* sources: whether zacpi_source_of_tables makes the root table, the addresses and the order of the regions as it has
 * to, and what calls then return, of tables whose bytes are laid out by hand. It prints what isn't as it should be. Run
 * with `end` or `begin`, tables, regions, root table and what is written are at pages that can't be touched
 * (edges.h). */
#define _DEFAULT_SOURCE
#include "edges.h"
#include "zacpi_source.h"

static int failed;
#define EXPECT(holds) \
    do { \
        if (!(holds)) failed = 1, printf("FAILED: line %d: %s\n", __LINE__, #holds); \
    } while (0)

enum { MOST = 8, ROOT_SIZE = 36 + 8 * MOST };
static struct zacpi_region *regions;
static uint8_t *xsdt;
static struct zacpi_source *source;
/* A table of a length, and where it was put last: at the edge, if that length isn't only claimed. */
static struct placed {
    const uint8_t *given, *put;
    zacpi_size length;
} placed[32];

/* A header (section 5.2.6) of zeros but for Signature, Length, Revision and Checksum. */
static void head(uint8_t *table, const char *letters, uint8_t length, uint8_t revision) {
    memcpy(table, letters, 4);
    table[4] = length, table[8] = revision;
    zacpi_set_checksum(table, length);
}
/* A MADT of one Processor Local APIC (section 5.2.12.2): type 0, 8 bytes, ACPI Processor UID, APIC ID, enabled. */
static void madt(uint8_t *table, uint8_t id) {
    table[45] = 8, table[46] = 1, table[47] = id, table[48] = 1;
    head(table, "APIC", 52, 4);
}
static struct placed *place_of(const uint8_t *bytes, zacpi_size length) {
    struct placed *place = placed;
    while (place->given && (place->given != bytes || place->length != length)) place++;
    if (!place->given) place->given = place->put = bytes, place->length = length;
    return place;
}
static void put(size_t i, uint64_t address, const uint8_t *bytes, zacpi_size length) {
    struct placed *place = place_of(bytes, length);
    if (bytes && edge != NO_EDGE && length <= EDGE_PAGE) place->put = (const uint8_t *)at_edge(bytes, (size_t)length);
    regions[i].address = address, regions[i].bytes = place->put, regions[i].length = length;
}
/* Makes a source, with as much capacity as it takes. */
static zacpi_status make(size_t count) {
    memset(source, 0, sizeof *source);
    return zacpi_source_of_tables(regions, count, MOST, xsdt, ROOT_SIZE, source);
}
static int is_region(size_t i, uint64_t address, const uint8_t *bytes, size_t length) {
    return regions[i].address == address && regions[i].bytes == place_of(bytes, length)->put &&
           regions[i].length == length;
}
/* The id of the one processor, or 999. */
static uint32_t processor_id(void) {
    struct zacpi_processor *const found = (struct zacpi_processor *)painted_again(0, sizeof *found);
    size_t *const count = (size_t *)painted_again(1, sizeof *count);
    return zacpi_list_processors(source, found, 1, count, NULL) || *count != 1 ? 999 : found->local_apic_id;
}
static size_t tables(void) {
    size_t *const count = (size_t *)painted_again(1, sizeof *count);
    return zacpi_list_tables(source, NULL, 0, count, NULL) ? 999 : *count;
}

/* Two files. What isn't a pointer sums to 0x647: "XSDT" 0x143, Length 0x34, Revision 1, "ZACPI " 0x197, "TABLES  "
 * 0x1fb, OEM Revision 1, "ZFIR" 0x13b, Creator Revision 1; with the pointers' 0x10 and 0x20 it is 0x677, and Checksum
 * 0x89. */
static void lists_two(void) {
    static const uint8_t root[52] = {'X', 'S', 'D', 'T', 52,  0,   0,    0,   1,   0x89, 'Z', 'A',  'C',
                                     'P', 'I', ' ', 'T', 'A', 'B', 'L',  'E', 'S', ' ',  ' ', 1,    0,
                                     0,   0,   'Z', 'F', 'I', 'R', 1,    0,   0,   0,    0,   0x10, 0,
                                     0,   0,   0,   0,   0,   0,   0x20, 0,   0,   0,    0,   0,    0};
    static uint8_t ssdt[36], processors[52];
    struct zacpi_table *const found = (struct zacpi_table *)painted_at_edge(3 * sizeof *found);
    size_t *const count = PAINTED(size_t);
    head(ssdt, "SSDT", 36, 2), madt(processors, 7);
    memset(xsdt, 0xa5, ROOT_SIZE);
    put(0, 0, processors, 52), put(1, 0, ssdt, 36), put(3, 1, ssdt, 1);
    source->accept = ZACPI_ACCEPT_SUMS;
    EXPECT(!zacpi_source_of_tables(regions, 2, 3, xsdt, 52, source));
    EXPECT(!memcmp(xsdt, root, 52) && xsdt[52] == 0xa5 && is_region(3, 1, ssdt, 1));
    EXPECT(is_region(0, 0x1000, processors, 52) && is_region(1, 0x2000, ssdt, 36) && is_region(2, 0x3000, xsdt, 52));
    EXPECT(source->regions == regions && source->regions_length == 3 && source->address == 0x3000);
    EXPECT(source->start == ZACPI_START_XSDT && source->accept == ZACPI_ACCEPT_SUMS);
    source->accept = 0;
    EXPECT(!zacpi_list_tables(source, found, 3, count, NULL) && *count == 2);
    EXPECT(found[0].address == 0x1000 && found[1].address == 0x2000 && processor_id() == 7);
}

/* Of three MADTs, where they are in memory, the caller's first is read; the XSDT is at the first free page. */
static void chooses_a_madt(void) {
    static const uint64_t places[] = {0x9000, 0x5000, 0x7000};
    static uint8_t madts[3][52];
    size_t i, chosen;
    for (i = 0; i < 3; i++) madt(madts[i], (uint8_t)(i + 1));
    for (chosen = 0; chosen < 3; chosen++) {
        for (i = 0; i < 3; i++) put(i, places[(chosen + i) % 3], madts[(chosen + i) % 3], 52);
        EXPECT(!make(3) && source->address == 0x1000 && is_region(0, 0x1000, xsdt, 60) &&
               regions[1].address == 0x5000 && regions[2].address == 0x7000 && is_region(3, 0x9000, madts[0], 52));
        EXPECT(xsdt[37] == places[chosen] >> 8 && xsdt[53] == places[(chosen + 2) % 3] >> 8);
        EXPECT(tables() == 3 && processor_id() == chosen + 1);
    }
}

/* With a capacity that is one too small nothing is written. */
static void needs_capacity(void) {
    static uint8_t processors[52];
    madt(processors, 7);
    memset(xsdt, 0xa5, ROOT_SIZE);
    memset(source, 0, sizeof *source);
    put(0, 0, processors, 52), put(1, 0x5000, processors, 52), put(2, 0, NULL, 0);
    EXPECT(zacpi_source_of_tables(regions, 2, 2, xsdt, 52, source) == ZACPI_NO_ROOM);
    EXPECT(zacpi_source_of_tables(regions, 2, 3, xsdt, 51, source) == ZACPI_NO_ROOM);
    EXPECT(zacpi_source_of_tables(regions, 0, 0, xsdt, 36, source) == ZACPI_NO_ROOM);
    EXPECT(zacpi_source_of_tables(regions, 0, 1, xsdt, 35, source) == ZACPI_NO_ROOM);
    EXPECT(xsdt[0] == 0xa5 && !source->regions && !regions[0].address && is_region(2, 0, NULL, 0));
    EXPECT(!zacpi_source_of_tables(regions, 2, 3, xsdt, 52, source));
    put(0, UINT64_MAX, processors, 52);
    EXPECT(zacpi_source_of_tables(regions, 1, 1, xsdt, 0, source) == ZACPI_NO_ROOM);
    EXPECT(zacpi_source_of_tables(regions, 1, 2, xsdt, 0, source) == ZACPI_REGION_TOO_HIGH);
    /* Of no tables the root table has a Length of 36, and sums to 0x647 - 0x10. */
    EXPECT(!zacpi_source_of_tables(regions, 0, 1, xsdt, 36, source) && xsdt[4] == 36 && xsdt[9] == 0xc9);
    EXPECT(is_region(0, 0x1000, xsdt, 36) && source->regions_length == 1 && tables() == 0 && processor_id() == 999);
}

/* Tables of 52 bytes share a byte up to 51 bytes from each other; from 0x5000 to 0x5034 they are beside each other. */
static void shares_no_byte(void) {
    static uint8_t first[52], second[52];
    madt(first, 1), madt(second, 2);
    put(0, 0x5000, first, 52), put(1, 0x5033, second, 52);
    EXPECT(make(2) == ZACPI_REGIONS_NOT_ASCENDING && !source->regions && is_region(1, 0x5033, second, 52));
    put(0, 0x5033, first, 52), put(1, 0x5000, second, 52);
    EXPECT(make(2) == ZACPI_REGIONS_NOT_ASCENDING);
    put(0, 0x5000, first, 52), put(1, 0x5000, second, 52);
    EXPECT(make(2) == ZACPI_REGIONS_NOT_ASCENDING);
    put(0, 0x5034, first, 52), put(1, 0x5000, second, 52);
    EXPECT(!make(2) && regions[1].address == 0x5000 && processor_id() == 1 && tables() == 2);
    /* One without bytes may be where the other begins, and not inside. */
    put(0, 0x5000, first, 52), put(1, 0x5000, second, 0);
    EXPECT(!make(2) && is_region(1, 0x5000, second, 0) && is_region(2, 0x5000, first, 52) && tables() == 2);
    put(0, 0x5000, first, 52), put(1, 0x5001, second, 0);
    EXPECT(make(2) == ZACPI_REGIONS_NOT_ASCENDING);
    put(0, 0x5001, second, 0), put(1, 0x5000, first, 52);
    EXPECT(make(2) == ZACPI_REGIONS_NOT_ASCENDING);
    /* Of two errors the first table's comes: one that shares bytes, and one that ends too high. */
    put(0, 0x5000, first, 52), put(1, 0x5033, second, 52), put(2, UINT64_MAX - 51, second, 52);
    EXPECT(make(3) == ZACPI_REGIONS_NOT_ASCENDING);
    put(0, 0x5000, first, 52), put(1, UINT64_MAX - 51, second, 52), put(2, 0x5033, second, 52);
    EXPECT(make(3) == ZACPI_REGION_TOO_HIGH);
}

/* A region ends at 2^64 - 1 at most. The one from 1 on leaves no address to the XSDT. */
static void ends_below_the_top(void) {
    static uint8_t processors[52];
    madt(processors, 3);
    put(0, UINT64_MAX - 51, processors, 52);
    EXPECT(make(1) == ZACPI_REGION_TOO_HIGH && !source->regions);
    put(0, UINT64_MAX - 52, processors, 52);
    EXPECT(!make(1) && regions[0].address == 0x1000 && processor_id() == 3);
    put(0, 1, processors, UINT64_MAX - 1);
    EXPECT(make(1) == ZACPI_REGION_TOO_HIGH && !source->regions);
    put(0, 0, processors, UINT64_MAX - 4096);
    EXPECT(make(1) == ZACPI_REGION_TOO_HIGH && !source->regions && !regions[0].address);
}

/* A file comes to the first page at which it touches no table. So does the XSDT, of 60 bytes: from 0x2000 on it would
 * share bytes with the table at 0x2035. The file would touch the table at 0x1034, then one that ends at 0x1000 and one
 * at 0x2034. An empty file has a page of its own, and no header. */
static void places_files(void) {
    static const uint8_t letters[3] = {'D', 'S', 'D'}, name[4] = {'F', 'A', 'C', 'P'};
    static uint8_t low[52], high[52], file[52], ssdt[36], large[0x1800];
    struct zacpi_member *const members = (struct zacpi_member *)painted_at_edge(4 * sizeof *members);
    size_t *const count = PAINTED(size_t);
    madt(low, 1), madt(high, 2), madt(file, 3), head(ssdt, "SSDT", 36, 2);
    put(0, 0, file, 52), put(1, 0x2000 - 53, low, 52), put(2, 0x2035, high, 52);
    EXPECT(!make(3) && is_region(0, 0x1000, file, 52) && source->address == 0x3000 && processor_id() == 3);
    put(0, 0, file, 52), put(1, 0x1034, low, 52), put(2, 0x2035, high, 52);
    EXPECT(!make(3) && is_region(1, 0x2000, file, 52) && source->address == 0x3000);
    put(0, 0, file, 52), put(1, 0x1000 - 52, low, 52), put(2, 0x2034, high, 52);
    EXPECT(!make(3) && is_region(2, 0x3000, file, 52) && source->address == 0x4000);
    /* A file of more than a page, before it has an address, is nowhere. */
    put(0, 0x1000, low, 52), put(1, 0, file, 52), put(2, 0, large, 0x1800);
    EXPECT(!make(3) && is_region(1, 0x2000, file, 52) && is_region(2, 0x3000, large, 0x1800));
    put(0, 0x4000, low, 52), put(1, 0, file, 52), put(2, 0, large, 0x1800);
    EXPECT(!make(3) && is_region(0, 0x1000, file, 52) && is_region(1, 0x2000, large, 0x1800));
    put(0, 0, file, 0), put(1, 0, ssdt, 36), put(2, 0, letters, 3), put(3, 0, name, 4);
    EXPECT(!make(4) && !zacpi_list_members(source, members, 4, count, NULL) && *count == 4);
    EXPECT(members[0].status == ZACPI_MAP_FAILED && members[1].table.address == 0x2000 && !members[1].status &&
           members[2].status == ZACPI_MAP_FAILED && members[2].table.address == 0x3000);
}

/* A FADT (section 5.2.9): FIRMWARE_CTRL is at 36, DSDT at 40, X_FIRMWARE_CTRL at 132 and X_DSDT at 140. */
static uint8_t fadt[244], dsdt[37], facs[64], other[52];
static void fadt_of(uint8_t length, uint8_t revision, uint8_t facs_page, uint8_t dsdt_page) {
    memset(fadt, 0, sizeof fadt);
    fadt[37] = facs_page, fadt[41] = dsdt_page;
    head(fadt, "FACP", length, revision);
}
static void put_machine(uint64_t of_other) {
    head(dsdt, "DSDT", 37, 2), head(other, "OEM1", 52, 1);
    memcpy(facs, "FACS\x40", 5); /* Length, and no header after it */
    put(0, 0, facs, 64), put(1, of_other, other, 52), put(2, 0, dsdt, 37), put(3, 0, fadt, fadt[4]);
}
/* The pages of the FACS and the DSDT, by the calls that find them, or 999 if one doesn't. */
static uint64_t facs_at(void) {
    struct zacpi_range *const ranges = (struct zacpi_range *)painted_again(0, 8 * sizeof *ranges);
    size_t *const count = (size_t *)painted_again(1, sizeof *count);
    struct zacpi_facs *const found = (struct zacpi_facs *)painted_again(2, sizeof *found);
    if (zacpi_get_facs(source, found, NULL) || zacpi_list_ranges(source, ranges, 8, count, NULL)) return 999;
    return ranges[*count - 1].length == 64 ? ranges[*count - 1].address : 998;
}
static uint64_t dsdt_at(void) {
    struct zacpi_aml_table *const found = (struct zacpi_aml_table *)painted_again(0, sizeof *found);
    return zacpi_get_dsdt(source, found, NULL) ? 999 : found->table_address;
}
static void finds_by_the_fadt(void) {
    fadt_of(116, 1, 0x70, 0x60), put_machine(0);
    EXPECT(!make(4) && tables() == 2 && xsdt[4] == 52 && facs_at() == 0x7000 && dsdt_at() == 0x6000);
    EXPECT(source->regions_length == 5 && is_region(0, 0x1000, other, 52) && is_region(1, 0x2000, fadt, 116));
    EXPECT(is_region(2, 0x3000, xsdt, 52) && is_region(3, 0x6000, dsdt, 37) && is_region(4, 0x7000, facs, 64));
    /* The fields of 64 bits are read from revision 2 on, if they aren't 0. */
    fadt_of(244, 3, 0x70, 0x60), fadt[133] = 0x90, fadt[147] = 0x40, zacpi_set_checksum(fadt, 244), put_machine(0);
    EXPECT(!make(4) && facs_at() == 0x9000 && dsdt_at() == 0x4000000000000000);
    fadt_of(244, 1, 0x70, 0x60), fadt[133] = 0x90, zacpi_set_checksum(fadt, 244), put_machine(0);
    EXPECT(!make(4) && facs_at() == 0x7000);
    /* An address that another table has, that leaves too few bytes below 2^64, or that the FADT lacks, isn't taken. */
    fadt_of(116, 1, 0x70, 0x60), put_machine(0x6001);
    EXPECT(!make(4) && is_region(0, 0x1000, dsdt, 37) && tables() == 2 && facs_at() == 0x7000);
    fadt_of(244, 3, 0x70, 0x60), memset(fadt + 140, 0xff, 8), zacpi_set_checksum(fadt, 244), put_machine(0);
    EXPECT(!make(4) && is_region(1, 0x2000, dsdt, 37) && tables() == 2 && dsdt_at() == 999);
    fadt_of(116, 1, 0, 0), put_machine(0);
    EXPECT(!make(4) && is_region(0, 0x1000, facs, 64) && tables() == 2);
    /* The caller's own addresses stay. */
    fadt_of(116, 1, 0x70, 0x60), put_machine(0), regions[2].address = 0x8000;
    EXPECT(!make(4) && is_region(4, 0x8000, dsdt, 37) && tables() == 2);
}
/* FADTs of 115 bytes, of a Length of 115 and of a byte less than their Length point to nothing: the next one does. */
static void takes_a_whole_fadt(void) {
    static uint8_t whole[116];
    fadt_of(116, 1, 0x70, 0x60), memcpy(whole, fadt, 116);
    fadt_of(116, 1, 0x90, 0x80), put_machine(0), put(1, 0, fadt, 115), put(3, 0, whole, 116);
    EXPECT(!make(4) && dsdt_at() == 0x6000);
    fadt_of(115, 1, 0x90, 0x80), put_machine(0), put(1, 0, fadt, 116), put(3, 0, whole, 116);
    EXPECT(!make(4) && dsdt_at() == 0x6000);
    fadt_of(244, 3, 0x90, 0x80), put_machine(0), put(1, 0, fadt, 243), put(3, 0, whole, 116);
    EXPECT(!make(4) && dsdt_at() == 0x6000);
}

int main(int argc, char **argv) {
    static const struct zacpi_region none[MOST];
    static const uint8_t zeros[ROOT_SIZE];
    if (!edge_of(argc, argv)) return 2;
    regions = (struct zacpi_region *)at_edge(none, sizeof none);
    xsdt = (uint8_t *)at_edge(zeros, sizeof zeros);
    source = PAINTED(struct zacpi_source);
    lists_two();
    chooses_a_madt();
    needs_capacity();
    shares_no_byte();
    ends_below_the_top();
    places_files();
    finds_by_the_fadt();
    takes_a_whole_fadt();
    return failed;
}
