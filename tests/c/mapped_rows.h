/* Machines laid out by hand, of which zacpi_map_wanted_tables has to map what its rows have, by page and by byte. */
#ifndef MAPPED_ROWS_H
#define MAPPED_ROWS_H
#include "mapper.h"

static int is_search(const struct zacpi_source *source) {
    return source->start == ZACPI_START_SEARCH || source->start == ZACPI_START_BIOS_SEARCH;
}
/* Where a source starts after a search, if there is one that finds an RSDP. */
static struct zacpi_source after_search(struct zacpi_source source) {
    struct zacpi_rsdp *const rsdp = (struct zacpi_rsdp *)painted_again(0, sizeof *rsdp);
    if (is_search(&source) && zacpi_get_rsdp(&source, rsdp, NULL) == ZACPI_OK) {
        source.start = ZACPI_START_RSDP;
        source.address = rsdp->address;
    }
    return source;
}

/* The memory of the machines, from address 0 on. */
static uint8_t bytes_of_machine[0x700000];

static void put(uint64_t address, uint64_t value, size_t length) {
    while (length--) bytes_of_machine[address++] = (uint8_t)value, value >>= 8;
}
static void table(uint64_t address, const char *letters, uint32_t length) {
    memcpy(bytes_of_machine + address, letters, 4);
    put(address + 4, length, 4);
    zacpi_set_checksum(bytes_of_machine + address, length);
}
static const void *map_machine(void *context, uint64_t address, uint64_t length) {
    if (!address && unit == 1) end("map: a null pointer");
    return map(context, address, length);
}

/* The crowded machine: of its RSDT's pointers 300 are null, 300 lead to no memory, 300 to a page each that begins as a
 * table "JUNK", 300 to a page each that touches no other and begins with 36 bytes that are no table, and three to the
 * FADT, the MADT and the HPET, each in a page of its own that touches no other. The FADT, of revision 1, points to the
 * DSDT and the FACS. A row's RSDT has some of these kinds. */
enum {
    ROOT = 0x100000,
    JUNK = 0x110000,
    NONE = 0x300000,
    NOWHERE = 0x40000000,
    EACH = 300,
    FADT = 0x600000,
    MADT = 0x602000,
    HPET = 0x604000,
    DSDT = 0x606000,
    FACS = 0x60a000,
    END = 0x60c000
};
enum { NULLS = 1, NOWHERES = 2, JUNKS = 4, NONES = 8, CROWD = NULLS | NOWHERES | JUNKS };

/* No table: zeros; bytes of no memory; "OEM1" of 256 MiB, which is longer than the memory, and of 35 bytes; and what
 * isn't printable, of 36 bytes. */
static void put_none(uint64_t address, uint64_t i) {
    memset(bytes_of_machine + address, i % 5 == 1 ? 0xff : 0, 36);
    if (i % 5 == 2) put(address, 0x10000000314d454f, 8);
    if (i % 5 == 3) put(address, 0x00000023314d454f, 8);
    if (i % 5 == 4) put(address, 0x0000002401010101, 8);
}
static uint64_t put_pointers(uint64_t at, uint64_t first, uint64_t step) {
    uint64_t i;
    for (i = 0; i < EACH; i++, at += 4) put(at, first + step * i, 4);
    return at;
}
static void crowd(struct zacpi_source *source, int kinds, uint32_t facs_length) {
    uint64_t i, at = ROOT + 36;
    memset(bytes_of_machine, 0, sizeof bytes_of_machine);
    for (i = 0; i < EACH; i++) table(JUNK + 0x1000 * i, "JUNK", 36), put_none(NONE + 0x2000 * i, i);
    if (kinds & NULLS) at = put_pointers(at, 0, 0);
    if (kinds & NOWHERES) at = put_pointers(at, NOWHERE, 0x1000);
    if (kinds & JUNKS) at = put_pointers(at, JUNK, 0x1000);
    if (kinds & NONES) at = put_pointers(at, NONE, 0x2000);
    put(at, FADT, 4), put(at + 4, MADT, 4), put(at + 8, HPET, 4);
    table(ROOT, "RSDT", (uint32_t)(at + 12 - ROOT));
    put(FADT + 36, FACS, 4), put(FADT + 40, DSDT, 4), put(FADT + 8, 1, 1), table(FADT, "FACP", 116);
    table(MADT, "APIC", 44), table(HPET, "HPET", 56), table(DSDT, "DSDT", 0x1010), table(FACS, "FACS", facs_length);
    there[0].address = ROOT;
    there[0].bytes = bytes_of_machine + ROOT;
    there[0].length = (facs_length < 64 ? FACS + facs_length : END) - ROOT; /* a short one ends the memory */
    there_count = 1;
    source->address = ROOT;
    source->start = ZACPI_START_RSDT;
}
/* Maps by these capacities what is named, and compares the regions, and the calls for a DSDT, a FACS and an HPET. */
struct want {
    const char *names;
    int kinds;
    uint32_t facs_length;
    size_t capacity, room, page;
    uint64_t found[8][2]; /* the regions' addresses and lengths */
    zacpi_status dsdt, facs, hpet;
};
static int maps(const struct want *want) {
    const struct zacpi_mapper mapper = {&mapped, map_machine, unmap, want->page};
    struct zacpi_source source = {0};
    const size_t length = strlen(want->names);
    const struct zacpi_signature *const wanted = (const struct zacpi_signature *)at_edge(want->names, length);
    struct zacpi_aml_table *const dsdt = (struct zacpi_aml_table *)painted_again(0, sizeof *dsdt);
    struct zacpi_facs *const facs = (struct zacpi_facs *)painted_again(1, sizeof *facs);
    struct zacpi_hpet_info *const hpet = (struct zacpi_hpet_info *)painted_again(2, sizeof *hpet);
    size_t i;
    int agreed;
    crowd(&source, want->kinds, want->facs_length);
    unit = want->page & (0 - want->page);
    are_kept = is_searching = 0;
    make_lists(want->capacity, want->room);
    agreed =
        !zacpi_map_wanted_tables(&mapper, &source, wanted, length / 4, regions, want->capacity, ranges, want->room);
    for (i = 0; i < source.regions_length && i < 8; i++)
        agreed &= regions[i].address == want->found[i][0] && regions[i].length == want->found[i][1];
    agreed &= (i == 8 || !want->found[i][1]) && zacpi_get_dsdt(&source, dsdt, NULL) == want->dsdt &&
              zacpi_get_facs(&source, facs, NULL) == want->facs && zacpi_get_hpet(&source, hpet, NULL) == want->hpet;
    zacpi_unmap_tables(&mapper, &source);
    forget();
    return agreed;
}
static int maps_wanted(void) {
    enum {
        UNMAPPED = ZACPI_MAP_FAILED,
        MISSING = ZACPI_TABLE_MISSING,
        SHORT = ZACPI_SDT_INVALID_LENGTH,
        LISTED = 4 * (3 * EACH + 3) + 36, /* length of the RSDT */
        FEW = 4 * 3 + 36,
        NONES_TOO = 4 * (EACH + 3) + 36
    };
    /* clang-format off */
    static const struct want wants[] = {
        {"APICFACPDSDT", CROWD, 64, 4, 2, 0x1000,
         {{ROOT, 0x1000}, {FADT, 0x1000}, {MADT, 0x1000}, {DSDT, 0x2000}}, 0, UNMAPPED, MISSING},
        {"FACPFACSHPET", CROWD, 64, 4, 9, 0x1000,
         {{ROOT, 0x1000}, {FADT, 0x1000}, {HPET, 0x1000}, {FACS, 0x1000}}, UNMAPPED, 0, 0},
        /* The FADT comes along with what it points to. */
        {"DSDTFACS", CROWD, 64, 4, 64, 0x1000,
         {{ROOT, 0x1000}, {FADT, 0x1000}, {DSDT, 0x2000}, {FACS, 0x1000}}, 0, 0, MISSING},
        {"FACS", CROWD, 64, 4, 64, 1, {{ROOT, LISTED}, {FADT, 116}, {FACS, 64}}, UNMAPPED, 0, MISSING},
        {"DSDT", CROWD, 64, 4, 64, 1, {{ROOT, LISTED}, {FADT, 116}, {DSDT, 0x1010}}, 0, UNMAPPED, MISSING},
        {"FACPDSDTFACS", CROWD, 64, 4, 1, 1,
         {{ROOT, LISTED}, {FADT, 116}, {DSDT, 0x1010}, {FACS, 64}}, 0, 0, MISSING},
        {"HPETFACPAPIC", CROWD, 64, 2, 64, 1, {{ROOT, LISTED}, {FADT, 116}}, UNMAPPED, UNMAPPED, MISSING},
        /* Without names the first tables in memory have the regions. */
        {"", CROWD, 64, 4, 64, 1,
         {{ROOT, LISTED}, {JUNK, 36}, {JUNK + 0x1000, 36}, {JUNK + 0x2000, 36}}, MISSING, MISSING, MISSING},
        /* What is no table has none of them but those that are left. */
        {"", NONES, 64, 6, 64, 1,
         {{ROOT, NONES_TOO}, {FADT, 116}, {MADT, 44}, {HPET, 56}, {DSDT, 0x1010}, {FACS, 64}}, 0, 0, 0},
        {"", NONES, 64, 6, 8, 0x1000,
         {{ROOT, 0x1000}, {FADT, 0x1000}, {MADT, 0x1000}, {HPET, 0x1000}, {DSDT, 0x2000}, {FACS, 0x1000}}, 0, 0, 0},
        {"", NONES, 64, 8, 64, 1,
         {{ROOT, NONES_TOO}, {NONE, 36}, {NONE + 0x2000, 36}, {FADT, 116}, {MADT, 44}, {HPET, 56}, {DSDT, 0x1010},
          {FACS, 64}}, 0, 0, 0},
        /* A FACS has to have 64 bytes. One of fewer ends the memory. */
        {"FACS", 0, 63, 4, 64, 1, {{ROOT, FEW}, {FADT, 116}, {FACS, 63}}, UNMAPPED, SHORT, MISSING},
        {"", 0, 36, 8, 64, 1,
         {{ROOT, FEW}, {FADT, 116}, {MADT, 44}, {HPET, 56}, {DSDT, 0x1010}, {FACS, 36}}, 0, SHORT, 0},
        /* Of a page that is no power of two counts the greatest that divides it: of 0x3000, 0x1000. */
        {"HPET", CROWD, 64, 4, 64, 0x3000, {{ROOT, 0x1000}, {HPET, 0x1000}}, MISSING, MISSING, 0},
    };
    /* clang-format on */
    size_t i;
    for (i = 0; i < sizeof wants / sizeof *wants; i++)
        if (!maps(&wants[i])) return fprintf(stderr, "at %s %lu\n", wants[i].names, (unsigned long)i), 0;
    return printf("%lu rows\n", (unsigned long)i), 1;
}

/* The machine that is searched: page 0 with the word at 0x40e; the page of the extended BIOS data area (EBDA), which
 * video memory follows; an RSDT at TABLES, and tables from there on; both halves of the BIOS area, and the page after
 * it. A row has which of these there are, and where RSDPs are. */
enum { TABLES = 0x10000, EBDA = 0x9f000, LOWER = 0xe0000, UPPER = 0xf0000, MIB = 0x100000 };
enum { WITH_WORD = 1, WITH_TABLES = 2, WITH_EBDA = 4, WITH_LOWER = 8, WITH_UPPER = 16, WITH_MIB = 32 };
enum { ALL = 63, USUAL = WITH_WORD | WITH_TABLES | WITH_EBDA | WITH_UPPER };
static const uint32_t parts[][2] = {{0, 0x1000},      {TABLES, 0x40000}, {EBDA, 0x1000},
                                    {LOWER, 0x10000}, {UPPER, 0x10000},  {MIB, 0x1000}};

struct search {
    int parts;
    uint32_t start;
    uint32_t word;        /* the EBDA's segment */
    uint32_t rsdps[2][2]; /* addresses, and the Length of each: 20 is one of revision 0 */
    uint32_t tables;      /* how many are listed */
    size_t capacity, room, page;
    zacpi_status status, opened;
    uint32_t found;  /* which RSDP */
    size_t searched; /* how many ranges the search requests, or 0 */
};
/* What the source accepts, and a byte of the first RSDP that isn't 0, at an offset: if that is a checksum's, the sum is
 * wrong. */
struct flaw {
    uint32_t accept, at, value;
};
/* Of the RSDP Checksum is at 8, Revision at 15, RsdtAddress at 16, Length at 20 and Extended Checksum at 32 (section
 * 5.2.5.3). */
static void put_rsdp(uint32_t address, uint32_t length) {
    uint8_t *const rsdp = bytes_of_machine + address;
    uint32_t i;
    memcpy(rsdp, "RSD PTR ", 8);
    put(address + 16, TABLES, 4);
    if (length > 20) put(address + 15, 2, 1), put(address + 20, length, 4);
    for (i = 0; i < 20; i++) rsdp[8] = (uint8_t)(rsdp[8] - (i == 8 ? 0 : rsdp[i]));
    for (i = 0; length > 20 && i < length; i++) rsdp[32] = (uint8_t)(rsdp[32] - (i == 32 ? 0 : rsdp[i]));
}
static void lay_out_search(const struct search *search, const struct flaw *flaw) {
    uint32_t i;
    memset(bytes_of_machine, 0, sizeof bytes_of_machine);
    put(0x40e, search->word, 2);
    for (i = 0; i < search->tables; i++) {
        put(TABLES + 36 + 4 * i, TABLES + 0x2000 * (i + 1), 4);
        table(TABLES + 0x2000 * (i + 1), "OEM1", 40);
    }
    table(TABLES, "RSDT", 36 + 4 * search->tables);
    put(search->rsdps[0][0] + flaw->at, flaw->value, 1);
    for (i = 0; i < 2; i++)
        if (search->rsdps[i][0]) put_rsdp(search->rsdps[i][0], search->rsdps[i][1]);
    for (i = 0, there_count = 0; i < 6; i++) {
        struct zacpi_region *const last = there_count ? &there[there_count - 1] : NULL;
        if (!(search->parts >> i & 1)) continue;
        if (last && last->address + last->length == parts[i][0]) last->length += parts[i][1];
        else {
            there[there_count].address = parts[i][0];
            there[there_count].bytes = bytes_of_machine + parts[i][0];
            there[there_count++].length = parts[i][1];
        }
    }
}
/* Whether the mapping leads to the row's RSDP, which the search over the whole memory finds too, and to all tables. */
static int finds(const struct search *search, const struct flaw *flaw) {
    const struct zacpi_mapper mapper = {&mapped, map_machine, unmap, search->page};
    struct zacpi_source source = {0}, whole = {0};
    struct zacpi_root *const root = (struct zacpi_root *)painted_again(1, sizeof *root), *of_whole;
    size_t *const count = (size_t *)painted_again(2, sizeof *count);
    zacpi_status status, opened;
    int agreed;
    lay_out_search(search, flaw);
    source.start = whole.start = search->start;
    source.accept = whole.accept = flaw->accept;
    whole.regions = again_all_at_edge(there, there_count);
    whole.regions_length = there_count;
    whole = after_search(whole);
    of_whole = (struct zacpi_root *)painted_again(0, sizeof *of_whole);
    unit = search->page;
    are_kept = 0;
    is_searching = 1;
    make_lists(search->capacity, search->room);
    status = zacpi_map_tables(&mapper, &source, regions, search->capacity, ranges, search->room);
    if (status || search->status) return forget(), status == search->status && !source.regions_length;
    opened = zacpi_open(&source, root, NULL);
    agreed = opened == search->opened && opened == zacpi_open(&whole, of_whole, NULL);
    agreed &= source.accept == flaw->accept && !memcmp(root, of_whole, sizeof *root);
    agreed &= source.start == whole.start && source.address == whole.address;
    if (!opened) agreed &= source.start == ZACPI_START_RSDP && source.address == search->found;
    if (search->searched) agreed &= searched == search->searched;
    if (!opened) agreed &= !zacpi_list_tables(&source, NULL, 0, count, NULL) && *count == search->tables;
    zacpi_unmap_tables(&mapper, &source);
    forget();
    return agreed;
}
static int maps_searches(void) {
    enum {
        SEARCH = ZACPI_START_SEARCH,
        BIOS = ZACPI_START_BIOS_SEARCH,
        FULL = ZACPI_NO_ROOM,
        UNMAPPED = ZACPI_MAP_FAILED,
        NOT_FOUND = ZACPI_NO_VALID_RSDP
    };
    /* clang-format off */
    static const struct search searches[] = {
        /* In the EBDA, at the end of memory; in the upper half alone; in both, of which the EBDA comes first. */
        {USUAL, SEARCH, 0x9fc0, {{0x9fc20, 36}}, 2, 10, 8, 0x1000, 0, 0, 0x9fc20, 0},
        {USUAL, SEARCH, 0x9fc0, {{0xf59e0, 20}}, 2, 10, 8, 0x1000, 0, 0, 0xf59e0, 0},
        {USUAL, SEARCH, 0x9fc0, {{0x9fc20, 36}, {0xf59e0, 20}}, 2, 10, 8, 0x1000, 0, 0, 0x9fc20, 0},
        {USUAL, SEARCH, 0x9fc0, {{0x9fc20, 36}, {0xf59e0, 20}}, 2, 10, 8, 1, 0, 0, 0x9fc20, 0},
        {ALL, SEARCH, 0x9fc0, {{0xe0000, 36}, {0xf59e0, 20}}, 2, 10, 8, 0x10000, 0, 0, 0xe0000, 0},
        /* Without the word; with a word of no EBDA. Byte by byte nothing is at a null pointer. */
        {USUAL & ~WITH_WORD, SEARCH, 0x9fc0, {{0x9fc20, 36}, {0xf59e0, 20}}, 2, 10, 8, 0x1000, 0, 0, 0xf59e0, 0},
        {USUAL, SEARCH, 0, {{0xf59e0, 20}}, 2, 10, 8, 1, 0, 0, 0xf59e0, 0},
        {USUAL, SEARCH, 0xffff, {{0xf59e0, 20}}, 2, 10, 8, 1, 0, 0, 0xf59e0, 0},
        /* The EBDA begins at 0x400 or above; an RSDP has 20 bytes in its KiB. */
        {USUAL, SEARCH, 0x3f, {{0x400, 20}, {0xf59e0, 20}}, 2, 10, 8, 0x1000, 0, 0, 0xf59e0, 0},
        {USUAL, SEARCH, 0x9f00, {{0x9f3f0, 20}, {0xf59e0, 20}}, 2, 10, 8, 0x1000, 0, 0, 0xf59e0, 0},
        {USUAL, SEARCH, 0x9f00, {{0x9f3e0, 20}, {0xf59e0, 20}}, 2, 10, 8, 0x1000, 0, 0, 0x9f3e0, 0},
        /* The last one of the BIOS area ends 4 bytes after it: 36 bytes have to be there. */
        {USUAL | WITH_MIB, SEARCH, 0x9fc0, {{0xfffe0, 20}}, 2, 10, 8, 0x1000, 0, 0, 0xfffe0, 0},
        {USUAL | WITH_MIB, SEARCH, 0x9fc0, {{0xfffe0, 20}}, 2, 10, 8, 1, 0, 0, 0xfffe0, 0},
        {USUAL, SEARCH, 0x9fc0, {{0xfffe0, 20}}, 2, 10, 8, 0x1000, 0, NOT_FOUND, 0, 0},
        {USUAL, SEARCH, 0x9fc0, {{0}}, 2, 10, 8, 0x1000, 0, NOT_FOUND, 0, 0},
        {0, SEARCH, 0x9fc0, {{0}}, 2, 10, 8, 0x1000, 0, NOT_FOUND, 0, 0},
        /* One whose Length reaches past its area is mapped first; one that reaches past the memory is skipped. */
        {USUAL, SEARCH, 0x9f00, {{0x9f3d0, 0x100}, {0xf59e0, 20}}, 2, 10, 1, 1, 0, 0, 0x9f3d0, 0},
        {USUAL, SEARCH, 0x41, {{0x7f0, 0x100}, {0xf59e0, 20}}, 2, 10, 1, 1, 0, 0, 0x7f0, 0},
        {USUAL, SEARCH, 0x9f00, {{0x9f3e0, 0x1000}, {0xf59e0, 20}}, 2, 10, 2, 1, 0, 0, 0xf59e0, 0},
        {USUAL, SEARCH, 0x9f00, {{0x9f3e0, 0x1000}, {0xf59e0, 20}}, 2, 10, 2, 0x1000, 0, 0, 0xf59e0, 0},
        {USUAL, SEARCH, 0x9f00, {{0x9f3e0, 0x1000}, {0xf59e0, 20}}, 2, 10, 1, 1, FULL, 0, 0, 0},
        {USUAL, SEARCH, 0x9f00, {{0x9f3e0, 0x1000}, {0xf59e0, 20}}, 2, 10, 0, 1, FULL, 0, 0, 0},
        /* A region for each piece of the areas, also if the first has an RSDP. */
        {USUAL, SEARCH, 0x9fc0, {{0x9fc20, 36}}, 2, 2, 8, 0x1000, FULL, 0, 0, 0},
        {USUAL, SEARCH, 0x9fc0, {{0xf59e0, 20}}, 2, 2, 8, 0x1000, FULL, 0, 0, 0},
        {USUAL, SEARCH, 0x9fc0, {{0xf59e0, 20}}, 0, 3, 8, 0x1000, 0, 0, 0xf59e0, 0},
        {USUAL, SEARCH, 0x9fc0, {{0xf59e0, 20}}, 0, 0, 8, 0x1000, FULL, 0, 0, 0},
        /* The word, the KiB and the BIOS area are a range each. Else each page of an area is one, after the area
         * itself: of the KiB two, of the BIOS area 33, or if a page has 64 KiB three. */
        {ALL, SEARCH, 0x9f00, {{0xf59e0, 20}}, 2, 10, 8, 0x1000, 0, 0, 0xf59e0, 3},
        {ALL, SEARCH, 0x9f00, {{0xf59e0, 20}}, 2, 10, 8, 1, 0, 0, 0xf59e0, 3},
        {USUAL, SEARCH, 0x9fc0, {{0xf59e0, 20}}, 2, 10, 8, 0x1000, 0, 0, 0xf59e0, 1 + 3 + 34},
        {USUAL, SEARCH, 0, {{0xf59e0, 20}}, 2, 10, 8, 0x10000, 0, 0, 0xf59e0, 1 + 4},
        /* Nine tables are below 1 MiB too: they are none of a search's, for which eight ranges are enough. */
        {USUAL, SEARCH, 0x9fc0, {{0xf59e0, 20}}, 9, 17, 8, 0x1000, 0, 0, 0xf59e0, 0},
        {ALL, BIOS, 0x9fc0, {{0xf59e0, 20}}, 9, 17, 8, 1, 0, 0, 0xf59e0, 0},
        /* The other search looks at the BIOS area first, and wants each area in one range. */
        {ALL, BIOS, 0x9f00, {{0x9f020, 36}, {0xf59e0, 20}}, 2, 10, 8, 0x1000, 0, 0, 0xf59e0, 0},
        {ALL, BIOS, 0x9f00, {{0x9f020, 36}}, 2, 10, 8, 0x1000, 0, 0, 0x9f020, 0},
        {ALL & ~WITH_LOWER, BIOS, 0x9f00, {{0xf59e0, 20}}, 2, 10, 8, 0x1000, 0, UNMAPPED, 0, 0},
    };
    /* clang-format on */
    static const struct flaw none = {0, 0, 0};
    size_t i;
    for (i = 0; i < sizeof searches / sizeof *searches; i++)
        if (!finds(&searches[i], &none)) return fprintf(stderr, "at search %lu\n", (unsigned long)i), 0;
    return printf("%lu searches\n", (unsigned long)i), 1;
}

/* Searches of RSDPs with an error, OEMID at 9, Revision at 15, or Extended Checksum at 32, that the source accepts or
 * not. */
static int maps_accepted(void) {
    enum {
        SEARCH = ZACPI_START_SEARCH,
        BIOS = ZACPI_START_BIOS_SEARCH,
        IDS = ZACPI_ACCEPT_RSDP_IDS,
        REVISION = ZACPI_ACCEPT_RSDP_REVISION,
        FIRST = ZACPI_ACCEPT_RSDP_FIRST,
        EACH_BIT = 31,
        NOT_FOUND = ZACPI_NO_VALID_RSDP
    };
    /* clang-format off */
    static const struct {
        struct flaw flaw;
        struct search search;
    } all[] = {
        {{0, 9, 0xff}, {ALL, SEARCH, 0x9f00, {{0xf59e0, 36}}, 2, 10, 8, 0x1000, 0, NOT_FOUND, 0, 0}},
        {{EACH_BIT & ~IDS, 9, 0xff}, {ALL, BIOS, 0x9f00, {{0xf59e0, 36}}, 2, 10, 8, 0x1000, 0, NOT_FOUND, 0, 0}},
        {{IDS, 9, 0xff}, {ALL, SEARCH, 0x9f00, {{0xf59e0, 36}}, 2, 10, 8, 0x1000, 0, 0, 0xf59e0, 0}},
        {{IDS, 9, 0xff}, {ALL, BIOS, 0x9f00, {{0xf59e0, 20}}, 2, 10, 8, 1, 0, 0, 0xf59e0, 0}},
        {{0, 15, 1}, {ALL, SEARCH, 0x9f00, {{0xf59e0, 20}}, 2, 10, 8, 0x1000, 0, NOT_FOUND, 0, 0}},
        {{REVISION, 15, 1}, {ALL, SEARCH, 0x9f00, {{0xf59e0, 20}}, 2, 10, 8, 1, 0, 0, 0xf59e0, 0}},
        {{REVISION, 15, 1}, {ALL, BIOS, 0x9f00, {{0x9f020, 20}}, 2, 10, 8, 0x1000, 0, 0, 0x9f020, 0}},
        {{EACH_BIT & ~FIRST, 32, 1}, {ALL, SEARCH, 0x9f00, {{0xf59e0, 36}}, 2, 10, 8, 0x1000, 0, NOT_FOUND, 0, 0}},
        {{FIRST, 32, 1}, {ALL, SEARCH, 0x9f00, {{0xf59e0, 36}}, 2, 10, 8, 1, 0, 0, 0xf59e0, 0}},
        {{FIRST, 32, 1}, {ALL, BIOS, 0x9f00, {{0xf59e0, 36}}, 2, 10, 8, 0x1000, 0, 0, 0xf59e0, 0}},
        /* The first that is accepted counts; bytes of a Length that are there are mapped before they count as missing,
         * and those that aren't take a range. */
        {{FIRST, 32, 1}, {USUAL, SEARCH, 0x9fc0, {{0x9fc20, 36}, {0xf59e0, 20}}, 2, 10, 8, 1, 0, 0, 0x9fc20, 0}},
        {{IDS, 32, 1}, {USUAL, SEARCH, 0x9fc0, {{0x9fc20, 36}, {0xf59e0, 20}}, 2, 10, 8, 1, 0, 0, 0xf59e0, 0}},
        {{FIRST, 0, 0}, {USUAL, SEARCH, 0x9f00, {{0x9f3d0, 0x100}}, 2, 10, 1, 1, 0, 0, 0x9f3d0, 0}},
        {{FIRST, 32, 1}, {USUAL, SEARCH, 0x9f00, {{0x9f3d0, 0x100}}, 2, 10, 1, 1, 0, 0, 0x9f3d0, 0}},
        {{FIRST, 0, 0}, {USUAL, SEARCH, 0x9f00, {{0x9f3e0, 0x1000}}, 2, 10, 3, 1, 0, 0, 0x9f3e0, 0}},
        {{32, 0, 0}, {USUAL, SEARCH, 0x9fc0, {{0xf59e0, 20}}, 2, 10, 8, 1, ZACPI_UNKNOWN_POLICY, 0, 0, 0}},
    };
    /* clang-format on */
    size_t i;
    for (i = 0; i < sizeof all / sizeof *all; i++)
        if (!finds(&all[i].search, &all[i].flaw)) return fprintf(stderr, "at RSDP %lu\n", (unsigned long)i), 0;
    return printf("%lu RSDPs\n", (unsigned long)i), 1;
}
#endif
