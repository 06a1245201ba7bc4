/* Sweeps over tables laid out by hand: each table's memory as two regions that touch, cut at each place, and each byte
 * of a table but its Length changed to each other value, the ids also with a sum that is right or accepted. No lookup
 * may take such a table: that by its signature and that of its own type refuse, nothing is written but the signature,
 * and the list of faults has why it is passed over. And each byte of RSDPs changed to each other value, by what is
 * accepted of them. Prints those that fail, and how many memories were tried. The status is 0 if all hold. With `end` or
 * `begin` each region and each output is at a page that can't be touched (edges.h).
 * cc -std=c99 -Iinclude tests/c/sweeps.c ARCHIVE */
#define _DEFAULT_SOURCE
#include "edges.h"

#define PAINT 0xa5

#define AT(address, table) \
    { address, table, sizeof table }
enum { LENGTH = 4, REVISION = 8, OEMID = 10, OEM_TABLE_ID = 16, OEM_REVISION = 24 }; /* fields (section 5.2.6) */

/* ---- Tables ------------------------------------------------------------------------------------------- */

/* One table of each type that has a lookup of its own, each shorter than its layout, or ending in the front of an
 * entry, and an RSDT that lists them. Byte 9 is Checksum. */
/* clang-format off */
static uint8_t rsdt[64] = {'R', 'S', 'D', 'T', 64, [9] = 0xe3, [37] = 0x20, [41] = 0x30, [45] = 0x40, [49] = 0x60,
    [53] = 0x80, [57] = 0x90, [61] = 0xa0};
static uint8_t facp[116] = {'F', 'A', 'C', 'P', 116, [8] = 0x02, 0xeb, [41] = 0x70, [45] = 0x02, [76] = 0x08, 0x06,
    [91] = 0x04, [113] = 0x01};
static uint8_t apic[76] = {'A', 'P', 'I', 'C', 76, [9] = 0x2e, [38] = 0xe0, 0xfe, [45] = 0x08, 0x01, 0x02, 0x01,
    [53] = 0x08, 0x03, 0x04, [60] = 0x10, 0x10, [69] = 0x50};
static uint8_t hpet[56] = {'H', 'P', 'E', 'T', 56, [9] = 0xee, [41] = 0x40, [43] = 0x09, [46] = 0xd0, 0xfe,
    [53] = 0x80, 0x00, 0x12};
static uint8_t mcfg[75] = {'M', 'C', 'F', 'G', 75, [9] = 0x8a, [47] = 0xe0, [55] = 0x0f, [63] = 0xf0,
    [70] = 0x10, 0x1f};
/* clang-format on */
static uint8_t dsdt[40] = {'D', 'S', 'D', 'T', 40, [9] = 0x9f, [36] = 0x01, 0x02, 0x03, 0x04};
static uint8_t bgrt[56] = {'B', 'G', 'R', 'T', 56, [9] = 0x93, [36] = 0x01, 0x00, 0x05};
static uint8_t spcr[80] = {'S', 'P', 'C', 'R', 80, [8] = 0x02, 0x6a, [52] = 0x01, 0x04, [58] = 0x07};
static uint8_t ssdt[40] = {'S', 'S', 'D', 'T', 40, [9] = 0x90, [36] = 0x01, 0x02, 0x03, 0x04};
static const struct zacpi_region each_type[] = {AT(0x1000, rsdt), AT(0x2000, facp), AT(0x3000, apic),
                                                AT(0x4000, hpet), AT(0x6000, mcfg), AT(0x7000, dsdt),
                                                AT(0x8000, bgrt), AT(0x9000, spcr), AT(0xa000, ssdt)};

/* A boot graphic alone, and its RSDT. */
static uint8_t short_rsdt[40] = {'R', 'S', 'D', 'T', 40, [9] = 0x7b, [37] = 0x20};
static const struct zacpi_region graphic[] = {AT(0x1000, short_rsdt), AT(0x2000, bgrt)};

/* ---- Lookups ------------------------------------------------------------------------------------------ */

/* The outputs of a call. They are painted before it. */
static void *out;
static size_t out_size, *count;
static struct zacpi_signature *named;

static void *paint(size_t size) {
    count = (size_t *)painted_again(1, sizeof *count);
    named = (struct zacpi_signature *)painted_again(2, sizeof *named);
    out_size = size;
    return out = painted_again(0, size);
}

/* The lookup of a type: a call that asks for a table of this type before all else. */
typedef zacpi_status lookup(const struct zacpi_source *source);
#define LOOKUP(name, type, call, ...) \
    static zacpi_status find_##name(const struct zacpi_source *s) { \
        struct type *const to = (struct type *)paint(sizeof *to); \
        return zacpi_##call(s, __VA_ARGS__, named); \
    }
LOOKUP(facp, zacpi_fixed_hardware, get_fixed_hardware, to)
LOOKUP(apic, zacpi_gic_distributor, get_gic_distributor, to)
LOOKUP(hpet, zacpi_hpet_info, get_hpet, to)
LOOKUP(mcfg, zacpi_pci_region, list_pci_regions, to, 1, count)
LOOKUP(bgrt, zacpi_boot_graphic, get_boot_graphic, to)
LOOKUP(spcr, zacpi_console, get_console, to)
LOOKUP(local_apic, zacpi_local_apic, get_local_apic, to)

/* A table that is swept over: region `index` of a memory. */
static const struct swept {
    const char *name;
    const struct zacpi_region *regions;
    size_t regions_length, index;
    lookup *find;
    zacpi_status found; /* what it answers over the memory as it is: this MADT describes no GIC */
} tables[] = {
    {"FACP", each_type, 9, 1, find_facp, ZACPI_OK}, {"APIC", each_type, 9, 2, find_apic, ZACPI_NO_GIC},
    {"HPET", each_type, 9, 3, find_hpet, ZACPI_OK}, {"MCFG", each_type, 9, 4, find_mcfg, ZACPI_OK},
    {"BGRT", each_type, 9, 6, find_bgrt, ZACPI_OK}, {"SPCR", each_type, 9, 7, find_spcr, ZACPI_OK},
    {"BGRT", graphic, 2, 1, find_bgrt, ZACPI_OK},   {"APIC", each_type, 9, 2, find_local_apic, ZACPI_OK},
};

/* ---- Sweeps ------------------------------------------------------------------------------------------- */

static unsigned long tried, failed;

static void result(int holds, const struct swept *table, const char *what, size_t place, unsigned value) {
    tried++;
    if (holds) return;
    failed++;
    printf("FAILED: %s of %lu regions, %s %lu, %u\n", table->name, (unsigned long)table->regions_length, what,
           (unsigned long)place, value);
}

static struct zacpi_signature signature_of(const struct swept *table) {
    struct zacpi_signature made;
    memcpy(made.letters, table->name, 4);
    return made;
}

/* Whether bytes are painted. */
static int are_painted(const void *bytes, size_t length) {
    const uint8_t *byte = bytes;
    while (length--)
        if (*byte++ != PAINT) return 0;
    return 1;
}

/* Whether a refusal says that the table is missing, and writes nothing but its signature. */
static int says_missing(const struct swept *table, zacpi_status status) {
    return status == ZACPI_TABLE_MISSING && !memcmp(named->letters, table->name, 4) && are_painted(out, out_size) &&
           are_painted(count, sizeof *count);
}

/* The lookup by the signature, and the list of faults, which has room for two. */
static zacpi_status find(const struct swept *table, const struct zacpi_source *source) {
    struct zacpi_table *const to = (struct zacpi_table *)paint(sizeof *to);
    return zacpi_find_table(source, signature_of(table), to, named);
}
static const struct zacpi_fault *faults_of(const struct swept *table, const struct zacpi_source *source) {
    struct zacpi_fault *const to = (struct zacpi_fault *)paint(2 * sizeof *to);
    return zacpi_list_faults(source, signature_of(table), to, 2, count, named) ? NULL : to;
}

/* Whether no lookup takes the table, and it is listed with this fault alone, or not at all if this is 0. */
static int is_passed_over(const struct swept *table, const struct zacpi_source *source, zacpi_status fault) {
    const struct zacpi_fault *faults;
    if (!says_missing(table, find(table, source)) || !says_missing(table, table->find(source))) return 0;
    faults = faults_of(table, source);
    if (!faults || !fault) return faults && *count == 0 && are_painted(out, out_size);
    return *count == 1 && faults[0].address == table->regions[table->index].address && faults[0].status == fault &&
           are_painted(&faults[1], sizeof faults[1]);
}

/* Whether each lookup takes the table as it is, and passes over nothing: else a refusal would show nothing. */
static int is_found(const struct swept *table) {
    const struct zacpi_source source = {table->regions, table->regions_length, 0x1000, ZACPI_START_RSDT, 0};
    const struct zacpi_region *region = &table->regions[table->index];
    const struct zacpi_table *found;
    if (find(table, &source)) return 0;
    found = (const struct zacpi_table *)out;
    if (found->address != region->address || found->length != region->length) return 0;
    return table->find(&source) == table->found && faults_of(table, &source) && *count == 0;
}

/* The table in two regions, cut at each place. */
static void sweep_cuts(const struct swept *table) {
    struct zacpi_region regions[10];
    struct zacpi_source source = {regions, table->regions_length + 1, 0x1000, ZACPI_START_RSDT, 0};
    struct zacpi_region *front = &regions[table->index], *rest = front + 1;
    size_t after = table->regions_length - table->index, whole = table->regions[table->index].length, cut;
    memcpy(regions, table->regions, table->index * sizeof *regions);
    memcpy(rest, table->regions + table->index, after * sizeof *regions);
    *front = *rest;
    for (cut = 1; cut < whole; cut++) {
        front->length = cut;
        rest->address = front->address + cut;
        rest->bytes = front->bytes + cut;
        rest->length = whole - cut;
        source.regions = all_at_edge(regions, table->regions_length + 1);
        result(is_passed_over(table, &source, ZACPI_MAP_FAILED), table, "cut at", cut, 0);
    }
}

/* Why a table is passed over that has this value in one byte, where both its texts were zeros: it bears another
 * signature, which is no fault, a text isn't UTF-8, or it doesn't sum to 0. */
static zacpi_status fault_of(size_t offset, uint8_t value) {
    if (offset < LENGTH) return ZACPI_OK;
    if (value >= 0x80 && OEMID <= offset && offset < OEM_TABLE_ID) return ZACPI_SDT_INVALID_OEM_ID;
    if (value >= 0x80 && OEM_TABLE_ID <= offset && offset < OEM_REVISION) return ZACPI_SDT_INVALID_TABLE_ID;
    return ZACPI_SDT_INVALID_CHECKSUM;
}

/* The bytes of the table, and its regions with these. */
static uint8_t *to_be_changed(const struct swept *table, struct zacpi_region *regions) {
    const struct zacpi_region *region = &table->regions[table->index];
    uint8_t *bytes = (uint8_t *)at_edge(region->bytes, region->length);
    memcpy(regions, all_at_edge(table->regions, table->regions_length), table->regions_length * sizeof *regions);
    regions[table->index].bytes = bytes;
    return bytes;
}

/* The table with another value in one byte, each byte but those of Length and each other value. */
static void sweep_bytes(const struct swept *table) {
    struct zacpi_region regions[9];
    const struct zacpi_source source = {regions, table->regions_length, 0x1000, ZACPI_START_RSDT, 0};
    const struct zacpi_region *region = &table->regions[table->index];
    uint8_t *bytes = to_be_changed(table, regions);
    size_t offset;
    unsigned bits;
    for (offset = 0; offset < region->length; offset++) {
        if (LENGTH <= offset && offset < REVISION) continue;
        for (bits = 1; bits < 256; bits++) {
            bytes[offset] ^= (uint8_t)bits;
            result(is_passed_over(table, &source, fault_of(offset, bytes[offset])), table, "byte", offset,
                   bytes[offset]);
            bytes[offset] ^= (uint8_t)bits;
        }
    }
}

/* The ids with another value in one byte, where the sum is right, or isn't looked at: ASCII is accepted. */
static void sweep_ids(const struct swept *table, uint32_t accept) {
    struct zacpi_region regions[9];
    const struct zacpi_source source = {regions, table->regions_length, 0x1000, ZACPI_START_RSDT, accept};
    uint8_t *bytes = to_be_changed(table, regions);
    size_t offset;
    unsigned bits;
    for (offset = OEMID; offset < OEM_REVISION; offset++) {
        for (bits = 1; bits < 256; bits++) {
            int holds;
            bytes[offset] ^= (uint8_t)bits;
            if (!accept) zacpi_set_checksum(bytes, table->regions[table->index].length);
            if (bytes[offset] < 0x80) holds = !find(table, &source) && table->find(&source) == table->found;
            else holds = is_passed_over(table, &source, fault_of(offset, bytes[offset]));
            result(holds, table, "id's byte", offset, bytes[offset]);
            bytes[offset] ^= (uint8_t)bits;
        }
    }
}

/* ---- RSDPs -------------------------------------------------------------------------------------------- */

/* Of Revision 0, 1 and 2, at 15, and of 40 bytes, by Length, at 20 (section 5.2.5.3). RsdtAddress, at 16, and
 * XsdtAddress, at 24, are those of the two root tables. */
enum { RSDP_SIZE = 40, RSDP_CHECKSUM = 8, EXTENDED_CHECKSUM = 32 };
#define RSDP(revision, length) \
    { 'R', 'S', 'D', ' ', 'P', 'T', 'R', ' ', [15] = revision, 0, 0x20, [20] = length, [25] = 0x30, [36] = 1, 2, 3, 4 }
static const uint8_t rsdps[][RSDP_SIZE] = {RSDP(0, 0), RSDP(1, 36), RSDP(2, 36), RSDP(2, 40)};
static uint8_t two_roots[2][36] = {{'R', 'S', 'D', 'T', 36, [9] = 0x9f}, {'X', 'S', 'D', 'T', 36, [9] = 0x99}};

/* What a changed RSDP is by the header, where as many bytes are mapped, and whether only its first 20 bytes count. Of an
 * OEMID no other byte is above 0x7f, so it isn't UTF-8 with one. */
static zacpi_status status_of_rsdp(const uint8_t *bytes, uint32_t accept, int *is_first) {
    const uint64_t length = bytes[20] | bytes[21] << 8 | bytes[22] << 16 | (uint64_t)bytes[23] << 24;
    zacpi_status rest = ZACPI_OK;
    size_t i;
    if (memcmp(bytes, "RSD PTR ", 8)) return ZACPI_RSDP_INCORRECT_SIGNATURE;
    for (i = 9; i < 15; i++)
        if (bytes[i] > 0x7f && !(accept & ZACPI_ACCEPT_RSDP_IDS)) return ZACPI_RSDP_INVALID_OEM_ID;
    if (zacpi_byte_sum(bytes, 20)) return ZACPI_RSDP_INVALID_CHECKSUM;
    *is_first = 1;
    if (!bytes[15] || (bytes[15] == 1 && accept & ZACPI_ACCEPT_RSDP_REVISION)) return ZACPI_OK;
    if (length > RSDP_SIZE) rest = ZACPI_MAP_FAILED;
    else if (length < 36 || zacpi_byte_sum(bytes, (size_t)length)) rest = ZACPI_RSDP_INVALID_CHECKSUM;
    *is_first = rest != ZACPI_OK;
    return accept & ZACPI_ACCEPT_RSDP_FIRST ? (zacpi_status)ZACPI_OK : rest;
}

/* Whether each call takes it so: by its address, and a copy of it. */
static int is_read_so(const struct zacpi_source *source, const uint8_t *bytes) {
    struct zacpi_source copied = *source;
    struct zacpi_rsdp *const rsdp = (struct zacpi_rsdp *)paint(sizeof *rsdp);
    struct zacpi_root root = {0, 0, 0, 0, {0, 0}, 0, 0, {0, 0, 0, 0}};
    int is_first = 0;
    zacpi_status wanted = status_of_rsdp(bytes, source->accept, &is_first);
    if (zacpi_get_rsdp(source, rsdp, named) != wanted) return 0;
    if (zacpi_start_of_rsdp(bytes, RSDP_SIZE, &copied) != wanted) return 0;
    if (wanted) return are_painted(out, out_size) && zacpi_open(source, &root, NULL) == wanted;
    if (rsdp->revision != (is_first ? 0 : bytes[15]) || (rsdp->length == 20) != is_first) return 0;
    if (is_first && rsdp->xsdt_address) return 0;
    if (copied.start != (uint32_t)(rsdp->xsdt_address ? ZACPI_START_XSDT : ZACPI_START_RSDT)) return 0;
    if (copied.address != (rsdp->xsdt_address ? rsdp->xsdt_address : rsdp->rsdt_address)) return 0;
    wanted = zacpi_open(source, &root, NULL);
    if (copied.address != (rsdp->xsdt_address ? 0x3000 : 0x2000)) return wanted != ZACPI_OK;
    return !wanted && root.address == copied.address && root.rsdp_length == rsdp->length;
}

/* An RSDP with another value in one byte, where both sums are made right after that, or neither is. */
static void sweep_rsdp(const uint8_t *given, uint32_t accept, int is_summed) {
    uint8_t *const bytes = (uint8_t *)at_edge(given, RSDP_SIZE);
    const struct zacpi_region memory[] = {
        {0x1000, bytes, RSDP_SIZE}, {0x2000, two_roots[0], 36}, {0x3000, two_roots[1], 36}};
    const struct zacpi_source source = {memory, 3, 0x1000, ZACPI_START_RSDP, accept};
    const size_t length = given[20] ? given[20] : 36;
    size_t offset;
    unsigned bits;
    for (offset = 0; offset < RSDP_SIZE; offset++)
        for (bits = 0; bits < 256; bits++) {
            memcpy(bytes, given, RSDP_SIZE);
            bytes[RSDP_CHECKSUM] = (uint8_t)-zacpi_byte_sum(bytes, 20);
            bytes[EXTENDED_CHECKSUM] = (uint8_t)-zacpi_byte_sum(bytes, length);
            bytes[offset] ^= (uint8_t)bits;
            if (is_summed) bytes[RSDP_CHECKSUM] = (uint8_t)(bytes[RSDP_CHECKSUM] - zacpi_byte_sum(bytes, 20));
            if (is_summed)
                bytes[EXTENDED_CHECKSUM] = (uint8_t)(bytes[EXTENDED_CHECKSUM] - zacpi_byte_sum(bytes, length));
            tried++;
            if (is_read_so(&source, bytes)) continue;
            failed++;
            printf("FAILED: an RSDP of Revision %u, %lu bytes, accept %lu, byte %lu, %u\n", given[15],
                   (unsigned long)length, (unsigned long)accept, (unsigned long)offset, bytes[offset]);
        }
}
static void sweep_rsdps(void) {
    static const uint32_t accepted[] = {0, ZACPI_ACCEPT_RSDP_IDS, ZACPI_ACCEPT_RSDP_REVISION, ZACPI_ACCEPT_RSDP_FIRST,
                                        31};
    size_t i, k;
    for (i = 0; i < sizeof rsdps / sizeof *rsdps; i++)
        for (k = 0; k < sizeof accepted / sizeof *accepted; k++) {
            sweep_rsdp(rsdps[i], accepted[k], 0);
            sweep_rsdp(rsdps[i], accepted[k], 1);
        }
}

int main(int argc, char **argv) {
    const struct swept *table = tables;
    if (!edge_of(argc, argv)) return 2;
    for (; table < tables + sizeof tables / sizeof *tables; table++) {
        result(is_found(table), table, "as it is", 0, 0);
        sweep_cuts(table);
        sweep_bytes(table);
        sweep_ids(table, 0);
        sweep_ids(table, ZACPI_ACCEPT_SUMS);
    }
    sweep_rsdps();
    printf("%lu memories\n", tried);
    return failed ? 1 : 0;
}
