/* Rows of the calls that are passed bytes or regions alone, with what each has to answer, worked out by hand from the
 * bytes below. For rows.c. */
#ifndef ROWS_BYTES_H
#define ROWS_BYTES_H
#include "zacpi_tables.h"

/* ---- zacpi_locate --------------------------------------------------------------------------------------- */

/* Two regions that touch, an empty one at their end, one of 8 bytes, and one that ends as high as one can. */
static const uint8_t sixteen[16];
static const struct zacpi_region placed[] = {{0x1000, sixteen, 16}, {0x1010, sixteen, 16}, {0x1020, sixteen, 0},
                                            {0x2000, sixteen, 8}, {ONES - 16, sixteen, 16}};
static const struct zacpi_region placed_over[] = {{0x1000, sixteen, 16}, {0x100f, sixteen, 1}};
static const struct zacpi_region placed_too_high[] = {{0x1000, sixteen, 16}, {ONES - 15, sixteen, 16}};
/* Two at fault, each before the other: a region that begins too low, and one that ends too high. */
static const struct zacpi_region placed_low_first[] = {{0x1000, sixteen, 16}, {0x100f, sixteen, 1}, {ONES, sixteen, 1}};
static const struct zacpi_region placed_high_first[] = {{0x1000, sixteen, 16}, {ONES, sixteen, 1}, {0x100f, sixteen, 1}};
#define REGIONS(regions) regions, sizeof(regions) / sizeof *(regions)

static const struct place_row {
    const struct zacpi_region *regions;
    size_t regions_length;
    uint64_t address, length;
    zacpi_status status;
    uint64_t values[2]; /* the index of the region, and the offset in it */
} places[] = {
    {REGIONS(placed), 0x1000, 16, ZACPI_OK, {0, 0}},
    {REGIONS(placed), 0x1004, 12, ZACPI_OK, {0, 4}},
    {REGIONS(placed), 0x1004, 13, ZACPI_MAP_FAILED, {0, 0}}, /* regions that touch aren't joined */
    {REGIONS(placed), 0x100f, 1, ZACPI_OK, {0, 15}},
    {REGIONS(placed), 0x1010, 1, ZACPI_OK, {1, 0}},
    {REGIONS(placed), 0x1010, 16, ZACPI_OK, {1, 0}},
    {REGIONS(placed), 0x101f, 1, ZACPI_OK, {1, 15}},
    {REGIONS(placed), 0x101f, 2, ZACPI_MAP_FAILED, {0, 0}},
    {REGIONS(placed), 0x1020, 0, ZACPI_MAP_FAILED, {0, 0}}, /* no byte of an empty region, nor after the last one */
    {REGIONS(placed), 0x1020, 1, ZACPI_MAP_FAILED, {0, 0}},
    {REGIONS(placed), 0x1000, 0, ZACPI_OK, {0, 0}},
    {REGIONS(placed), 0x2007, 0, ZACPI_OK, {3, 7}},
    {REGIONS(placed), 0x2000, 8, ZACPI_OK, {3, 0}},
    {REGIONS(placed), 0x2008, 0, ZACPI_MAP_FAILED, {0, 0}},
    {REGIONS(placed), 0x1fff, 1, ZACPI_MAP_FAILED, {0, 0}},
    {REGIONS(placed), 0xfff, 1, ZACPI_MAP_FAILED, {0, 0}},
    {REGIONS(placed), 0, 0, ZACPI_MAP_FAILED, {0, 0}},
    {REGIONS(placed), ONES - 16, 16, ZACPI_OK, {4, 0}},
    {REGIONS(placed), ONES - 1, 1, ZACPI_OK, {4, 15}},
    {REGIONS(placed), ONES, 0, ZACPI_MAP_FAILED, {0, 0}},
    {REGIONS(placed), ONES - 1, ONES, ZACPI_MAP_FAILED, {0, 0}}, /* the range ends above 2^64 */
    {REGIONS(placed), 0x1000, ONES, ZACPI_MAP_FAILED, {0, 0}},
    {placed, 0, 0x1000, 1, ZACPI_MAP_FAILED, {0, 0}},
    {placed, 1, 0x100f, 1, ZACPI_OK, {0, 15}},
    {placed, 2, 0x1010, 1, ZACPI_OK, {1, 0}},
    {REGIONS(placed_over), 0x1000, 1, ZACPI_REGIONS_NOT_ASCENDING, {0, 0}},
    {REGIONS(placed_too_high), 0x1000, 1, ZACPI_REGION_TOO_HIGH, {0, 0}},
    {REGIONS(placed_low_first), 0x1000, 1, ZACPI_REGIONS_NOT_ASCENDING, {0, 0}},
    {REGIONS(placed_high_first), 0x1000, 1, ZACPI_REGION_TOO_HIGH, {0, 0}}};

static const struct call call_locate = {"locate", NULL, of_place, sizeof(struct zacpi_place), 0};

static void check_place(const struct place_row *row) {
    const zacpi_status got = zacpi_locate(row->regions, row->regions_length, row->address, row->length,
                                          (struct zacpi_place *)paint(&out, sizeof(struct zacpi_place)));
    result(got == row->status && is_written(&call_locate, row->values, row->status ? 0 : 1), "locate",
           (int)(row - places), 1, got);
}

/* ---- zacpi_list_entries ----------------------------------------------------------------------------------- */

/* Tables that no root table lists. Byte 4 is Length, and byte 9 Checksum. The first has three entries: a Local APIC, an
 * I/O APIC, and one of a Type that nothing defines, of Type and Length alone. */
static const uint8_t madt_whole[66] = {'A', 'P', 'I', 'C', 66, [9] = 0x06, [44] = 0, 8, 1, 2, 1, [52] = 1, 12,
                                       [64] = 0x80, 2};
/* Two processors of a LoongArch machine, a CORE PIC each (ACPI 6.5, section 5.2.12): Version 1, ACPI Processor ID 1 and
 * 2, Physical Processor ID 0 and 5, enabled. */
static const uint8_t madt_loong[74] = {'A', 'P', 'I', 'C', 74, [9] = 0x4d, [44] = 0x11, 15, 1, 1, [55] = 1,
                                       [59] = 0x11, 15, 1, 2, [66] = 5, [70] = 1};
/* A Memory Affinity, and a Local APIC Affinity. */
static const uint8_t srat_whole[104] = {'S', 'R', 'A', 'T', 104, [9] = 0x25, [48] = 1, 40, [88] = 0, 16};
/* Type and Length have two bytes each: a DRHD of 16 bytes, an RMRR of 24, and one of Type 0x102 of four. */
static const uint8_t dmar_whole[92] = {'D', 'M', 'A', 'R', 92, [9] = 0x50, [48] = 0, 0, 16, 0, [64] = 1, 0, 24, 0,
                                       [88] = 2, 1, 4, 0};
/* Type and Length have four bytes each: one of Type 0x10002 of twelve bytes, and one of Type 0xffffffff of eight. */
static const uint8_t lpit_whole[56] = {'L', 'P', 'I', 'T', 56, [9] = 0x7c, [36] = 2, 0, 1, 0, 12, [48] = 0xff, 0xff,
                                       0xff, 0xff, 8};
/* Type has one byte and Length two: an ITS group of 24 bytes, and an SMMUv3 of 260. */
static const uint8_t iort_whole[332] = {'I', 'O', 'R', 'T', 0x4c, 1, [9] = 0x54, [48] = 0, 24, 0, [72] = 4, 4, 1};
/* Type has two bytes, two are reserved, and Length has four: one of Type 1 of eight bytes, one of 0x102 of twelve. */
static const uint8_t hmat_whole[60] = {'H', 'M', 'A', 'T', 60, [9] = 0xa6, [40] = 1, 0, 0xee, 0xee, 8,
                                       [48] = 2, 1, 0, 0, 12};
/* Type has one byte, one is reserved, and Length has two: one of four bytes, and one of Type 1 of six. */
static const uint8_t cedt_whole[46] = {'C', 'E', 'D', 'T', 46, [9] = 0x30, [36] = 0, 0x77, 4, 0, [40] = 1, 0, 6};
/* Type has two bytes and Length one: one of Type 1 of 16 bytes, and one of Type 0x102 of three. */
static const uint8_t fpdt_whole[55] = {'F', 'P', 'D', 'T', 55, [9] = 0x83, [36] = 1, 0, 16, 1, [52] = 2, 1, 3};
/* At 36 two bytes of Type, two others, and a Length of 7. */
static const uint8_t oem_seven[44] = {'O', 'E', 'M', '5', 44, [9] = 0xb7, [40] = 7};
/* Length comes before Type: one of four bytes and Type 9, and one of three and Type 1. */
static const uint8_t oem_turned[44] = {'O', 'E', 'M', '6', 44, [9] = 0xac, [36] = 4, 0, 9, 0, 3, 0, 1};
/* The second entry is longer than the ten bytes that are left. */
static const uint8_t madt_long[62] = {'A', 'P', 'I', 'C', 62, [9] = 0x90, [44] = 0, 8, [52] = 1, 12};
/* The second entry is shorter than its Type and Length. */
static const uint8_t madt_short[54] = {'A', 'P', 'I', 'C', 54, [9] = 0xa1, [44] = 0, 8, [52] = 3, 1};
/* Three bytes are left after the first entry. */
static const uint8_t nfit_half[47] = {'N', 'F', 'I', 'T', 47, [9] = 0x88, [40] = 7, 0, 4, 0, 9, 0, 4};
/* The second entry has a Length of 3, less than two numbers of two bytes. */
static const uint8_t oem_three[44] = {'O', 'E', 'M', '2', 44, [9] = 0xb6, [36] = 0xff, 0, 4, 0, 5, 0, 3, 0};
/* Four zeros after the header: a Length of 0. */
static const uint8_t oem_zeros[40] = {'O', 'E', 'M', '1', 40, [9] = 0xc6};
/* Length is less than the header's 36 bytes; Signature isn't UTF-8; the bytes don't sum to 0; not as many bytes are
 * lent as Length says. */
static const uint8_t oem_35[36] = {'O', 'E', 'M', '3', 35, [9] = 0xc9};
static const uint8_t oem_other[36] = {0xff, 'O', 'E', 'M', 36, [9] = 0xfc};
static const uint8_t oem_sum[40] = {'O', 'E', 'M', '1', 40, [9] = 0xc7};
static const uint8_t oem_lost[65] = {'O', 'E', 'M', '4', 66, [9] = 0xa9};
#define TABLE(n) (0x10000u * ((n) + 1u)) /* where table N lies */
#define LAID(n, table) {TABLE(n), table, sizeof table}
enum { IN_APIC, IN_SRAT, IN_DMAR, IN_LONG, IN_SHORT, IN_HALF, IN_THREE, IN_ZEROS, IN_35, IN_OTHER, IN_SUM, IN_LOST,
       IN_LPIT, IN_IORT, IN_HMAT, IN_CEDT, IN_FPDT, IN_SEVEN, IN_TURNED, IN_LOONG, NOWHERE };
static const struct zacpi_region laid[] = {LAID(IN_APIC, madt_whole), LAID(IN_SRAT, srat_whole),
    LAID(IN_DMAR, dmar_whole), LAID(IN_LONG, madt_long), LAID(IN_SHORT, madt_short), LAID(IN_HALF, nfit_half),
    LAID(IN_THREE, oem_three), LAID(IN_ZEROS, oem_zeros), LAID(IN_35, oem_35), LAID(IN_OTHER, oem_other),
    LAID(IN_SUM, oem_sum), LAID(IN_LOST, oem_lost), LAID(IN_LPIT, lpit_whole),
    LAID(IN_IORT, iort_whole), LAID(IN_HMAT, hmat_whole), LAID(IN_CEDT, cedt_whole), LAID(IN_FPDT, fpdt_whole),
    LAID(IN_SEVEN, oem_seven), LAID(IN_TURNED, oem_turned), LAID(IN_LOONG, madt_loong)};

/* 35 bytes of the first. */
static const struct zacpi_region laid_35[] = {{TABLE(IN_APIC), madt_whole, 35}};
static const struct entries_row {
    const struct zacpi_region *regions;
    size_t regions_length;
    uint32_t accept, table;
    struct zacpi_walk walk;
    zacpi_status status;
    const char *named;
    size_t count;
    uint8_t malformed;
    uint64_t values[9]; /* of each entry its address, its Type and its Length */
} entry_rows[] = {
    {REGIONS(laid), 0, IN_APIC, ZACPI_WALK_APIC, ZACPI_OK, NULL, 3, 0,
     {TABLE(IN_APIC) + 44, 0, 8, TABLE(IN_APIC) + 52, 1, 12, TABLE(IN_APIC) + 64, 0x80, 2}},
    {REGIONS(laid), 0, IN_LOONG, ZACPI_WALK_APIC, ZACPI_OK, NULL, 2, 0,
     {TABLE(IN_LOONG) + 44, ZACPI_RAW_MADT_ENTRY_TYPE_CORE_PROGRAMMABLE_INTERRUPT_CONTROLLER_CORE_PIC, 15,
      TABLE(IN_LOONG) + 59, 0x11, 15}},
    {REGIONS(laid), 0, IN_APIC, {52, 0, 1, 1, 1}, ZACPI_OK, NULL, 2, 0,
     {TABLE(IN_APIC) + 52, 1, 12, TABLE(IN_APIC) + 64, 0x80, 2}},
    {REGIONS(laid), 0, IN_APIC, {66, 0, 1, 1, 1}, ZACPI_OK, NULL, 0, 0, {0}}, /* the table's end */
    {REGIONS(laid), 0, IN_APIC, {65, 0, 1, 1, 1}, ZACPI_OK, NULL, 0, 1, {0}}, /* one byte is left */
    {REGIONS(laid), 0, IN_APIC, {67, 0, 1, 1, 1}, ZACPI_SDT_INVALID_LENGTH, "APIC", 0, 0, {0}},
    {REGIONS(laid), 0, IN_APIC, {UINT32_MAX, 0, 2, 2, 2}, ZACPI_SDT_INVALID_LENGTH, "APIC", 0, 0, {0}},
    {REGIONS(laid), 0, IN_APIC, {44, 0, 2, 2, 2}, ZACPI_OK, NULL, 0, 1, {0}}, /* a Length of 0x201 */
    {REGIONS(laid), 0, IN_APIC, {0, 0, 2, 2, 2}, ZACPI_OK, NULL, 0, 1, {0}}, /* the header: a Length of "IC", 0x4349 */
    {REGIONS(laid), 0, IN_APIC, {44, 0, 0, 0, 0}, ZACPI_UNKNOWN_WIDTH, NULL, 0, 0, {0}},
    {REGIONS(laid), 0, IN_APIC, {44, 0, 3, 3, 3}, ZACPI_UNKNOWN_WIDTH, NULL, 0, 0, {0}},
    {REGIONS(laid), 0, IN_SRAT, ZACPI_WALK_SRAT, ZACPI_OK, NULL, 2, 0,
     {TABLE(IN_SRAT) + 48, 1, 40, TABLE(IN_SRAT) + 88, 0, 16}},
    {REGIONS(laid), 0, IN_DMAR, ZACPI_WALK_DMAR, ZACPI_OK, NULL, 3, 0,
     {TABLE(IN_DMAR) + 48, 0, 16, TABLE(IN_DMAR) + 64, 1, 24, TABLE(IN_DMAR) + 88, 0x102, 4}},
    {REGIONS(laid), 0, IN_LPIT, ZACPI_WALK_LPIT, ZACPI_OK, NULL, 2, 0,
     {TABLE(IN_LPIT) + 36, 0x10002, 12, TABLE(IN_LPIT) + 48, 0xffffffff, 8}},
    {REGIONS(laid), 0, IN_LPIT, {40, 0, 4, 4, 4}, ZACPI_OK, NULL, 0, 1, {0}}, /* a Type of 12, and a Length of 0 */
    {REGIONS(laid), 0, IN_LPIT, {49, 0, 4, 4, 4}, ZACPI_OK, NULL, 0, 1, {0}}, /* seven bytes are left */
    /* Type and Length of other widths, and at other places. */
    {REGIONS(laid), 0, IN_IORT, ZACPI_WALK_IORT(48), ZACPI_OK, NULL, 2, 0,
     {TABLE(IN_IORT) + 48, 0, 24, TABLE(IN_IORT) + 72, 4, 260}},
    {REGIONS(laid), 0, IN_IORT, {72, 0, 1, 1, 1}, ZACPI_OK, NULL, 1, 1, {TABLE(IN_IORT) + 72, 4, 4}}, /* then a 0 */
    {REGIONS(laid), 0, IN_HMAT, ZACPI_WALK_HMAT, ZACPI_OK, NULL, 2, 0,
     {TABLE(IN_HMAT) + 40, 1, 8, TABLE(IN_HMAT) + 48, 0x102, 12}},
    {REGIONS(laid), 0, IN_CEDT, ZACPI_WALK_CEDT, ZACPI_OK, NULL, 2, 0,
     {TABLE(IN_CEDT) + 36, 0, 4, TABLE(IN_CEDT) + 40, 1, 6}},
    {REGIONS(laid), 0, IN_FPDT, ZACPI_WALK_FPDT, ZACPI_OK, NULL, 2, 0,
     {TABLE(IN_FPDT) + 36, 1, 16, TABLE(IN_FPDT) + 52, 0x102, 3}},
    /* A Length of 7 is less than where a Length of four bytes ends, and more than where one of one byte does. */
    {REGIONS(laid), 0, IN_SEVEN, {36, 0, 2, 4, 4}, ZACPI_OK, NULL, 0, 1, {0}},
    {REGIONS(laid), 0, IN_SEVEN, {36, 0, 2, 4, 1}, ZACPI_OK, NULL, 1, 1, {TABLE(IN_SEVEN) + 36, 0, 7}},
    /* Length comes first: the second entry lacks a byte of Type, or has all of it. */
    {REGIONS(laid), 0, IN_TURNED, {36, 2, 2, 0, 2}, ZACPI_OK, NULL, 1, 1, {TABLE(IN_TURNED) + 36, 9, 4}},
    {REGIONS(laid), 0, IN_TURNED, {36, 2, 1, 0, 2}, ZACPI_OK, NULL, 2, 1,
     {TABLE(IN_TURNED) + 36, 9, 4, TABLE(IN_TURNED) + 40, 1, 3}},
    /* Type or Length is past the table's end. */
    {REGIONS(laid), 0, IN_APIC, {44, 255, 4, 1, 1}, ZACPI_OK, NULL, 0, 1, {0}},
    {REGIONS(laid), 0, IN_APIC, {44, 0, 1, 255, 4}, ZACPI_OK, NULL, 0, 1, {0}},
    {REGIONS(laid), 0, IN_APIC, {66, 255, 4, 255, 4}, ZACPI_OK, NULL, 0, 0, {0}},
    {REGIONS(laid), 0, IN_APIC, {44, 0, 3, 1, 1}, ZACPI_UNKNOWN_WIDTH, NULL, 0, 0, {0}},
    {REGIONS(laid), 0, IN_APIC, {44, 0, 1, 1, 0}, ZACPI_UNKNOWN_WIDTH, NULL, 0, 0, {0}},
    {REGIONS(laid), 0, IN_APIC, {44, 255, 255, 255, 255}, ZACPI_UNKNOWN_WIDTH, NULL, 0, 0, {0}},
    {REGIONS(laid), 0, IN_LONG, {44, 0, 1, 1, 1}, ZACPI_OK, NULL, 1, 1, {TABLE(IN_LONG) + 44, 0, 8}},
    {REGIONS(laid), 0, IN_SHORT, {44, 0, 1, 1, 1}, ZACPI_OK, NULL, 1, 1, {TABLE(IN_SHORT) + 44, 0, 8}},
    {REGIONS(laid), 0, IN_HALF, ZACPI_WALK_NFIT, ZACPI_OK, NULL, 1, 1, {TABLE(IN_HALF) + 40, 7, 4}},
    {REGIONS(laid), 0, IN_THREE, {36, 0, 2, 2, 2}, ZACPI_OK, NULL, 1, 1, {TABLE(IN_THREE) + 36, 0xff, 4}},
    {REGIONS(laid), 0, IN_ZEROS, {36, 0, 1, 1, 1}, ZACPI_OK, NULL, 0, 1, {0}},
    {REGIONS(laid), 0, IN_35, {36, 0, 1, 1, 1}, ZACPI_SDT_INVALID_LENGTH, "OEM3", 0, 0, {0}},
    {REGIONS(laid), 0, IN_OTHER, {36, 0, 1, 1, 1}, ZACPI_SDT_INVALID_SIGNATURE, "\377OEM", 0, 0, {0}},
    {REGIONS(laid), 0, IN_SUM, {41, 0, 1, 1, 1}, ZACPI_SDT_INVALID_CHECKSUM, "OEM1", 0, 0, {0}},
    {REGIONS(laid), ZACPI_ACCEPT_IDS, IN_SUM, {41, 0, 1, 1, 1}, ZACPI_SDT_INVALID_CHECKSUM, "OEM1", 0, 0, {0}},
    {REGIONS(laid), ZACPI_ACCEPT_SUMS, IN_SUM, {41, 0, 1, 1, 1}, ZACPI_SDT_INVALID_LENGTH, "OEM1", 0, 0, {0}},
    {REGIONS(laid), ZACPI_ACCEPT_SUMS, IN_SUM, {36, 0, 1, 1, 1}, ZACPI_OK, NULL, 0, 1, {0}}, /* a Length of 0 */
    {REGIONS(laid), 32, IN_SUM, {36, 0, 8, 1, 1}, ZACPI_UNKNOWN_POLICY, NULL, 0, 0, {0}},
    {REGIONS(laid), 3, IN_OTHER, {36, 0, 1, 1, 1}, ZACPI_SDT_INVALID_SIGNATURE, "\377OEM", 0, 0, {0}},
    {laid, 1, 0, IN_APIC, {52, 0, 1, 1, 1}, ZACPI_OK, NULL, 2, 0,
     {TABLE(IN_APIC) + 52, 1, 12, TABLE(IN_APIC) + 64, 0x80, 2}},
    {NULL, 0, 0, IN_APIC, {52, 0, 1, 1, 1}, ZACPI_MAP_FAILED, NULL, 0, 0, {0}},
    {laid + 1, 1, 0, IN_APIC, {52, 0, 1, 1, 1}, ZACPI_MAP_FAILED, NULL, 0, 0, {0}},
    {REGIONS(laid_35), 0, IN_APIC, {52, 0, 1, 1, 1}, ZACPI_MAP_FAILED, NULL, 0, 0, {0}},
    {REGIONS(laid), 0, IN_LOST, {36, 0, 1, 1, 1}, ZACPI_MAP_FAILED, NULL, 0, 0, {0}},
    {REGIONS(laid), 0, NOWHERE, {36, 0, 1, 1, 1}, ZACPI_MAP_FAILED, NULL, 0, 0, {0}},
    {REGIONS(laid), 0, NOWHERE, {36, 0, 8, 8, 8}, ZACPI_UNKNOWN_WIDTH, NULL, 0, 0, {0}},
    {REGIONS(placed_over), 32, IN_APIC, {44, 0, 8, 8, 8}, ZACPI_REGIONS_NOT_ASCENDING, NULL, 0, 0, {0}},
    {REGIONS(placed_too_high), 0, IN_APIC, {44, 0, 8, 8, 8}, ZACPI_REGION_TOO_HIGH, NULL, 0, 0, {0}}};

static const struct call call_entries = {"list_entries", NULL, of_entry, sizeof(struct zacpi_entry), 1};

static void check_entries(const struct entries_row *row, size_t room) {
    struct zacpi_signature named = {{'?', '?', '?', '?'}};
    const size_t items = row->status ? 0 : room < row->count ? room : row->count;
    size_t *count = paint_size(&out_count);
    uint8_t malformed = PAINT;
    const struct zacpi_source given = {row->regions, row->regions_length, 0, 5 /* no start */, row->accept};
    const struct zacpi_source source = source_at_edge(given);
    const zacpi_status got = zacpi_list_entries(
        &source, TABLE(row->table), &row->walk, (struct zacpi_entry *)paint(&out, room * sizeof(struct zacpi_entry)),
        room, count, &malformed, &named);
    result(got == row->status && !memcmp(named.letters, row->named ? row->named : "????", 4)
           && *count == (row->status ? UNCOUNTED : row->count) && malformed == (row->status ? PAINT : row->malformed)
           && is_written(&call_entries, row->values, items), "list_entries", (int)(row - entry_rows), room, got);
}

/* ---- zacpi_start_of_rsdp ---------------------------------------------------------------------------------- */

/* Copies of an RSDP: Checksum at 8, OEMID at 9, Revision at 15, RsdtAddress at 16, Length at 20, XsdtAddress at 24,
 * Extended Checksum at 32 (section 5.2.5.3). The eight bytes of Signature and those of RsdtAddress sum to 0x33. */
#define RSD_PTR 'R', 'S', 'D', ' ', 'P', 'T', 'R', ' '
#define TO_RSDT [16] = 0x78, 0x56, 0x34, 0x12
#define TO_XSDT [24] = 8, 7, 6, 5, 4, 3, 2, 1 /* they sum to 36 */
static const uint8_t copy_0[36] = {RSD_PTR, 0xcd, TO_RSDT, 0xff, 0xff, 0xff, 0xff, TO_XSDT, 0xee};
static const uint8_t copy_1[36] = {RSD_PTR, 0xcc, [15] = 1, TO_RSDT, 36, TO_XSDT, 0xb8};
static const uint8_t copy_2[36] = {RSD_PTR, 0xcb, [15] = 2, TO_RSDT, 36, TO_XSDT, 0xb8};
static const uint8_t copy_to_rsdt[36] = {RSD_PTR, 0xcb, [15] = 2, TO_RSDT, 36, [32] = 0xdc};
static const uint8_t copy_long[44] = {RSD_PTR, 0xcb, [15] = 2, TO_RSDT, 40, TO_XSDT, 0xaa, [36] = 1, 2, 3, 4, 99};
static const uint8_t copy_short[36] = {RSD_PTR, 0xcb, [15] = 2, TO_RSDT, 35, TO_XSDT, 0xb9};
static const uint8_t copy_other[36] = {'R', 'S', 'D', ' ', 'P', 'T', 'R', '_', 0xcd, TO_RSDT};
static const uint8_t copy_no_text[36] = {RSD_PTR, 0xcd, 0xff, TO_RSDT};
static const uint8_t copy_id[36] = {RSD_PTR, 0xce, 0xff, TO_RSDT};
static const uint8_t copy_sum[36] = {RSD_PTR, 0xce, TO_RSDT};
static const uint8_t copy_second_sum[36] = {RSD_PTR, 0xcb, [15] = 2, TO_RSDT, 36, TO_XSDT, 0xb9};

static const struct copy_row {
    const uint8_t *bytes;
    size_t length;
    zacpi_status status;
    uint64_t address;
    uint32_t start;
} copies[] = {
    {copy_0, 20, ZACPI_OK, 0x12345678, ZACPI_START_RSDT},
    {copy_0, 36, ZACPI_OK, 0x12345678, ZACPI_START_RSDT}, /* no Length, no XsdtAddress and no other sum */
    {copy_0, 27, ZACPI_OK, 0x12345678, ZACPI_START_RSDT},
    {copy_0, 19, ZACPI_MAP_FAILED, 0, 0},
    {NULL, 0, ZACPI_MAP_FAILED, 0, 0},
    {copy_1, 36, ZACPI_OK, 0x0102030405060708, ZACPI_START_XSDT},
    {copy_2, 36, ZACPI_OK, 0x0102030405060708, ZACPI_START_XSDT},
    {copy_2, 35, ZACPI_MAP_FAILED, 0, 0},
    {copy_2, 20, ZACPI_MAP_FAILED, 0, 0},
    {copy_to_rsdt, 36, ZACPI_OK, 0x12345678, ZACPI_START_RSDT},
    {copy_long, 44, ZACPI_OK, 0x0102030405060708, ZACPI_START_XSDT}, /* bytes after Length don't count */
    {copy_long, 40, ZACPI_OK, 0x0102030405060708, ZACPI_START_XSDT},
    {copy_long, 39, ZACPI_MAP_FAILED, 0, 0},
    {copy_short, 36, ZACPI_RSDP_INVALID_CHECKSUM, 0, 0},
    {copy_other, 20, ZACPI_RSDP_INCORRECT_SIGNATURE, 0, 0},
    {copy_no_text, 20, ZACPI_RSDP_INVALID_OEM_ID, 0, 0},
    {copy_sum, 20, ZACPI_RSDP_INVALID_CHECKSUM, 0, 0},
    {copy_sum, 36, ZACPI_RSDP_INVALID_CHECKSUM, 0, 0},
    {copy_second_sum, 36, ZACPI_RSDP_INVALID_CHECKSUM, 0, 0}};

/* By leave a copy may end after 20 bytes, and its first 20 bytes may be all that counts. */
static const struct {
    uint32_t accept;
    struct copy_row row;
} accepted_copies[] = {
    {ZACPI_ACCEPT_RSDP_IDS, {copy_id, 20, ZACPI_OK, 0x12345678, ZACPI_START_RSDT}},
    {~ZACPI_ACCEPT_RSDP_IDS & 31, {copy_id, 20, ZACPI_RSDP_INVALID_OEM_ID, 0, 0}},
    {31, {copy_no_text, 20, ZACPI_RSDP_INVALID_CHECKSUM, 0, 0}},
    {31, {copy_other, 36, ZACPI_RSDP_INCORRECT_SIGNATURE, 0, 0}},
    {31, {copy_sum, 36, ZACPI_RSDP_INVALID_CHECKSUM, 0, 0}},
    {ZACPI_ACCEPT_RSDP_REVISION, {copy_1, 20, ZACPI_OK, 0x12345678, ZACPI_START_RSDT}},
    {ZACPI_ACCEPT_RSDP_REVISION, {copy_1, 35, ZACPI_OK, 0x12345678, ZACPI_START_RSDT}},
    {ZACPI_ACCEPT_RSDP_REVISION, {copy_1, 36, ZACPI_OK, 0x12345678, ZACPI_START_RSDT}},
    {ZACPI_ACCEPT_RSDP_FIRST, {copy_1, 20, ZACPI_OK, 0x12345678, ZACPI_START_RSDT}},
    {ZACPI_ACCEPT_RSDP_FIRST, {copy_1, 36, ZACPI_OK, 0x0102030405060708, ZACPI_START_XSDT}},
    {31, {copy_1, 19, ZACPI_MAP_FAILED, 0, 0}},
    {ZACPI_ACCEPT_RSDP_FIRST, {copy_2, 20, ZACPI_OK, 0x12345678, ZACPI_START_RSDT}},
    {ZACPI_ACCEPT_RSDP_FIRST, {copy_2, 35, ZACPI_OK, 0x12345678, ZACPI_START_RSDT}},
    {ZACPI_ACCEPT_RSDP_FIRST, {copy_2, 36, ZACPI_OK, 0x0102030405060708, ZACPI_START_XSDT}},
    {~ZACPI_ACCEPT_RSDP_FIRST & 31, {copy_2, 20, ZACPI_MAP_FAILED, 0, 0}},
    {31, {copy_2, 19, ZACPI_MAP_FAILED, 0, 0}},
    {ZACPI_ACCEPT_RSDP_FIRST, {copy_long, 39, ZACPI_OK, 0x12345678, ZACPI_START_RSDT}}, /* of Length 40 */
    {ZACPI_ACCEPT_RSDP_FIRST, {copy_long, 40, ZACPI_OK, 0x0102030405060708, ZACPI_START_XSDT}},
    {ZACPI_ACCEPT_RSDP_FIRST, {copy_short, 36, ZACPI_OK, 0x12345678, ZACPI_START_RSDT}},
    {~ZACPI_ACCEPT_RSDP_FIRST & 31, {copy_short, 36, ZACPI_RSDP_INVALID_CHECKSUM, 0, 0}},
    {ZACPI_ACCEPT_RSDP_FIRST, {copy_second_sum, 36, ZACPI_OK, 0x12345678, ZACPI_START_RSDT}},
    {~ZACPI_ACCEPT_RSDP_FIRST & 31, {copy_second_sum, 36, ZACPI_RSDP_INVALID_CHECKSUM, 0, 0}}};

static void check_copy(size_t n, uint32_t bits, const struct copy_row *row, const struct zacpi_region *regions,
                       size_t length) {
    struct zacpi_source source = {regions, length, 0x77, 9, bits};
    const zacpi_status got = zacpi_start_of_rsdp(row->bytes, row->length, &source);
    result(got == row->status && source.regions == regions && source.regions_length == length
           && source.address == (got ? 0x77 : row->address) && source.start == (got ? 9 : row->start)
           && source.accept == bits, "start_of_rsdp", (int)n, length, got);
}

static void check_bytes(void) {
    size_t i, room;
    for (i = 0; i < sizeof places / sizeof *places; i++) check_place(places + i);
    for (i = 0; i < sizeof copies / sizeof *copies; i++) {
        check_copy(i, BOTH, copies + i, REGIONS(placed)); /* which are bits of tables */
        check_copy(i, 0, copies + i, NULL, 0);
    }
    for (i = 0; i < sizeof accepted_copies / sizeof *accepted_copies; i++)
        check_copy(i, accepted_copies[i].accept, &accepted_copies[i].row, REGIONS(placed));
    for (i = 0; i < sizeof entry_rows / sizeof *entry_rows; i++)
        for (room = 0; room < entry_rows[i].count + 2; room++) check_entries(entry_rows + i, room);
}

#endif
