/* Rows of the lists from an item on, by which a few places serve a list of any length, and of the header of a table at
 * an address, worked out by hand from rows_tables.h, rows_tables_kinds.h and rows_bytes.h. For rows.c. */
#ifndef ROWS_PARTS_H
#define ROWS_PARTS_H

/* The arguments of a row are the item from which on it is listed, and how many items there are in all: the call counts
 * these, and writes those that the row has. */
#define PART(verb, type, fields) \
    RUN(verb) { \
        const zacpi_status status = zacpi_##verb(s, (size_t)r->arguments[0], to, room, count, named); \
        if (!status) *count = *count == r->arguments[1] ? r->count : UNCOUNTED; \
        return status; \
    } \
    static const struct call call_##verb = {#verb, run_##verb, fields, sizeof(type), 1};
PART(list_processors_from, processor, of_processor)
PART(list_gic_cpu_interfaces_from, interface, of_gic_cpu_interface)
PART(list_rintcs_from, rintc, of_rintc)
PART(list_memory_affinities_from, affinity, of_memory_affinity)
PART(list_processor_affinities_from, near_processor, of_processor_affinity)

/* From an item on there is none. */
#define PAST(call, machine, from, all) {&call_##call, machine, NULL, A(from, all), ZACPI_OK, NULL, 0, NULL, 0}
/* Processors of the MADT of DESKTOP: the first is the boot processor, and disabled. */
#define FIRST_OF_FIVE 0x21, 0x42, ZACPI_PROCESSOR_DISABLED, 1, 0, 0
#define SECOND_OF_FIVE 0x22, 0x44, ZACPI_PROCESSOR_WAITING, 0, 0, 0
#define OTHERS_OF_FIVE \
    0x567, 0x12345, ZACPI_PROCESSOR_WAITING, 0, 0, 1, 0x568, 0x12346, ZACPI_PROCESSOR_DISABLED, 0, 1, 1
#define LAST_OF_FIVE 0x23, 0x46, ZACPI_PROCESSOR_WAITING, 0, 1, 0

static const struct row part_rows[] = {
    GOOD(list_processors_from, DESKTOP, NULL, A(0, 5), 5, FIRST_OF_FIVE, SECOND_OF_FIVE, OTHERS_OF_FIVE, LAST_OF_FIVE),
    GOOD(list_processors_from, DESKTOP, NULL, A(1, 5), 4, SECOND_OF_FIVE, OTHERS_OF_FIVE, LAST_OF_FIVE),
    GOOD(list_processors_from, DESKTOP, NULL, A(2, 5), 3, OTHERS_OF_FIVE, LAST_OF_FIVE),
    GOOD(list_processors_from, DESKTOP, NULL, A(4, 5), 1, LAST_OF_FIVE),
    PAST(list_processors_from, DESKTOP, 5, 5),
    PAST(list_processors_from, DESKTOP, 6, 5),
    PAST(list_processors_from, DESKTOP, UINT32_MAX, 5),
    /* The boot processor runs if it is enabled, and the others wait. */
    GOOD(list_processors_from, MOBILE, NULL, A(0, 2), 2, 8, 7, ZACPI_PROCESSOR_RUNNING, 1, 0, 1,
         6, 5, ZACPI_PROCESSOR_DISABLED, 0, 0, 0),
    GOOD(list_processors_from, MOBILE, NULL, A(1, 2), 1, 6, 5, ZACPI_PROCESSOR_DISABLED, 0, 0, 0),
    PAST(list_processors_from, TRIGGER_2, 0, 0),
    PAST(list_processors_from, TRIGGER_2, 1, 0),
    REFUSED(list_processors_from, SERVER, NULL, A(1, 0), ZACPI_NO_APICS, NULL),
    REFUSED(list_processors_from, EMPTY, NULL, NO, ZACPI_TABLE_MISSING, "APIC"),

    GOOD(list_gic_cpu_interfaces_from, ARM, NULL, A(1, 2), 1,
         3, 0, 0, 0, 0, 0, 4, 18, 0, 0, 0, 0, 0, 0, 0, ZACPI_TRIGGER_LEVEL, ZACPI_TRIGGER_EDGE, 0),
    GOOD(list_gic_cpu_interfaces_from, OLD, NULL, A(0, 1), 1, 0, 0, 0, 0, 0, 0, 0, 0, 0, 0, 0, 21, 0,
         0, 0, ZACPI_TRIGGER_LEVEL, ZACPI_TRIGGER_LEVEL, 0),
    PAST(list_gic_cpu_interfaces_from, ARM, 2, 2),
    REFUSED(list_gic_cpu_interfaces_from, PC, NULL, A(1, 0), ZACPI_NO_GIC, NULL),
    REFUSED(list_gic_cpu_interfaces_from, EMPTY, NULL, NO, ZACPI_TABLE_MISSING, "APIC"),

    GOOD(list_rintcs_from, RISCV, NULL, A(0, 2), 2, 0x0807060504030201, 0x2827262524232221, 3, 0x14131211, 0x02000005,
         0x34333231, 1, 7, 0, 0, 8, 0, 0, 9),
    GOOD(list_rintcs_from, RISCV, NULL, A(1, 2), 1, 7, 0, 0, 8, 0, 0, 9),
    PAST(list_rintcs_from, RISCV, 2, 2),
    REFUSED(list_rintcs_from, PC, NULL, A(1, 0), ZACPI_NO_RISCV, NULL),
    REFUSED(list_rintcs_from, EMPTY, NULL, NO, ZACPI_TABLE_MISSING, "APIC"),

    GOOD(list_memory_affinities_from, ARM, NULL, A(0, 2), 2, 0x100000000, 0x10000, 0x107, 1, 0,
         0x100008000, 0x20000, 8, 0, 1),
    GOOD(list_memory_affinities_from, ARM, NULL, A(1, 2), 1, 0x100008000, 0x20000, 8, 0, 1),
    PAST(list_memory_affinities_from, ARM, 2, 2),
    PAST(list_memory_affinities_from, HOLES, 0, 0),
    REFUSED(list_memory_affinities_from, EMPTY, NULL, A(1, 0), ZACPI_TABLE_MISSING, "SRAT"),

    GOOD(list_processor_affinities_from, ARM, NULL, A(0, 4), 4, 9, 0x20105, 0, 0, 300, 12, 0, 2, 300, 13, 0, 2,
         17, 15, 0, 3),
    GOOD(list_processor_affinities_from, ARM, NULL, A(2, 4), 2, 300, 13, 0, 2, 17, 15, 0, 3),
    GOOD(list_processor_affinities_from, ALL_KINDS, NULL, A(1, 3), 2, 0x100, 7, 0xc, 2, 0x23, 8, 0xd, 3),
    PAST(list_processor_affinities_from, ALL_KINDS, 3, 3),
    PAST(list_processor_affinities_from, HOLES, 0, 0),
    REFUSED(list_processor_affinities_from, EMPTY, NULL, A(1, 0), ZACPI_TABLE_MISSING, "SRAT"),
};

/* ---- Many processors, a page of places at a time --------------------------------------------------------- */

/* A MADT (Revision 5, from byte 44 on) and an SRAT (Revision 3, from byte 48 on) of 4,096 processors: x2APICs of 16
 * bytes, X2APIC ID at 4, Flags at 8, ACPI Processor UID at 12; and affinities of 24, Proximity Domain at 4, X2APIC ID
 * at 8, Flags at 12. The `i`-th has the id 3i + 1, the UID i and the domain i / 1024; of seven the first is disabled,
 * and in no domain: 586 of them, the last one too. */
enum { MANY = 4096, PLACES = 64, MANY_MADT = 0x10000, MANY_SRAT = 0x30000, MANY_ROOT = 0x50000 };
static uint8_t many_bytes[0x40100];
static void put_table(uint32_t address, const char *letters, uint8_t revision, uint32_t length) {
    uint8_t *const bytes = many_bytes + (address - MANY_MADT);
    memcpy(bytes, letters, 4);
    put(bytes + 4, 4, length);
    bytes[8] = revision;
    zacpi_set_checksum(bytes, length);
}
static struct zacpi_source source_of_many(void) {
    static struct zacpi_region region = {MANY_MADT, many_bytes, sizeof many_bytes};
    const struct zacpi_source source = {&region, 1, MANY_ROOT, ZACPI_START_RSDT, 0};
    uint8_t *const list = many_bytes + (MANY_ROOT - MANY_MADT);
    uint32_t i;
    for (i = 0; i < MANY; i++) {
        uint8_t *const entry = many_bytes + 44 + 16 * i;
        uint8_t *const near = many_bytes + (MANY_SRAT - MANY_MADT) + 48 + 24 * i;
        entry[0] = 9, entry[1] = 16, put(entry + 4, 4, 3 * i + 1), put(entry + 8, 4, i % 7 != 0), put(entry + 12, 4, i);
        near[0] = 2, near[1] = 24, put(near + 4, 4, i / 1024), put(near + 8, 4, 3 * i + 1);
        put(near + 12, 4, i % 7 != 0);
    }
    put(list + 36, 4, MANY_MADT), put(list + 40, 4, MANY_SRAT);
    put_table(MANY_MADT, "APIC", 5, 44 + 16 * MANY);
    put_table(MANY_SRAT, "SRAT", 3, 48 + 24 * MANY);
    put_table(MANY_ROOT, "RSDT", 1, 44);
    return source;
}
static int is_of_many(const struct zacpi_processor *it, uint32_t i) {
    return it->uid == i && it->local_apic_id == 3 * i + 1 && it->state == (i % 7 ? ZACPI_PROCESSOR_WAITING : 0)
           && it->is_boot == !i && it->is_x2apic;
}
static void check_many(void) {
    struct zacpi_processor processors[PLACES];
    struct zacpi_processor_affinity near[PLACES];
    const struct zacpi_source source = source_of_many();
    size_t from = 0, count = 1, i;
    uint32_t next = 0;
    for (; from < count; from += PLACES) {
        int holds = !zacpi_list_processors_from(&source, from, processors, PLACES, &count, NULL) && count == MANY;
        for (i = 0; holds && i < PLACES; i++) holds = is_of_many(&processors[i], next++);
        result(holds, "list_processors_from", MANY, from, 0);
        if (!holds) return;
    }
    for (from = next = 0, count = 1; from < count; from += PLACES) {
        const int holds = !zacpi_list_processor_affinities_from(&source, from, near, PLACES, &count, NULL);
        for (i = 0; holds && i < PLACES && from + i < count; i++, next++) {
            next += next % 7 == 0;
            result(near[i].id == 3 * next + 1 && near[i].domain == next / 1024, "list_processor_affinities_from", MANY,
                   from + i, 0);
        }
        if (!holds) count = 0;
    }
    result(next == MANY - 1 && count == 3510, "list_processor_affinities_from", MANY, count, 0);
}

/* Their headers, whose Length, at 4, has four bytes (section 5.2.6): 44 + 16 * 4,096 bytes, and 48 + 24 * 4,096. */
#define MADT_OF_MANY MANY_MADT, 65580, LETTERS('A', 'P', 'I', 'C'), 5, NO_IDS
#define SRAT_OF_MANY MANY_SRAT, 98352, LETTERS('S', 'R', 'A', 'T'), 3, NO_IDS
static const struct row many_rows[] = {
    GOOD(list_tables, EMPTY, NULL, NO, 2, MADT_OF_MANY, SRAT_OF_MANY),
    GOOD(list_members, EMPTY, NULL, NO, 2, MADT_OF_MANY, 0, 1, SRAT_OF_MANY, 0, 1),
    GOOD(list_ranges, EMPTY, NULL, NO, 3, MANY_ROOT, 44, MANY_MADT, 65580, MANY_SRAT, 98352),
    GOOD(find_table, EMPTY, "SRAT", NO, 1, SRAT_OF_MANY),
    GOOD(find_nth_table, EMPTY, "APIC", A(0), 1, MADT_OF_MANY)};
static void check_many_tables(void) {
    const struct zacpi_source source = source_of_many();
    size_t i;
    for (i = 0; i < sizeof many_rows / sizeof *many_rows; i++) {
        const struct row *row = many_rows + i;
        struct zacpi_signature named = {{'?', '?', '?', '?'}};
        size_t *const count = paint_size(&out_count);
        zacpi_status got;
        if (!is_there(row->call->name)) continue;
        got = row->call->run(row, &source, paint(&out, row->count * row->call->size), row->count, count, &named);
        result(!got && *count == (row->call->is_list ? row->count : UNCOUNTED)
               && is_written(row->call, row->values, row->count), row->call->name, MANY, i, got);
    }
}

/* ---- zacpi_get_table ------------------------------------------------------------------------------------- */

/* The tables of rows_bytes.h, which no root table lists, and of rows_tables.h root tables, a DSDT and a table with ids,
 * at whatever start. */
static const struct there_row {
    const struct zacpi_region *regions;
    size_t regions_length;
    uint32_t accept;
    uint64_t address;
    zacpi_status status;
    const char *named;
    uint64_t values[9];
} there_rows[] = {
    {REGIONS(usual), 0, AT(ARM), ZACPI_OK, NULL, {AT(ARM), 56, LETTERS('R', 'S', 'D', 'T'), 1, NO_IDS}},
    {REGIONS(usual), 0, AT(PC), ZACPI_OK, NULL, {AT(PC), 68, LETTERS('X', 'S', 'D', 'T'), 1, NO_IDS}},
    {REGIONS(usual), 0, AT(DSDT), ZACPI_OK, NULL, {AT(DSDT), 60, LETTERS('D', 'S', 'D', 'T'), 2, NO_IDS}},
    {REGIONS(usual), 0, AT(HPET), ZACPI_OK, NULL, {AT(HPET), 56, LETTERS('H', 'P', 'E', 'T'), 1, HPET_IDS}},
    {REGIONS(laid), 0, TABLE(IN_APIC), ZACPI_OK, NULL,
     {TABLE(IN_APIC), 66, LETTERS('A', 'P', 'I', 'C'), 0, NO_IDS}},
    {REGIONS(laid), ZACPI_ACCEPT_SUMS, TABLE(IN_SUM), ZACPI_OK, NULL,
     {TABLE(IN_SUM), 40, LETTERS('O', 'E', 'M', '1'), 0, NO_IDS}},
    {REGIONS(laid), ZACPI_ACCEPT_IDS, TABLE(IN_SUM), ZACPI_SDT_INVALID_CHECKSUM, "OEM1", {0}},
    {REGIONS(laid), 0, TABLE(IN_35), ZACPI_SDT_INVALID_LENGTH, "OEM3", {0}},
    {REGIONS(laid), 3, TABLE(IN_OTHER), ZACPI_SDT_INVALID_SIGNATURE, "\377OEM", {0}},
    {REGIONS(laid), 0, TABLE(IN_LOST), ZACPI_MAP_FAILED, NULL, {0}}, /* a byte of its Length isn't lent */
    {REGIONS(laid), 0, TABLE(NOWHERE), ZACPI_MAP_FAILED, NULL, {0}},
    {REGIONS(laid), 32, TABLE(IN_SUM), ZACPI_UNKNOWN_POLICY, NULL, {0}},
    {REGIONS(placed_over), 32, TABLE(IN_APIC), ZACPI_REGIONS_NOT_ASCENDING, NULL, {0}},
    {REGIONS(placed_too_high), 0, TABLE(IN_APIC), ZACPI_REGION_TOO_HIGH, NULL, {0}},
    {NULL, 0, 0, TABLE(IN_APIC), ZACPI_MAP_FAILED, NULL, {0}},
    {laid, 1, 0, TABLE(IN_APIC), ZACPI_OK, NULL, {TABLE(IN_APIC), 66, LETTERS('A', 'P', 'I', 'C'), 0, NO_IDS}},
    {laid + 1, 1, 0, TABLE(IN_APIC), ZACPI_MAP_FAILED, NULL, {0}},
    {REGIONS(laid_35), 0, TABLE(IN_APIC), ZACPI_MAP_FAILED, NULL, {0}}};
static const struct call call_there = {"get_table", NULL, of_table, sizeof(table), 0};

static void check_there(const struct there_row *row) {
    struct zacpi_signature named = {{'?', '?', '?', '?'}};
    const struct zacpi_source given = {row->regions, row->regions_length, 0, 5 /* no start */, row->accept};
    const struct zacpi_source source = source_at_edge(given);
    const zacpi_status got = zacpi_get_table(&source, row->address, (table *)paint(&out, sizeof(table)), &named);
    result(got == row->status && !memcmp(named.letters, row->named ? row->named : "????", 4)
           && is_written(&call_there, row->values, row->status ? 0 : 1), "get_table", (int)(row - there_rows), 1, got);
}

static void check_parts(void) {
    size_t i;
    if (is_there("list_processors_from") && is_there("list_processor_affinities_from")) check_many();
    check_many_tables();
    for (i = 0; is_there("get_table") && i < sizeof there_rows / sizeof *there_rows; i++) check_there(there_rows + i);
}
#endif
