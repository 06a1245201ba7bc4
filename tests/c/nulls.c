/* nulls: calls with what C's designated initialisers leave out, and with outputs that hold anything: null pointers to
 * lists of no items and to the signature that an error carries. It prints what isn't as it should be. Run with `end` or
 * `begin`, all that is passed is at pages that can't be touched (edges.h). */
#define _DEFAULT_SOURCE
#include "edges.h"
#include "zacpi_map.h"

static int failed;
#define EXPECT(holds) \
    do { \
        if (!(holds)) failed = 1, printf("FAILED: line %d: %s\n", __LINE__, #holds); \
    } while (0)

enum { SIZE = 4096 };
static uint8_t *memory;
static const struct zacpi_table_ids *ids;
static const struct zacpi_processor one = {.uid = 1, .local_apic_id = 2, .state = ZACPI_PROCESSOR_WAITING};

/* Writes a machine of a MADT with one processor and a table of an OEM's to 0x10000. */
static size_t write_machine(void) {
    uint8_t *const scratch[2] = {painted_at_edge(52), painted_at_edge(36)};
    const struct zacpi_madt_contents madt = {.processors = COPIED(one), .processors_length = 1};
    struct zacpi_listed_table tables[2] = {{.bytes = scratch[0]}, {.bytes = scratch[1]}};
    struct zacpi_machine machine = {.ids = *ids, .tables_length = 2};
    const struct zacpi_machine none = {.ids = *ids};
    uint64_t *const facs = PAINTED(uint64_t);
    size_t *const length = PAINTED(size_t);
    EXPECT(!zacpi_write_madt(ids, COPIED(madt), scratch[0], 52, length) && *length == 52);
    tables[0].length = *length;
    EXPECT(!zacpi_write_table(ids, ZACPI_SIGNATURE("OEM9"), 1, NULL, 0, scratch[1], 36, length) && *length == 36);
    tables[1].length = *length;
    machine.tables = COPIED(tables);
    EXPECT(!zacpi_tables_size(COPIED(none), length) && *length == 96);
    EXPECT(!zacpi_facs_address(0x10000, 0, NULL, 0, facs) && *facs == 0x10000 + 128);
    EXPECT(zacpi_write_tables(COPIED(machine), 0x10000, NULL, 0, length) == ZACPI_NO_ROOM);
    EXPECT(!zacpi_write_tables(COPIED(machine), 0x10000, memory, SIZE, length) && *length == 48 + 64 + 64 + 48);
    return *length;
}
/* Lists of no items, and their tables. */
static void write_nothing(void) {
    const struct zacpi_srat_contents srat = {.apics = NULL};
    const struct zacpi_gic_contents gic = {.distributor = {.address = 0x1000}};
    const struct zacpi_riscv_contents riscv = {.rintcs = NULL};
    const struct zacpi_rhct_contents rhct = {.isa = NULL};
    const struct zacpi_madt_contents madt = {.also_has_8259 = 1};
    const struct zacpi_gtdt_contents gtdt = {.platform_timers = NULL};
    struct zacpi_fixed_hardware fadt = zacpi_fadt_reduced();
    uint8_t *const table = painted_at_edge(276);
    size_t *const length = PAINTED(size_t);
    fadt.dsdt_address = 0x20000;
    EXPECT(!zacpi_write_fadt(ids, COPIED(fadt), table, 276, length) && *length == 276);
    EXPECT(table[112] == 0 && table[114] == 0x10);                   /* Flags: HW_REDUCED_ACPI */
    EXPECT(table[96] == 101 && table[98] == 0xe9 && table[99] == 3); /* P_LVL2_LAT, P_LVL3_LAT */
    EXPECT(!zacpi_write_srat(ids, COPIED(srat), painted_at_edge(48), 48, length) && *length == 48);
    EXPECT(!zacpi_write_mcfg(ids, NULL, 0, painted_at_edge(44), 44, length) && *length == 44);
    EXPECT(!zacpi_write_xsdt(ids, NULL, 0, painted_at_edge(36), 36, length) && *length == 36);
    EXPECT(!zacpi_write_ssdt(ids, 2, NULL, 0, painted_at_edge(36), 36, length) && *length == 36);
    EXPECT(zacpi_write_madt(ids, COPIED(madt), table, 276, length) == ZACPI_NO_PROCESSOR);
    EXPECT(zacpi_write_gic_madt(ids, COPIED(gic), table, 276, length) == ZACPI_NO_PROCESSOR);
    EXPECT(zacpi_write_rhct(ids, COPIED(rhct), table, 276, length) == ZACPI_NO_PROCESSOR);
    EXPECT(zacpi_write_riscv_madt(ids, COPIED(riscv), table, 276, length) == ZACPI_NO_PROCESSOR);
    EXPECT(zacpi_write_gtdt(ids, COPIED(gtdt), table, 276, length) == ZACPI_SAME_AS_BUS);
}
/* The machine is read, with no room, without a place for a signature, and into outputs that nobody has written. */
static void read_machine(size_t length) {
    const struct zacpi_region *const region = all_at_edge(&(const struct zacpi_region){0x10000, memory, length}, 1);
    const struct zacpi_source over = {.regions = region, .regions_length = 1, .address = 0x10000};
    const struct zacpi_source none = {.address = 0x10000}, *const source = COPIED(over), *const nowhere = COPIED(none);
    const struct zacpi_range window = {0, 0x1000};
    struct zacpi_signature *const named = PAINTED(struct zacpi_signature);
    struct zacpi_table *const table = PAINTED(struct zacpi_table);
    struct zacpi_root *const root = PAINTED(struct zacpi_root);
    struct zacpi_pm_timer *const timer = PAINTED(struct zacpi_pm_timer);
    size_t *const count = PAINTED(size_t);
    EXPECT(!zacpi_open(source, root, NULL) && root->address == 0x10030);
    EXPECT(!zacpi_list_tables(source, NULL, 0, count, NULL) && *count == 2);
    EXPECT(!zacpi_find_table(source, ZACPI_SIGNATURE("OEM9"), table, NULL) && table->length == 36);
    EXPECT(zacpi_table_bytes(region, 1, table) == region->bytes + (table->address - 0x10000));
    EXPECT(zacpi_table_bytes(NULL, 0, table) == NULL);
    EXPECT(zacpi_get_pm_timer(source, timer, NULL) == ZACPI_TABLE_MISSING);
    EXPECT(zacpi_get_pm_timer(source, timer, named) == ZACPI_TABLE_MISSING && !memcmp(named->letters, "FACP", 4));
    EXPECT(zacpi_open(nowhere, root, NULL) == ZACPI_MAP_FAILED);
    EXPECT(!zacpi_list_missing_ranges(nowhere, NULL, 0, count, NULL) && *count == 1);
    EXPECT(!zacpi_clip_ranges(NULL, 0, NULL, 0, COPIED(window), NULL, 0, count) && *count == 0);
}
static const void *no_memory(void *context, uint64_t address, uint64_t length) {
    (void)context, (void)address, (void)length;
    return NULL;
}
/* Nothing is mapped: into no ranges, and for a search, of whose areas no memory is there. */
static void map_nothing(void) {
    const struct zacpi_mapper mapper = {.map = no_memory};
    struct zacpi_source source = {.address = 0x10000};
    EXPECT(zacpi_map_tables(&mapper, &source, NULL, 0, NULL, 0) == ZACPI_NO_ROOM && source.regions_length == 0);
    source.start = ZACPI_START_SEARCH;
    EXPECT(!zacpi_map_tables(&mapper, &source, NULL, 0, NULL, 0) && source.regions_length == 0);
}

int main(int argc, char **argv) {
    static const struct zacpi_table_ids named = {"ZACPI", "NULLS", {0}, 1, {'Z', 'F', 'I', 'R'}, 1};
    if (!edge_of(argc, argv)) return 2;
    ids = COPIED(named);
    memory = painted_at_edge(SIZE);
    write_nothing();
    read_machine(write_machine());
    map_nothing();
    return failed;
}
