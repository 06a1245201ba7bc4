/* Rows over tables in memory of their own: structures beyond a count, entries that are too short, fields without a
 * zero, a table and regions above 4 GiB, and an RSDP in the second area that is searched. */
#ifndef ROWS_VALUES_H
#define ROWS_VALUES_H

#define OWN 0x70000000u
#define OWN_GTDT (OWN + 0x100)
#define OWN_MADT 0x100000000u
enum { OWN_SIZE = 0x300, OWN_MADT_SIZE = 52, OWN_SRAT_SIZE = 0x100 };
static uint8_t own[OWN_SIZE], own_madt[OWN_MADT_SIZE], own_ebda[EBDA_SIZE];
static const struct zacpi_region own_regions[] = {{OWN, own, OWN_SIZE}, {OWN_MADT, own_madt, OWN_MADT_SIZE}};
static const struct zacpi_region own_search[] = {{0x40e, word, 2}, {EBDA, own_ebda, EBDA_SIZE},
                                                 {BIOS, zeros, BIOS_SIZE}};

PUTS(own_xsdt, {36, 8, OWN_GTDT}, {44, 8, OWN_MADT});
/* Of two GT Blocks and two watchdogs the first of each counts (section 5.2.25). */
#define GT_BLOCK(at, address, number, interrupt) \
    {(at) + 1, 2, 60} /* Length */, {(at) + 4, 8, address} /* GT Block Physical Address */, \
    {(at) + 12, 4, 1} /* GT Block Timer Count */, {(at) + 16, 4, 20} /* GT Block Timer Offset */, \
    {(at) + 20, 1, number} /* GT Frame Number */, {(at) + 20 + 4, 8, (address) + 0x1000} /* CntBaseX */, \
    {(at) + 20 + 20, 4, interrupt}, {(at) + 20 + 24, 4, 1} /* GTx Physical Timer GSIV, Flags: edge, active high */
#define WATCHDOG(at, interrupt) \
    {(at), 1, 1} /* Type: Arm Generic Watchdog */, {(at) + 1, 2, 28} /* Length */, \
    {(at) + 20, 4, interrupt}, {(at) + 24, 4, 1} /* Watchdog Timer GSIV, Flags: edge, active high */
PUTS(own_gtdt, {88, 4, 2} /* Platform Timer Count */, {92, 4, 96} /* Platform Timer Offset */,
     GT_BLOCK(96, 0x7000, 1, 92), WATCHDOG(156, 60), GT_BLOCK(184, 0xa000, 2, 93), WATCHDOG(244, 61));
/* Local Interrupt Controller Address, Flags: PCAT_COMPAT. */
PUTS(own_apic, {36, 4, 0xfee01000}, {40, 4, 1}, {44, 2, HEADER(0, 8)}, BAD_SUM);
static const struct table own_tables[] = {{OWN, "XSDT", 1, 52, own_xsdt}, {OWN_GTDT, "GTDT", 2, 272, own_gtdt}},
                          own_high = {OWN_MADT, "APIC", 4, OWN_MADT_SIZE, own_apic};

static const struct row own_rows[] = {
    GOOD(list_gt_frames, 0, NULL, NO, 1, 0x7000, 0x8000, 0, 92, 0, 1, 1, 1, 1, 3, 0, 0),
    GOOD(list_watchdogs, 0, NULL, NO, 1, 0, 0, 60, 1, 1, 0),
    REFUSED(get_local_apic, 0, NULL, NO, ZACPI_TABLE_MISSING, "APIC")},
    own_accepted = GOOD(get_local_apic, 0, NULL, NO, 1, 0xfee01000, 1),
    /* Length of the RSDP at 0x3e0 reaches a byte past the area and the 16 bytes after it. */
    own_searched = GOOD(list_missing_ranges, 0, NULL, NO, 1, 0x903e0, 0x31),
    own_cut = REFUSED(domain_of_address, 0, NULL, A(0x5000), ZACPI_NUMA_INVALID_ENTRY_LENGTH, NULL);

static void check_own(const struct row *row, const struct zacpi_source *source, uint32_t accepted) {
    if (!is_there(row->call->name)) return;
    own_source = source;
    accept = accepted;
    check_rooms(row);
    accept = 0;
    own_source = NULL;
}

/* An entry of the SRAT that is a byte too short for its Type, and after it one of memory from 0x5000 on. */
static void check_short_entries(void) {
    static const uint8_t least[] = {16, 40, 24, 18, 12, 32, 32}; /* by Type (section 5.2.16) */
    static uint8_t bytes[sizeof least][OWN_SRAT_SIZE];
    static struct zacpi_region regions[sizeof least];
    unsigned i;
    for (i = 0; i < sizeof least; i++) {
        const unsigned next = 48 + least[i] - 1u;
        const struct zacpi_source source = {&regions[i], 1, OWN, ZACPI_START_RSDT, 0};
        const struct put root[] = {{36, 4, OWN + 40}, {0, 0, 0}};
        const struct put puts[] = {{48, 2, HEADER(i, least[i] - 1u)}, {next, 2, HEADER(1, 40)},
                                   {next + 8, 8, 0x5000} /* Base Address */, {next + 16, 8, 0x1000} /* Length */,
                                   {next + 28, 4, 1} /* Flags: Enabled */, {0, 0, 0}};
        const struct table rsdt = {OWN, "RSDT", 1, 40, root}, srat = {OWN + 40, "SRAT", 3, next + 40, puts};
        regions[i].address = OWN, regions[i].bytes = bytes[i], regions[i].length = 40 + next + 40;
        lay_out_at(bytes[i], 40, &rsdt);
        lay_out_at(bytes[i] + 40, next + 40, &srat);
        check_own(&own_cut, &source, 0);
    }
}

/* An RSDP whose Length has more than 16 bits, in the area of the BIOS, before the root table that it points to. */
static void check_long_rsdp(void) {
    static uint8_t area[BIOS_SIZE];
    static const struct zacpi_region regions[] = {{0x40e, zeros, 2}, {BIOS, area, BIOS_SIZE}};
    static const uint8_t rsdp[] = {'R', 'S', 'D', ' ', 'P', 'T', 'R', ' ', [15] = 2, [20] = 0x40, 0, 1,
                                   [26] = 0x0f} /* Length 0x10040, XsdtAddress 0xf0000 */;
    static const struct zacpi_source sources[] = {{regions, 2, 0, ZACPI_START_BIOS_SEARCH, 0},
                                                  {regions, 2, 0, ZACPI_START_SEARCH, 0},
                                                  {regions, 2, BIOS, ZACPI_START_RSDP, 0}};
    const struct row opened = GOOD(open, 0, NULL, NO, 1, BIOS + 0x10000, 36, 2, 8, BIOS, 0x10040),
                     found_so = GOOD(get_rsdp, 0, NULL, NO, 1, BIOS, BIOS + 0x10000, 0, 0x10040, 2, 0);
    static const struct table root = {BIOS + 0x10000, "XSDT", 1, 36, no_fields};
    size_t i;
    memcpy(area, rsdp, sizeof rsdp), lay_out_at(area + 0x10000, 36, &root);
    area[8] = (uint8_t)-zacpi_byte_sum(area, 20), area[32] = (uint8_t)-zacpi_byte_sum(area, 0x10040);
    for (i = 0; i < 3; i++) check_own(&opened, sources + i, 0), check_own(&found_so, sources + i, 0);
}
/* One region with all that a search looks at: the word at 0x40e, the EBDA and the area of the BIOS, without an RSDP and
 * with one. */
static void check_one_region(void) {
    static uint8_t low[2][BIOS + BIOS_SIZE - 0x400];
    static const struct zacpi_region regions[2][1] = {{{0x400, low[0], sizeof *low}}, {{0x400, low[1], sizeof *low}}};
    const struct row rows_of[2][2] = {
        {REFUSED(open, 0, NULL, NO, ZACPI_NO_VALID_RSDP, NULL), NOTHING(list_missing_ranges, 0)},
        {GOOD(open, 0, NULL, NO, 1, BIOS + 0x10000, 36, 0, 4, BIOS + 0x1ffe0, 20), NOTHING(list_missing_ranges, 0)}};
    size_t i, k;
    memcpy(low[0] + 0xe, word, 2), memcpy(low[1] + 0xe, word, 2);
    memcpy(low[1] + (BIOS - 0x400), bios, BIOS_SIZE);
    for (i = 0; i < 2; i++)
        for (k = 0; k < 2; k++) {
            const struct zacpi_source search = {regions[i], 1, 0, ZACPI_START_BIOS_SEARCH, 0};
            const struct zacpi_source lent = {regions[i], 1, 0, ZACPI_START_SEARCH, 0};
            check_own(&rows_of[i][k], &search, 0), check_own(&rows_of[i][k], &lent, 0);
        }
}
/* RSDPs of which a part is lent, before regions whose addresses have a lower half that is below theirs. */
static void check_part_before_high(void) {
    static const struct zacpi_region regions[] = {{BIOS, long_bios, 0x20}, {BIOS + 0x20, long_bios + 0x20, 0x1fff0},
                                                  {0x100000000, top, 16}, {0x200000010, top, 16},
                                                  {0x300000020, top, 16}};
    static const struct zacpi_source source = {regions, 5, 0, ZACPI_START_SEARCH, 0};
    const struct row missing_so = GOOD(list_missing_ranges, 0, NULL, NO, 1, 0xfffe0, 64);
    check_own(&missing_so, &source, 0);
}
/* Without platform timers a Virtual EL2 Timer is where their Offset points to. */
static void check_no_platform_timers(void) {
    static uint8_t bytes[40 + 104];
    static const struct zacpi_region regions[] = {{OWN, bytes, sizeof bytes}};
    static const struct zacpi_source source = {regions, 1, OWN, ZACPI_START_RSDT, 0};
    static const struct put root[] = {{36, 4, OWN + 40}, {0, 0, 0}},
                            puts[] = {{92, 4, 96} /* Platform Timer Offset */, {96, 4, 28} /* Virtual EL2 Timer GSIV */,
                                      {100, 4, 7} /* Flags: edge, active low, always on */, {0, 0, 0}};
    static const struct table rsdt = {OWN, "RSDT", 1, 40, root}, gtdt_of_0 = {OWN + 40, "GTDT", 3, 104, puts};
    const struct row timers_so = GOOD(get_arm_timers, 0, NULL, NO, 1, 0, 0, 0, 1, 3, 0, 1, 0, 1, 3, 0, 1,
                                             0, 1, 3, 0, 1, 0, 1, 3, 0, 1, 28, 3, 1, 1, 1, 0);
    lay_out_at(bytes, 40, &rsdt), lay_out_at(bytes + 40, 104, &gtdt_of_0);
    check_own(&timers_so, &source, 0);
}

/* A GT Block whose Length has more than eight bits, of six frames, and with a Timer Count of each byte: more frames
 * than it has are missing after its last one. */
PUTS(long_block, {88, 4, 1} /* Platform Timer Count */, {92, 4, 104} /* Platform Timer Offset */,
     {104 + 1, 2, 260} /* Length */, {104 + 16, 4, 20} /* GT Block Timer Offset */);
static void check_gt_blocks(void) {
    static const uint32_t counts[] = {6, 0x100, 0x10000, 0x1000000};
    static uint8_t bytes[4][40 + 364];
    static struct zacpi_region regions[4];
    static const struct put root[] = {{36, 4, OWN + 40}, {0, 0, 0}};
    static const struct table rsdt = {OWN, "RSDT", 1, 40, root}, gtdt_of_1 = {OWN + 40, "GTDT", 3, 364, long_block};
    size_t i;
    for (i = 0; i < 4; i++) {
        const struct zacpi_source source = {&regions[i], 1, OWN, ZACPI_START_RSDT, 0};
        const struct row timers_so = GOOD(get_arm_timers, 0, NULL, NO, 1, 0, 0, 0, 1, 3, 0, 1, 0, 1, 3, 0, 1,
                                                 0, 1, 3, 0, 1, 0, 1, 3, 0, 1, 0, 1, 3, 0, 1, counts[i] != 6),
                         none = NOTHING(list_gtdt_faults, 0),
                         one = GOOD(list_gtdt_faults, 0, NULL, NO, 1, OWN + 40 + 364, ZACPI_INVALID_TIMER_LENGTH, 0);
        lay_out_at(bytes[i], 40, &rsdt), lay_out_at(bytes[i] + 40, 364, &gtdt_of_1);
        put(bytes[i] + 40 + 104 + 12, 4, counts[i]), bytes[i][40 + 9] = 0; /* GT Block Timer Count */
        zacpi_set_checksum(bytes[i] + 40, 364);
        regions[i].address = OWN, regions[i].bytes = bytes[i], regions[i].length = sizeof bytes[i];
        check_own(&timers_so, &source, 0);
        check_own(counts[i] == 6 ? &none : &one, &source, 0);
    }
}

/* An index of 2^32 isn't 0, where a size_t has so many bits. */
static void check_high_indexes(void) {
    const uint64_t high = (uint64_t)1 << 32;
    const struct row high_rows[] = {
        REFUSED(find_nth_table, HPETS, "HPET", A(high), ZACPI_TABLE_MISSING, "HPET"),
        REFUSED(list_dmar_scopes, UNITS, NULL, A(high), ZACPI_NO_IOMMU, NULL),
        REFUSED(list_dmar_structure_scopes, ALL_KINDS, NULL, A(ZACPI_DMAR_ATSR, high), ZACPI_NO_IOMMU, NULL),
        REFUSED(list_ivrs_entries, UNITS, NULL, A(high), ZACPI_NO_IOMMU, NULL),
        REFUSED(distance, ARM, NULL, A(high, 0), ZACPI_NO_DISTANCE, NULL),
        REFUSED(distance, ARM, NULL, A(0, high), ZACPI_NO_DISTANCE, NULL), PAST(list_processors_from, DESKTOP, high, 5),
        PAST(list_gic_cpu_interfaces_from, ARM, high, 2), PAST(list_rintcs_from, RISCV, high, 2),
        PAST(list_processor_affinities_from, ALL_KINDS, high, 3)};
    size_t i;
    for (i = 0; SIZE_MAX > UINT32_MAX && i < sizeof high_rows / sizeof *high_rows; i++)
        if (is_there(high_rows[i].call->name)) check_rooms(&high_rows[i]);
}

/* A MADT of Arm's entries in which no two bytes of a field are the same, and none is 0. */
PUTS(whole_fields,
    {44, 2, HEADER(0x0c, 24)}, {44 + 4, 4, 0x14131211} /* GIC ID */,
    {44 + 8, 8, 0x2827262524232221} /* Physical Base Address */, {44 + 16, 4, 0x34333231} /* System Vector Base */,
    {44 + 20, 1, 3} /* GIC version */,
    {68, 2, HEADER(0x0b, 82)}, {68 + 4, 4, 0x44434241} /* CPU Interface Number */,
    {68 + 8, 4, 0x54535251} /* ACPI Processor UID */, {68 + 12, 4, 0xffffffff} /* Flags */,
    {68 + 16, 4, 0x64636261} /* Parking Protocol Version */, {68 + 20, 4, 0x74737271} /* Performance Interrupt GSIV */,
    {68 + 24, 8, 0x8887868584838281} /* Parked Address */, {68 + 32, 8, 0x9897969594939291} /* Physical Base Address */,
    {68 + 40, 8, 0xa8a7a6a5a4a3a2a1} /* GICV */, {68 + 48, 8, 0xb8b7b6b5b4b3b2b1} /* GICH */,
    {68 + 56, 4, 0xc4c3c2c1} /* VGIC Maintenance interrupt */, {68 + 60, 8, 0xd8d7d6d5d4d3d2d1} /* GICR Base Address */,
    {68 + 68, 8, 0xe8e7e6e5e4e3e2e1} /* MPIDR */, {68 + 76, 1, 0xf1} /* Processor Power Efficiency Class */,
    {68 + 78, 2, 0x1615} /* SPE overflow Interrupt */, {68 + 80, 2, 0x1817} /* TRBE Interrupt */,
    {150, 2, HEADER(0x0e, 16)}, {150 + 4, 8, 0x2f2e2d2c2b2a2928} /* Discovery Range Base Address */,
    {150 + 12, 4, 0x38373635} /* Discovery Range Length */,
    {166, 2, HEADER(0x0f, 20)}, {166 + 4, 4, 0x48474645} /* GIC ITS ID */,
    {166 + 8, 8, 0x5c5b5a5958575655} /* Physical Base Address */,
    {186, 2, HEADER(0x0d, 24)}, {186 + 4, 4, 0x68676665} /* GIC MSI Frame ID */,
    {186 + 8, 8, 0x7c7b7a7978777675} /* Physical Base Address */, {186 + 16, 4, 0xffffffff} /* Flags */,
    {186 + 20, 2, 0x8a89} /* SPI Count */, {186 + 22, 2, 0x8c8b} /* SPI Base */);
static void check_whole_fields(void) {
    static uint8_t bytes[40 + 210];
    static const struct zacpi_region regions[] = {{OWN, bytes, sizeof bytes}};
    static const struct zacpi_source source = {regions, 1, OWN, ZACPI_START_RSDT, 0};
    static const struct put root[] = {{36, 4, OWN + 40}, {0, 0, 0}};
    static const struct table rsdt = {OWN, "RSDT", 1, 40, root}, whole = {OWN + 40, "APIC", 6, 210, whole_fields};
    const struct row rows_of[] = {
        GOOD(get_gic_distributor, 0, NULL, NO, 1, 0x2827262524232221, 0x14131211, 0x34333231, 3),
        GOOD(list_gic_cpu_interfaces, 0, NULL, NO, 1, 0xe8e7e6e5e4e3e2e1, 0x8887868584838281, 0x9897969594939291,
             0xa8a7a6a5a4a3a2a1, 0xb8b7b6b5b4b3b2b1, 0xd8d7d6d5d4d3d2d1, 0x44434241, 0x54535251, 0x74737271, 0xc4c3c2c1,
             0x64636261, 0x1615, 0x1817, 1, 1, ZACPI_TRIGGER_EDGE, ZACPI_TRIGGER_EDGE, 0xf1),
        GOOD(list_gic_redistributors, 0, NULL, NO, 1, 0x2f2e2d2c2b2a2928, 0x38373635),
        GOOD(list_gic_translation_services, 0, NULL, NO, 1, 0x5c5b5a5958575655, 0x48474645),
        GOOD(list_gic_msi_frames, 0, NULL, NO, 1, 0x7c7b7a7978777675, 0x68676665, 0x8c8b, 0x8a89, 1)};
    size_t i;
    lay_out_at(bytes, 40, &rsdt), lay_out_at(bytes + 40, 210, &whole);
    for (i = 0; i < sizeof rows_of / sizeof *rows_of; i++) check_own(&rows_of[i], &source, 0);
}

/* An I/O APIC whose base, and an override whose interrupt, have more than 16 bits. */
PUTS(high_pins,
     {44, 2, HEADER(1, 12)}, {44 + 2, 1, 2} /* I/O APIC ID */, {44 + 4, 4, 0xfec00000} /* I/O APIC Address */,
     {44 + 8, 4, 0x12345670} /* Global System Interrupt Base */,
     {56, 2, HEADER(2, 10)}, {56 + 3, 1, 5} /* Source */, {56 + 4, 4, 0x12345678} /* Global System Interrupt */);
static void check_high_pins(void) {
    static uint8_t bytes[40 + 66];
    static const struct zacpi_region regions[] = {{OWN, bytes, sizeof bytes}};
    static const struct zacpi_source source = {regions, 1, OWN, ZACPI_START_RSDT, 0};
    static const struct put root[] = {{36, 4, OWN + 40}, {0, 0, 0}};
    static const struct table rsdt = {OWN, "RSDT", 1, 40, root}, madt = {OWN + 40, "APIC", 5, 66, high_pins};
    const struct row routes = GOOD(get_isa_interrupts, 0, NULL, NO, 16, UNPINNED(0), UNPINNED(1), UNPINNED(2),
                                   UNPINNED(3), UNPINNED(4), 0x12345678, ZACPI_POLARITY_HIGH, ZACPI_TRIGGER_EDGE,
                                   0xfec00000, 0x12345670, 2, 8, 1, 1, UNPINNED(6), UNPINNED(7), UNPINNED(8),
                                   UNPINNED(9), UNPINNED(10), UNPINNED(11), UNPINNED(12), UNPINNED(13), UNPINNED(14),
                                   UNPINNED(15));
    lay_out_at(bytes, 40, &rsdt), lay_out_at(bytes + 40, 66, &madt);
    check_own(&routes, &source, 0);
}

/* A table whose Length has more than 16 bits. */
static void check_long_table(void) {
    static uint8_t bytes[40 + 0x12345];
    static const struct zacpi_region regions[] = {{OWN, bytes, sizeof bytes}};
    static const struct zacpi_source source = {regions, 1, OWN, ZACPI_START_RSDT, 0};
    static const struct put root[] = {{36, 4, OWN + 40}, {0, 0, 0}};
    static const struct table rsdt = {OWN, "RSDT", 1, 40, root}, oem = {OWN + 40, "OEM1", 1, 0x12345, no_fields};
    const struct row found = GOOD(find_nth_table, 0, "OEM1", A(0), 1, OWN + 40, 0x12345, LETTERS('O', 'E', 'M', '1'), 1,
                                  NO_IDS);
    lay_out_at(bytes, 40, &rsdt), lay_out_at(bytes + 40, 0x12345, &oem);
    check_own(&found, &source, 0);
}

static void check_values(void) {
    const struct zacpi_source source = {own_regions, 2, OWN, ZACPI_START_XSDT, 0};
    const struct zacpi_source search = {own_search, 3, 0, ZACPI_START_BIOS_SEARCH, 0};
    size_t i;
    for (i = 0; i < sizeof own_tables / sizeof *own_tables; i++)
        lay_out_at(own + (own_tables[i].address - OWN), own_tables[i].length, &own_tables[i]);
    lay_out_at(own_madt, OWN_MADT_SIZE, &own_high);
    memcpy(own_ebda + 0x3e0, ebda + 0x3e0, 36);
    for (i = 0; i < sizeof own_rows / sizeof *own_rows; i++) check_own(&own_rows[i], &source, 0);
    check_own(&own_accepted, &source, ZACPI_ACCEPT_SUMS);
    check_own(&own_searched, &search, 0);
    check_short_entries();
    check_long_rsdp();
    check_one_region();
    check_part_before_high();
    check_no_platform_timers();
    check_gt_blocks();
    check_high_indexes();
    check_whole_fields();
    check_high_pins();
    check_long_table();
}
#endif
