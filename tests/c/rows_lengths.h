/* Rows of tables whose structures have lengths between those that are usual, or fields that are seldom set, worked out
 * by hand from rows_tables_lengths.h. For rows.c. */
#ifndef ROWS_LENGTHS_H
#define ROWS_LENGTHS_H

/* What a GICC has that is zeros but for its number, its UID and its efficiency class. */
#define GICC_OF(number, uid, class) \
    0, 0, 0, 0, 0, 0, number, uid, 0, 0, 0, 0, 0, 0, 0, ZACPI_TRIGGER_LEVEL, ZACPI_TRIGGER_LEVEL, class
#define FAULT_78(at, type) FAULT(MADT_GICC_78, at, type)
/* A machine with one processor, whatever its MADT is. */
#define ONE_PROCESSOR(machine, uid, id) \
    GOOD(get_platform, machine, NULL, NO, 1, 0, 0, 0, 0, 0, 1, 1, 0, 1, 0, 0, 0, 0, \
         uid, id, ZACPI_PROCESSOR_RUNNING, 1, 0, 0, PAINTED_PROCESSOR, PAINTED_PROCESSOR, PAINTED_PROCESSOR, \
         PAINTED_PROCESSOR, PAINTED_IO_APIC, PAINTED_IO_APIC, PAINTED_OVERRIDE, PAINTED_OVERRIDE, \
         PAINTED_NMI_SOURCE, PAINTED_NMI_SOURCE, PAINTED_NMI_SOURCE, PAINTED_NMI_LINE, PAINTED_NMI_LINE, \
         PAINTED_NMI_LINE, PAINTED_NMI_LINE)
/* An ISA interrupt at the second I/O APIC of PINS, whose base is 4. */
#define PINNED_4(number) number, ZACPI_POLARITY_HIGH, ZACPI_TRIGGER_EDGE, 0xfec01000, 4, 3, number - 4, 1, 1
/* A watchdog of zeros, and then no structure. */
#define NO_SECOND_TIMER(machine, gtdt, type) \
    NO_TIMERS(machine, 1), GOOD(list_watchdogs, machine, NULL, NO, 1, 0, 0, 0, 1, 3, 0), \
    NOTHING(list_gt_frames, machine), \
    GOOD(list_gtdt_faults, machine, NULL, NO, 1, AT(gtdt) + 124, ZACPI_INVALID_TIMER_LENGTH, type)
#define EL2_TIMER_28(machine) \
    GOOD(get_arm_timers, machine, NULL, NO, 1, 0, 0, 0, 1, 3, 0, 1, 0, 1, 3, 0, 1, 0, 1, 3, 0, 1, 0, 1, 3, 0, 1, \
         28, 3, 1, 0, 1, 0)
#define BARE_UNIT 0xfeb80000, 0, 0, 0, 2, 0, 0, 0x10, 0, 0
#define NO_WHOLE_ENTRIES(at) AT(IVRS_ENDS) + at, ZACPI_IOMMU_INVALID_STRUCTURE_LENGTH, 0x10
/* Neither unit nor device is found in a DMAR without a scope. */
#define NO_SOURCE(machine, error) \
    REFUSED(get_dmar_unit, machine, NULL, A(0, 0, 1, HOP_2_0), error, NULL), \
    REFUSED(get_dmar_io_apic, machine, NULL, A(2), error, NULL), \
    REFUSED(get_dmar_hpet, machine, NULL, A(2), error, NULL), NOTHING(list_dmar_reserved, machine), \
    {&call_list_dmar_reserved, machine, NULL, A(0, 0, 1, HOP_2_0), ZACPI_OK, NULL, 0, NULL, 0}
#define NO_SCOPES(machine, type) \
    {&call_list_dmar_structure_scopes, machine, NULL, A(type, 0), ZACPI_OK, NULL, 0, NULL, 0}
/* A byte that no entry begins in. */
#define LEFT_OVER(machine, madt, at) \
    REFUSED(get_interrupt_model, machine, NULL, NO, ZACPI_MADT_INVALID_ENTRY_LENGTH, NULL), \
    REFUSED(get_platform, machine, NULL, NO, ZACPI_MADT_INVALID_ENTRY_LENGTH, NULL), \
    GOOD(list_madt_faults, machine, NULL, NO, 1, AT(madt) + at, ZACPI_MADT_INVALID_ENTRY_LENGTH, 0)

static const struct row length_rows[] = {
    REFUSED(get_interrupt_model, GICC_78, NULL, NO, ZACPI_MADT_UNEXPECTED_ENTRY, NULL),
    REFUSED(get_platform, GICC_78, NULL, NO, ZACPI_MADT_UNEXPECTED_ENTRY, NULL),
    GOOD(list_madt_faults, GICC_78, NULL, NO, 8, FAULT_78(52, 0x0b), FAULT_78(130, 0x0b), FAULT_78(209, 0x0c),
         FAULT_78(269, 0x0d), FAULT_78(293, 0x0e), FAULT_78(309, 0x0f), FAULT_78(329, 0x0b), FAULT_78(406, 0x0b)),
    GOOD(get_local_apic, GICC_78, NULL, NO, 1, 0, 0), GOOD(list_io_apics, GICC_78, NULL, NO, 1, 0xfec00000, 0, 2),
    GOOD(list_overrides, GICC_78, NULL, NO, 1, 20, 9, ZACPI_POLARITY_HIGH, ZACPI_TRIGGER_LEVEL, 0),
    GOOD(list_nmi_sources, GICC_78, NULL, NO, 1, 50, ZACPI_POLARITY_HIGH, ZACPI_TRIGGER_EDGE),
    GOOD(list_nmi_lines, GICC_78, NULL, NO, 1, 0, 1, 1, AS_BUS),
    GOOD(list_processors, GICC_78, NULL, NO, 1, 1, 10, ZACPI_PROCESSOR_RUNNING, 1, 0, 0),
    GOOD(get_mailbox_address, GICC_78, NULL, NO, 1, 0x27b000000),
    GOOD(get_sci_interrupt, GICC_78, NULL, NO, 1, 20, ZACPI_POLARITY_HIGH, ZACPI_TRIGGER_LEVEL),
    GOOD(get_isa_interrupt, GICC_78, NULL, A(9), 1, 20, ZACPI_POLARITY_HIGH, ZACPI_TRIGGER_LEVEL),
    GOOD(get_io_apic_pin, GICC_78, NULL, A(20), 1, 0xfec00000, 0, 2, 20),
    GOOD(get_isa_interrupts, GICC_78, NULL, NO, 16, PINNED(0), PINNED(1), PINNED(2), PINNED(3), PINNED(4), PINNED(5),
         PINNED(6), PINNED(7), PINNED(8), EVERY_ROUTE, PINNED(10), PINNED(11), PINNED(12), PINNED(13), PINNED(14),
         PINNED(15)),
    GOOD(get_gic_distributor, GICC_78, NULL, NO, 1, 0x2f000000, 7, 5, 3),
    GOOD(list_gic_cpu_interfaces, GICC_78, NULL, NO, 4, GICC_OF(1, 2, 0), GICC_OF(3, 4, 0), GICC_OF(5, 6, 9),
         GICC_OF(7, 8, 0)),
    GOOD(list_gic_redistributors, GICC_78, NULL, NO, 1, 0x12f200000, 0x40000),
    GOOD(list_gic_translation_services, GICC_78, NULL, NO, 1, 0x12f020000, 6),
    GOOD(list_gic_msi_frames, GICC_78, NULL, NO, 1, 0x12f030000, 8, 64, 32, 1),
    REFUSED(list_rintcs, GICC_78, NULL, NO, ZACPI_NO_RISCV, NULL),

    /* Ids that are UTF-8 are no fault, whatever is accepted. */
    ONE_PROCESSOR(TEXT_IDS, 6, 16), GOOD(get_hpet, TEXT_IDS, NULL, NO, 1, HPET_OF_ZEROS(0xfed70000)),
    /* Their Lengths reach past what is lent. */
    REFUSED(get_hpet, LOST, NULL, NO, ZACPI_TABLE_MISSING, "HPET"), NOTHING(list_hpets, LOST),
    GOOD(get_interrupt_model, LOST, NULL, NO, 1, 0, 0, 0, 0, 0, 0, 0, 0),
    REFUSED(get_platform, LOST, NULL, NO, ZACPI_NO_APICS, NULL),
    /* The first I/O APIC with the greatest base that is at most the interrupt. */
    GOOD(get_io_apic_pin, PINS, NULL, A(3), 1, 0xfec00000, 0, 2, 3),
    GOOD(get_io_apic_pin, PINS, NULL, A(4), 1, 0xfec01000, 4, 3, 0),
    GOOD(get_io_apic_pin, PINS, NULL, A(UINT32_MAX), 1, 0xfec01000, 4, 3, UINT32_MAX - 4),
    GOOD(get_isa_interrupts, PINS, NULL, NO, 16, PINNED(0), PINNED(1), PINNED(2), PINNED(3), PINNED_4(4), PINNED_4(5),
         PINNED_4(6), PINNED_4(7), PINNED_4(8), PINNED_4(9), PINNED_4(10), PINNED_4(11), PINNED_4(12), PINNED_4(13),
         PINNED_4(14), PINNED_4(15)),
    GOOD(get_platform, PINS, NULL, NO, 1, 0, 3, 0, 0, 0, 0, 1, 0, 0, 3, 0, 0, 0, PAINTED_PROCESSOR, PAINTED_PROCESSOR,
         PAINTED_PROCESSOR, PAINTED_PROCESSOR, PAINTED_PROCESSOR, 0xfec00000, 0, 2, 0xfec01000, 4, 3,
         PAINTED_OVERRIDE, PAINTED_OVERRIDE, PAINTED_NMI_SOURCE, PAINTED_NMI_SOURCE, PAINTED_NMI_SOURCE,
         PAINTED_NMI_LINE, PAINTED_NMI_LINE, PAINTED_NMI_LINE, PAINTED_NMI_LINE),
    GOOD(get_local_apic, OTHER_BUS, NULL, NO, 1, 0, 0),

    NO_SECOND_TIMER(LEFT_1, GTDT_LEFT_1, 1), NO_SECOND_TIMER(LEFT_2, GTDT_LEFT_2, 1),
    NO_SECOND_TIMER(LEFT_2_OF_2, GTDT_LEFT_2_OF_2, 1), NO_SECOND_TIMER(TIMER_OF_2, GTDT_OF_2, 1),
    EL2_TIMER_28(TIMER_TYPES), EL2_TIMER_28(NO_TIMER), NOTHING(list_gtdt_faults, TIMER_TYPES),
    NOTHING(list_gtdt_faults, NO_TIMER), NOTHING(list_gt_frames, TIMER_TYPES), NOTHING(list_gt_frames, NO_TIMER),
    GOOD(list_watchdogs, TIMER_TYPES, NULL, NO, 1, 0, 0, 0, 1, 3, 0), NOTHING(list_watchdogs, NO_TIMER),

    GOOD(get_facs, LOW_FACS, NULL, NO, 1, AT(FACS), 0x123456789abcdef, 64, 0x11223344, 0x55667788, 0x8d7c6b03, 2),
    GOOD(get_sleep_types, LOW_FACS, NULL, A(5), 1, 5, 1), GOOD(get_sleep_types, X_DSDT, NULL, A(5), 1, 5, 1),
    REFUSED(get_sleep_types, EMPTY, NULL, A(5), ZACPI_TABLE_MISSING, "FACP"),
    GOOD(get_reset_plan, RESET_128, NULL, NO, 1, ONE_STEP(STEP(1, 8, 1, 0xcf9, 0xff, 0, 8, ZACPI_STEP_WRITE))),
    REFUSED(get_reset_plan, RESET_116, NULL, NO, ZACPI_NO_RESET, NULL),
    REFUSED(get_sleep_plan, CONTROL_0, NULL, A(5), ZACPI_NO_REGISTER, NULL),
    GOOD(get_console, CONSOLE_85, NULL, NO, 1, ABSENT, 230400, 0, 48000000, 0, 0, 0, 0, 0, 0, 0, 1, 0, 0, 0, 0, 0, 0),
    GOOD(get_console, CONSOLE_87, NULL, NO, 1, ABSENT, 230400, 0, 48000000, 0, 0, 0, 0, 0, 0, 0, 1, 0, 0, 0, 0, 0, 0),
    REFUSED(get_sleep_plan, WIDE_CONTROL, NULL, A(5), ZACPI_INVALID_GENERIC_ADDRESS, NULL),
    NOTHING(list_ssdts, EMPTY), REFUSED(find_nth_table, EMPTY, "OEM1", A(0), ZACPI_TABLE_MISSING, "OEM1"),

    GOOD(list_processor_affinities, NOT_ENABLED, NULL, NO, 1, 10, 3, 0, 2),
    GOOD(list_processor_affinities_from, NOT_ENABLED, NULL, A(0, 1), 1, 10, 3, 0, 2),
    REFUSED(domain_of_apic, NOT_ENABLED, NULL, A(9), ZACPI_NO_DOMAIN, NULL),
    REFUSED(domain_of_processor, NOT_ENABLED, NULL, A(9), ZACPI_NO_DOMAIN, NULL),
    NOTHING(list_generic_initiators, FRONTS), NOTHING(list_its_affinities, FRONTS),
    REFUSED(domain_of_address, ODD, NULL, A(0), ZACPI_NUMA_INVALID_ENTRY_LENGTH, NULL), /* a byte is left */
    REFUSED(domain_of_apic, ODD, NULL, A(8), ZACPI_NUMA_INVALID_ENTRY_LENGTH, NULL),
    REFUSED(domain_of_processor, ODD, NULL, A(9), ZACPI_NUMA_INVALID_ENTRY_LENGTH, NULL),

    NO_SOURCE(UNSCOPED_UNITS, ZACPI_NO_IOMMU), NO_SCOPES(UNSCOPED_UNITS, ZACPI_DMAR_DRHD),
    NO_SCOPES(UNSCOPED_UNITS, ZACPI_DMAR_RMRR), NO_SCOPES(UNSCOPED_UNITS, ZACPI_DMAR_ATSR),
    NO_SCOPES(UNSCOPED_UNITS, ZACPI_DMAR_ANDD), NO_SCOPES(UNSCOPED_UNITS, ZACPI_DMAR_SATC),
    GOOD(list_dmar_units, UNSCOPED_UNITS, NULL, NO, 1, FIRST_UNIT), NOTHING(list_dmar_faults, UNSCOPED_UNITS),
    GOOD(list_dmar_regions, UNSCOPED_UNITS, NULL, NO, 1, 0x1000, 0x1fff, 0),
    NO_SOURCE(ONE_BYTE_MORE, ZACPI_IOMMU_INVALID_STRUCTURE_LENGTH), NO_SCOPES(ONE_BYTE_MORE, ZACPI_DMAR_DRHD),
    NO_SCOPES(ONE_BYTE_MORE, ZACPI_DMAR_RMRR), NO_SCOPES(ONE_BYTE_MORE, ZACPI_DMAR_ATSR),
    GOOD(list_dmar_units, ONE_BYTE_MORE, NULL, NO, 1, FIRST_UNIT),
    GOOD(list_dmar_faults, ONE_BYTE_MORE, NULL, NO, 3, AT(DMAR_17) + 48, ZACPI_IOMMU_INVALID_STRUCTURE_LENGTH, 0,
         AT(DMAR_17) + 65, ZACPI_IOMMU_INVALID_STRUCTURE_LENGTH, 1,
         AT(DMAR_17) + 90, ZACPI_IOMMU_INVALID_STRUCTURE_LENGTH, 2),
    REFUSED(get_dmar_io_apic, ALL_KINDS, NULL, A(2), ZACPI_IOMMU_INVALID_STRUCTURE_LENGTH, NULL),
    REFUSED(get_dmar_unit, ALL_KINDS, NULL, A(0, 0, 1, HOP_2_0), ZACPI_IOMMU_INVALID_STRUCTURE_LENGTH, NULL),
    {&call_list_dmar_reserved, ALL_KINDS, NULL, A(2, 7, 1, 0x106), ZACPI_OK, NULL, 1, VALUES(0x1000, 0x1fff, 2), 3},

    REFUSED(get_ivrs_unit, UNSCOPED_UNITS, NULL, A(0, 2), ZACPI_IOMMU_INVALID_STRUCTURE_LENGTH, NULL),
    GOOD(list_ivrs_units, UNSCOPED_UNITS, NULL, NO, 6, BARE_UNIT, BARE_UNIT, BARE_UNIT, BARE_UNIT, BARE_UNIT,
         BARE_UNIT),
    {&call_list_ivrs_entries, UNSCOPED_UNITS, NULL, A(0), ZACPI_OK, NULL, 0, NULL, 0},
    {&call_list_ivrs_entries, UNSCOPED_UNITS, NULL, A(1), ZACPI_OK, NULL, 0, NULL, 0},
    {&call_list_ivrs_entries, UNSCOPED_UNITS, NULL, A(5), ZACPI_OK, NULL, 0, NULL, 0},
    GOOD(list_ivrs_faults, UNSCOPED_UNITS, NULL, NO, 5, NO_WHOLE_ENTRIES(72), NO_WHOLE_ENTRIES(106),
         NO_WHOLE_ENTRIES(151), NO_WHOLE_ENTRIES(179), NO_WHOLE_ENTRIES(211)),
    GOOD(get_ivrs_unit, ONE_BYTE_MORE, NULL, A(0, 2), 1, BLOCK_10, 2, 0xd7),
    REFUSED(get_ivrs_unit, ONE_BYTE_MORE, NULL, A(1, 2), ZACPI_NO_IOMMU, NULL),
    GOOD(list_ivrs_units, ONE_BYTE_MORE, NULL, NO, 1, BLOCK_10), NOTHING(list_ivrs_faults, ONE_BYTE_MORE),
    GOOD(list_ivrs_entries, ONE_BYTE_MORE, NULL, A(0), 2, 5, 7, 7, 8, 0, 0, 0, 0, NO_HID,
         1, 0, 0xffff, 0xd7, 0, 0, 0, 0, NO_HID),
    NOTHING(list_ivrs_memory, ONE_BYTE_MORE), NOTHING(list_ivrs_regions, ONE_BYTE_MORE),
    GOOD(list_ivrs_entries, UNITS_LONG, NULL, A(0), 3, 0x80, 5, 5, 6, 0, 0, 0, 0, NO_HID,
         0xc0, 7, 7, 8, 0, 0, 0, 0, NO_HID, 1, 0, 0xffff, 0xd7, 0, 0, 0, 0, NO_HID),

    LEFT_OVER(LEFT_45, MADT_45, 44), LEFT_OVER(LEFT_47, MADT_47, 46), LEFT_OVER(LEFT_53, MADT_53, 52),
    GOOD(get_isa_interrupts, SOURCE_16, NULL, NO, 16, UNPINNED(0), UNPINNED(1), UNPINNED(2), UNPINNED(3), UNPINNED(4),
         UNPINNED(5), UNPINNED(6), UNPINNED(7), UNPINNED(8), UNPINNED(9), UNPINNED(10), UNPINNED(11), UNPINNED(12),
         UNPINNED(13), UNPINNED(14), UNPINNED(15)),
    REFUSED(get_sci_interrupt, SCI_TRIGGER, NULL, NO, ZACPI_MADT_MPS_INTI_INVALID_TRIGGER_MODE, NULL),
    GOOD(list_ecam_ranges, HIGH_BUS, NULL, NO, 1, 0, 0, 0, 0),
    GOOD(get_fixed_hardware, NO_BLOCKS, NULL, NO, 1, 0, 0, 0, 1, 0, 0, 0, 1, ABSENT, 0, 1, 0, 0, 0, 1, ABSENT,
         ABSENT, ABSENT, ABSENT, ABSENT, 0, 0, 0, 0, 0, 1, 0, 0, 0, 0, 0, 1, 0, 0, 0, 0, 0, 1,
         0, 0, 0, 0, 0, 0, 0, 0, 0, 0, 0, 0, 0, 0, 0, 0, 0, 0, 0, 0, 0, 0, 0, 0, 0, 0, 0, 0, 0, 0, 6, 0, 0),
    GOOD(get_pm_timer, NO_BLOCKS, NULL, NO, 1, ABSENT, 0),
    REFUSED(distance, HIGH_BUS, NULL, A(1, 5), ZACPI_NO_DISTANCE, NULL), /* 2^64 + 4 */
    REFUSED(get_sleep_plan, HIGH_BUS, NULL, A(5), ZACPI_INVALID_GENERIC_ADDRESS, NULL),
    GOOD(list_dmar_scopes, HOPS, NULL, A(0), 1, 17, 1, 0, 0, 0, 1, 2, 3, 4, 5, 6),
    GOOD(list_dmar_scopes, HOPS, NULL, A(1), 1, 18, 1, 0, 0, 0, 1, 2, 3, 4, 5, 6),
    GOOD(list_dmar_structure_scopes, HOPS, NULL, A(ZACPI_DMAR_DRHD, 2), 2, 5, 1, 0, 0, 0, 1, 2, 3, 4, 0, 0,
         0, 4, 0, 5, 3, 0, 0, NO_HOPS),
    GOOD(get_dmar_hpet, HOPS, NULL, A(5), 1, 0xfed92000, 4096, 0, 0, 0, 0, 3, 0, 0, 0),
    {&call_list_dmar_reserved, HOPS, NULL, A(0, 0, 1, HOP_2_0), ZACPI_OK, NULL, 0, NULL, 0},
    REFUSED(get_ivrs_unit, HOPS, NULL, A(0, 2), ZACPI_IOMMU_INVALID_STRUCTURE_LENGTH, NULL),

    REFUSED(open, SEARCH_NOTHING, NULL, NO, ZACPI_MAP_FAILED, NULL),
    REFUSED(get_rsdp, SEARCH_NOTHING, NULL, NO, ZACPI_MAP_FAILED, NULL),
    GOOD(list_missing_ranges, SEARCH_NOTHING, NULL, NO, 1, 0x40e, 2),
    REFUSED(open, LENT_NOTHING, NULL, NO, ZACPI_NO_VALID_RSDP, NULL),
    REFUSED(get_rsdp, LENT_NOTHING, NULL, NO, ZACPI_NO_VALID_RSDP, NULL),
    NOTHING(list_missing_ranges, LENT_NOTHING),
    GOOD(get_rsdp, ZERO_WORD_LENT, NULL, NO, 1, BIOS + 0x1ffe0, 0, BIOS + 0x10000, 20, 0, 0),
    GOOD(list_missing_ranges, MANY_FAILED, NULL, NO, 1, EBDA, EBDA_SIZE),
    REFUSED(open, MANY_FAILED, NULL, NO, ZACPI_MAP_FAILED, NULL),
    REFUSED(open, START_65536, NULL, NO, ZACPI_UNKNOWN_START, NULL), /* its lower 16 bits are those of an RSDP */
    REFUSED(open, LOW_ROOT, NULL, NO, ZACPI_MAP_FAILED, NULL),
    REFUSED(open, LAST_ROOT, NULL, NO, ZACPI_MAP_FAILED, NULL),
    GOOD(list_missing_ranges, LOW_ROOT, NULL, NO, 1, 0x500, 36),
    GOOD(list_missing_ranges, LAST_ROOT, NULL, NO, 1, BASE + SIZE - 35, 36),
    REFUSED(open, HALF_WORD, NULL, NO, ZACPI_MAP_FAILED, NULL),
    REFUSED(get_rsdp, HALF_WORD, NULL, NO, ZACPI_MAP_FAILED, NULL),
    GOOD(list_missing_ranges, HALF_WORD, NULL, NO, 1, 0x40e, 2),
    GOOD(open, HALF_WORD_LENT, NULL, NO, 1, BIOS + 0x10000, 36, 0, 4, BIOS + 0x1ffe0, 20),
    GOOD(get_rsdp, HALF_WORD_LENT, NULL, NO, 1, BIOS + 0x1ffe0, 0, BIOS + 0x10000, 20, 0, 0),
    NOTHING(list_missing_ranges, HALF_WORD_LENT),
    GOOD(list_missing_ranges, HIGH_WORD, NULL, NO, 1, HIGH_EBDA, 0x410), /* also after 640 KiB */
    GOOD(open, HIGH_WORD_LENT, NULL, NO, 1, 0x200000, 36, 0, 4, HIGH_EBDA + 0x3c0, 20),
    GOOD(get_rsdp, HIGH_WORD_LENT, NULL, NO, 1, HIGH_EBDA + 0x3c0, 0, 0x200000, 20, 0, 0),
    NOTHING(list_missing_ranges, HIGH_WORD_LENT),
    GOOD(list_missing_ranges, TOO_HIGH_WORD, NULL, NO, 1, 0x80000, 0x20010),
    REFUSED(open, TOO_HIGH_WORD, NULL, NO, ZACPI_MAP_FAILED, NULL),
    REFUSED(open, TOO_HIGH_WORD_LENT, NULL, NO, ZACPI_NO_VALID_RSDP, NULL),
    REFUSED(get_rsdp, TOO_HIGH_WORD_LENT, NULL, NO, ZACPI_NO_VALID_RSDP, NULL),
    NOTHING(list_missing_ranges, TOO_HIGH_WORD_LENT),
    GOOD(list_missing_ranges, SHORT_EBDA, NULL, NO, 1, EBDA, EBDA_SIZE),
    GOOD(open, MANY_LENT, NULL, NO, 1, BIOS + 0x10000, 36, 0, 4, BIOS + 0x1ffe0, 20),
    GOOD(get_rsdp, MANY_LENT, NULL, NO, 1, BIOS + 0x1ffe0, 0, BIOS + 0x10000, 20, 0, 0),
    NOTHING(list_missing_ranges, MANY_LENT), NOTHING(list_missing_ranges, MANY_SEARCHED),
    GOOD(open, MANY_SEARCHED, NULL, NO, 1, BIOS + 0x10000, 36, 0, 4, BIOS + 0x1ffe0, 20),
    REFUSED(open, ONLY_HIGH, NULL, NO, ZACPI_MAP_FAILED, NULL),
    GOOD(list_missing_ranges, ONLY_HIGH, NULL, NO, 1, 0x40e, 2),
    REFUSED(open, LENT_HIGH, NULL, NO, ZACPI_NO_VALID_RSDP, NULL),
    REFUSED(get_rsdp, LENT_HIGH, NULL, NO, ZACPI_NO_VALID_RSDP, NULL), NOTHING(list_missing_ranges, LENT_HIGH)};

/* A MADT of FLAWED_PC and an HPET by what is accepted. */
static const struct {
    uint32_t accept;
    struct row row;
} flawed_rows[] = {{0, ONE_PROCESSOR(FLAWED_PC, 5, 15)}, {SUMS, ONE_PROCESSOR(FLAWED_PC, 4, 14)},
                   {IDS, ONE_PROCESSOR(FLAWED_PC, 2, 12)}, {BOTH, ONE_PROCESSOR(FLAWED_PC, 1, 11)},
                   {0, ONE_PROCESSOR(SUM_FIRST, 5, 15)}, {IDS, ONE_PROCESSOR(SUM_FIRST, 5, 15)},
                   {SUMS, ONE_PROCESSOR(SUM_FIRST, 4, 14)},
                   MISSING(0, get_hpet, HPET_ID_80, "HPET"), MISSING(SUMS, get_hpet, HPET_ID_80, "HPET"),
                   {IDS, GOOD(get_hpet, HPET_ID_80, NULL, NO, 1, HPET_OF_ZEROS(0xfed80000))}};
#endif
