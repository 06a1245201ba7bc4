/* Rows of each call over a MADT, worked out by hand from rows_tables_every.h: of all Types it returns its own, wherever
 * they are among entries that it doesn't know, and nothing of what comes after an entry whose Length can't be. For
 * rows.c. */
#ifndef ROWS_EVERY_H
#define ROWS_EVERY_H

#define EVERY_ROUTE 20, ZACPI_POLARITY_HIGH, ZACPI_TRIGGER_LEVEL, 0xfec00000, 0, 2, 20, 1, 1
#define FAULT(madt, at, type) AT(madt) + at, ZACPI_MADT_UNEXPECTED_ENTRY, type
/* What a PC's calls return of either table. */
#define OF_APICS(machine) \
    GOOD(get_local_apic, machine, NULL, NO, 1, 0x1fee00000, 1), \
    GOOD(list_io_apics, machine, NULL, NO, 2, 0xfec00000, 0, 2, 0xfec01000, 24, 3), \
    GOOD(list_overrides, machine, NULL, NO, 1, 20, 9, ZACPI_POLARITY_HIGH, ZACPI_TRIGGER_LEVEL, 0), \
    GOOD(list_nmi_sources, machine, NULL, NO, 1, 50, ZACPI_POLARITY_HIGH, ZACPI_TRIGGER_EDGE), \
    GOOD(list_nmi_lines, machine, NULL, NO, 2, 0, 1, 1, AS_BUS, 301, 0, 0, ZACPI_POLARITY_LOW, ZACPI_TRIGGER_LEVEL), \
    GOOD(list_processors, machine, NULL, NO, 2, 1, 10, ZACPI_PROCESSOR_RUNNING, 1, 0, 0, \
         301, 300, ZACPI_PROCESSOR_WAITING, 0, 0, 1), \
    GOOD(get_mailbox_address, machine, NULL, NO, 1, 0x27b000000), \
    GOOD(get_sci_interrupt, machine, NULL, NO, 1, 20, ZACPI_POLARITY_HIGH, ZACPI_TRIGGER_LEVEL), \
    GOOD(get_isa_interrupt, machine, NULL, A(9), 1, 20, ZACPI_POLARITY_HIGH, ZACPI_TRIGGER_LEVEL), \
    GOOD(get_isa_interrupt, machine, NULL, A(0), 1, 0, ZACPI_POLARITY_HIGH, ZACPI_TRIGGER_EDGE), \
    GOOD(get_io_apic_pin, machine, NULL, A(20), 1, 0xfec00000, 0, 2, 20), \
    GOOD(get_io_apic_pin, machine, NULL, A(30), 1, 0xfec01000, 24, 3, 6), \
    GOOD(get_isa_interrupts, machine, NULL, NO, 16, PINNED(0), PINNED(1), PINNED(2), PINNED(3), PINNED(4), PINNED(5), \
         PINNED(6), PINNED(7), PINNED(8), EVERY_ROUTE, PINNED(10), PINNED(11), PINNED(12), PINNED(13), PINNED(14), \
         PINNED(15)), \
    GOOD(list_rintcs, machine, NULL, NO, 1, 7, 0, 0, 8, 0, 0, 9), \
    GOOD(list_imsics, machine, NULL, NO, 1, 0, 63, 0, 0, 0, 0, 0, 5), \
    GOOD(list_aplics, machine, NULL, NO, 1, 0xd000000, 0, 0, 0, 0, 0, 0, 0, 1), \
    GOOD(list_plics, machine, NULL, NO, 1, 0xc000000, 0, 0, 0, 0, 0, 0, 0, 3)

/* The calls of a machine without a GIC, or with one that isn't reached. */
#define NO_GIC_LISTS(machine) \
    REFUSED(list_gic_cpu_interfaces, machine, NULL, NO, ZACPI_NO_GIC, NULL), \
    REFUSED(list_gic_redistributors, machine, NULL, NO, ZACPI_NO_GIC, NULL), \
    REFUSED(list_gic_translation_services, machine, NULL, NO, ZACPI_NO_GIC, NULL), \
    REFUSED(list_gic_msi_frames, machine, NULL, NO, ZACPI_NO_GIC, NULL)
#define NO_APIC_LISTS(machine) \
    REFUSED(list_io_apics, machine, NULL, NO, ZACPI_NO_APICS, NULL), \
    REFUSED(list_overrides, machine, NULL, NO, ZACPI_NO_APICS, NULL), \
    REFUSED(list_nmi_sources, machine, NULL, NO, ZACPI_NO_APICS, NULL), \
    REFUSED(list_nmi_lines, machine, NULL, NO, ZACPI_NO_APICS, NULL), \
    REFUSED(list_processors, machine, NULL, NO, ZACPI_NO_APICS, NULL), \
    REFUSED(get_sci_interrupt, machine, NULL, NO, ZACPI_NO_APICS, NULL), \
    REFUSED(get_isa_interrupt, machine, NULL, A(4), ZACPI_NO_APICS, NULL), \
    REFUSED(get_isa_interrupts, machine, NULL, NO, ZACPI_NO_APICS, NULL)

/* A processor and a distributor, and nothing of what would come after the fault. */
#define ENDS_EARLY(machine, madt, at, type) \
    REFUSED(get_interrupt_model, machine, NULL, NO, ZACPI_MADT_UNEXPECTED_ENTRY, NULL), \
    REFUSED(get_platform, machine, NULL, NO, ZACPI_MADT_UNEXPECTED_ENTRY, NULL), \
    GOOD(list_madt_faults, machine, NULL, NO, 2, FAULT(madt, 52, 0x0c), \
         AT(madt) + at, ZACPI_MADT_INVALID_ENTRY_LENGTH, type), \
    GOOD(get_local_apic, machine, NULL, NO, 1, 0, 0), \
    NOTHING(list_io_apics, machine), NOTHING(list_overrides, machine), NOTHING(list_nmi_sources, machine), \
    NOTHING(list_nmi_lines, machine), \
    GOOD(list_processors, machine, NULL, NO, 1, 1, 10, ZACPI_PROCESSOR_RUNNING, 1, 0, 0), \
    REFUSED(get_mailbox_address, machine, NULL, NO, ZACPI_MADT_INVALID_ENTRY_LENGTH, NULL), \
    GOOD(get_sci_interrupt, machine, NULL, NO, 1, 9, ZACPI_POLARITY_LOW, ZACPI_TRIGGER_LEVEL), \
    GOOD(get_isa_interrupt, machine, NULL, A(4), 1, 4, ZACPI_POLARITY_HIGH, ZACPI_TRIGGER_EDGE), \
    REFUSED(get_io_apic_pin, machine, NULL, A(4), ZACPI_NO_SUCH_IO_APIC, NULL), \
    GOOD(get_isa_interrupts, machine, NULL, NO, 16, UNPINNED(0), UNPINNED(1), UNPINNED(2), UNPINNED(3), UNPINNED(4), \
         UNPINNED(5), UNPINNED(6), UNPINNED(7), UNPINNED(8), UNPINNED(9), UNPINNED(10), UNPINNED(11), UNPINNED(12), \
         UNPINNED(13), UNPINNED(14), UNPINNED(15)), \
    GOOD(get_gic_distributor, machine, NULL, NO, 1, 0, 0, 0, 0), \
    NOTHING(list_gic_cpu_interfaces, machine), NOTHING(list_gic_redistributors, machine), \
    NOTHING(list_gic_translation_services, machine), NOTHING(list_gic_msi_frames, machine), \
    REFUSED(list_rintcs, machine, NULL, NO, ZACPI_NO_RISCV, NULL)
#define NOTHING_BEFORE(machine, madt, at, type) \
    REFUSED(get_interrupt_model, machine, NULL, NO, ZACPI_MADT_INVALID_ENTRY_LENGTH, NULL), \
    REFUSED(get_platform, machine, NULL, NO, ZACPI_MADT_INVALID_ENTRY_LENGTH, NULL), \
    GOOD(list_madt_faults, machine, NULL, NO, 1, AT(madt) + at, ZACPI_MADT_INVALID_ENTRY_LENGTH, type), \
    GOOD(get_local_apic, machine, NULL, NO, 1, 0, 0), \
    REFUSED(get_mailbox_address, machine, NULL, NO, ZACPI_MADT_INVALID_ENTRY_LENGTH, NULL), \
    REFUSED(get_gic_distributor, machine, NULL, NO, ZACPI_MADT_INVALID_ENTRY_LENGTH, NULL), \
    NO_APIC_LISTS(machine), NO_GIC_LISTS(machine)

/* Of a root table whose other pointers lead nowhere. */
#define OF_ROOT(machine, length) \
    REFUSED(get_hpet, machine, NULL, NO, ZACPI_TABLE_MISSING, "HPET"), NOTHING(list_hpets, machine), \
    NOTHING(list_ssdts, machine), \
    GOOD(find_nth_table, machine, "OEM2", A(0), 1, AT(OEM2_36), 36, LETTERS('O', 'E', 'M', '2'), 1, NO_IDS), \
    REFUSED(find_nth_table, machine, "OEM1", A(0), ZACPI_TABLE_MISSING, "OEM1"), \
    GOOD(list_tables, machine, NULL, NO, 2, AT(FADT_DESKTOP), 116, LETTERS('F', 'A', 'C', 'P'), 1, NO_IDS, \
         AT(OEM2_36), 36, LETTERS('O', 'E', 'M', '2'), 1, NO_IDS), \
    GOOD(list_ranges, machine, NULL, NO, 3, AT(machine), length, AT(FADT_DESKTOP), 116, AT(OEM2_36), 36), \
    GOOD(get_interrupt_model, machine, NULL, NO, 1, 0, 0, 0, 0, 0, 0, 0, 0), \
    REFUSED(get_platform, machine, NULL, NO, ZACPI_NO_APICS, NULL), \
    REFUSED(get_sci_interrupt, machine, NULL, NO, ZACPI_TABLE_MISSING, "APIC"), \
    REFUSED(get_sleep_types, machine, NULL, A(5), ZACPI_INVALID_DSDT_ADDRESS, NULL)

/* One unit of each kind, whatever comes around it, and a fault where the table ends. */
#define OF_UNIT(machine, dmar, ivrs) \
    GOOD(list_dmar_units, machine, NULL, NO, 1, FIRST_UNIT), \
    GOOD(list_dmar_scopes, machine, NULL, A(0), 1, 1, 1, 0, 0, 0, 2, 0, NO_HOPS), \
    REFUSED(list_dmar_scopes, machine, NULL, A(1), ZACPI_NO_IOMMU, NULL), \
    NOTHING(list_dmar_reserved, machine), NOTHING(list_dmar_regions, machine), NOTHING(list_dmar_root_ports, machine), \
    NOTHING(list_dmar_affinities, machine), \
    GOOD(list_dmar_faults, machine, NULL, NO, 1, AT(dmar) + 86, ZACPI_IOMMU_INVALID_STRUCTURE_LENGTH, 0), \
    GOOD(get_dmar_unit, machine, NULL, A(0, 0, 1, HOP_2_0), 1, FIRST_UNIT), \
    REFUSED(get_dmar_unit, machine, NULL, A(0, 0, 1, HOP_1_0), ZACPI_IOMMU_INVALID_STRUCTURE_LENGTH, NULL), \
    REFUSED(get_dmar_io_apic, machine, NULL, A(2), ZACPI_IOMMU_INVALID_STRUCTURE_LENGTH, NULL), \
    REFUSED(get_dmar_hpet, machine, NULL, A(2), ZACPI_IOMMU_INVALID_STRUCTURE_LENGTH, NULL), \
    GOOD(get_ivrs_unit, machine, NULL, A(0, 2), 1, BLOCK_10, 2, 0xd7), \
    REFUSED(get_ivrs_unit, machine, NULL, A(1, 2), ZACPI_IOMMU_INVALID_STRUCTURE_LENGTH, NULL), \
    GOOD(list_ivrs_units, machine, NULL, NO, 1, BLOCK_10), \
    GOOD(list_ivrs_entries, machine, NULL, A(0), 1, 1, 0, 0xffff, 0xd7, 0, 0, 0, 0, NO_HID), \
    REFUSED(list_ivrs_entries, machine, NULL, A(1), ZACPI_NO_IOMMU, NULL), \
    NOTHING(list_ivrs_memory, machine), NOTHING(list_ivrs_regions, machine), \
    GOOD(list_ivrs_faults, machine, NULL, NO, 1, AT(ivrs) + 84, ZACPI_IOMMU_INVALID_STRUCTURE_LENGTH, 0)

/* Timers of zeros, active high and by level, and none of Virtual EL2. */
#define NO_TIMERS(machine, malformed) \
    GOOD(get_arm_timers, machine, NULL, NO, 1, 0, 0, 0, 1, 3, 0, 1, 0, 1, 3, 0, 1, 0, 1, 3, 0, 1, 0, 1, 3, 0, 1, \
         0, 0, 0, 0, 0, malformed)
#define ONE_FAULT(machine, madt, error, type) \
    REFUSED(get_interrupt_model, machine, NULL, NO, error, NULL), REFUSED(get_platform, machine, NULL, NO, \
    error, NULL), \
    GOOD(list_madt_faults, machine, NULL, NO, 1, AT(madt) + 44, error, type)

static const struct row every_rows[] = {
    GOOD(get_interrupt_model, APICS, NULL, NO, 1, 0x1fee00000, 2, 1, 1, 2, 2, 1, 1),
    GOOD(get_platform, APICS, NULL, NO, 1, 0x1fee00000, 2, 1, 1, 2, 2, 1, 1, 2, 2, 1, 1, 2,
         1, 10, ZACPI_PROCESSOR_RUNNING, 1, 0, 0, 301, 300, ZACPI_PROCESSOR_WAITING, 0, 0, 1,
         PAINTED_PROCESSOR, PAINTED_PROCESSOR, PAINTED_PROCESSOR, 0xfec00000, 0, 2, 0xfec01000, 24, 3,
         20, 9, ZACPI_POLARITY_HIGH, ZACPI_TRIGGER_LEVEL, 0, PAINTED_OVERRIDE,
         50, ZACPI_POLARITY_HIGH, ZACPI_TRIGGER_EDGE, PAINTED_NMI_SOURCE, PAINTED_NMI_SOURCE,
         0, 1, 1, AS_BUS, 301, 0, 0, ZACPI_POLARITY_LOW, ZACPI_TRIGGER_LEVEL, PAINTED_NMI_LINE, PAINTED_NMI_LINE),
    NOTHING(list_madt_faults, APICS), OF_APICS(APICS), NO_GIC_LISTS(APICS),
    REFUSED(get_gic_distributor, APICS, NULL, NO, ZACPI_NO_GIC, NULL),

    REFUSED(get_interrupt_model, EVERY, NULL, NO, ZACPI_MADT_UNEXPECTED_ENTRY, NULL),
    REFUSED(get_platform, EVERY, NULL, NO, ZACPI_MADT_UNEXPECTED_ENTRY, NULL),
    GOOD(list_madt_faults, EVERY, NULL, NO, 8, FAULT(MADT_EVERY, 279, 6), FAULT(MADT_EVERY, 297, 7),
         FAULT(MADT_EVERY, 315, 8), FAULT(MADT_EVERY, 333, 0x0b), FAULT(MADT_EVERY, 411, 0x0c),
         FAULT(MADT_EVERY, 437, 0x0d), FAULT(MADT_EVERY, 463, 0x0e), FAULT(MADT_EVERY, 481, 0x0f)),
    OF_APICS(EVERY),
    GOOD(get_gic_distributor, EVERY, NULL, NO, 1, 0x2f000000, 7, 5, 3),
    GOOD(list_gic_cpu_interfaces, EVERY, NULL, NO, 1, 3, 0, 0, 0, 0, 0, 4, 18, 0, 0, 0, 0, 0, 0, 0,
         ZACPI_TRIGGER_LEVEL, ZACPI_TRIGGER_EDGE, 0),
    GOOD(list_gic_redistributors, EVERY, NULL, NO, 1, 0x12f200000, 0x40000),
    GOOD(list_gic_translation_services, EVERY, NULL, NO, 1, 0x12f020000, 6),
    GOOD(list_gic_msi_frames, EVERY, NULL, NO, 1, 0x12f030000, 8, 64, 32, 1),

    ENDS_EARLY(ENDS_0, MADT_ENDS_0, 76, 1), ENDS_EARLY(ENDS_5, MADT_ENDS_5, 76, 1),
    ENDS_EARLY(ENDS_LATER_0, MADT_ENDS_LATER_0, 78, 1), ENDS_EARLY(ENDS_LATER_5, MADT_ENDS_LATER_5, 78, 1),
    ENDS_EARLY(ENDS_OTHER, MADT_ENDS_OTHER, 76, 0x80),
    NOTHING_BEFORE(NO_GICD_0, MADT_NO_GICD_0, 44, 0x0c), NOTHING_BEFORE(NO_GICD_5, MADT_NO_GICD_5, 44, 0x0c),
    NOTHING_BEFORE(NO_GICD_LATER_0, MADT_NO_GICD_LATER_0, 46, 0x0c),
    NOTHING_BEFORE(NO_GICD_LATER_5, MADT_NO_GICD_LATER_5, 46, 0x0c),
    NOTHING_BEFORE(NO_GICD_OTHER, MADT_NO_GICD_OTHER, 44, 0x80),
    NO_APIC_LISTS(ARM), NO_APIC_LISTS(HALF), /* GICCs of 76, 79, 81 and 82 bytes */

    ONE_FAULT(NMI_TRIGGER, MADT_NMI_TRIGGER, ZACPI_MADT_MPS_INTI_INVALID_TRIGGER_MODE, 3),
    ONE_FAULT(X2_LINT_2, MADT_X2_LINT_2, ZACPI_MADT_INVALID_LOCAL_NMI_LINE, 0x0a),
    ONE_FAULT(OVERRIDE_POLARITY, MADT_OVERRIDE_POLARITY, ZACPI_MADT_MPS_INTI_INVALID_POLARITY, 2),
    ONE_FAULT(OVERRIDE_TRIGGER, MADT_OVERRIDE_TRIGGER, ZACPI_MADT_MPS_INTI_INVALID_TRIGGER_MODE, 2),
    GOOD(get_sci_interrupt, SCI_20, NULL, NO, 1, 20, ZACPI_POLARITY_LOW, ZACPI_TRIGGER_LEVEL),
    GOOD(get_sci_interrupt, SCI_AS_BUS, NULL, NO, 1, 22, ZACPI_POLARITY_LOW, ZACPI_TRIGGER_LEVEL),
    GOOD(get_localities, SLIT_OF_11, NULL, NO, 1, 2, 0), GOOD(get_localities, SLIT_OF_10, NULL, NO, 1, 2, 0),
    GOOD(get_localities, SLIT_OF_MANY, NULL, NO, 1, 0x8000000000000000, 0),
    GOOD(distance, SLIT_OF_MANY, NULL, A(0, 0), 1, 10),
    REFUSED(distance, SLIT_OF_MANY, NULL, A(2, 0), ZACPI_NO_DISTANCE, NULL), /* at 44 and 2^64 */
    NO_TIMERS(EARLY, 1), NO_TIMERS(LATE, 1), NO_TIMERS(PAST, 1), NO_TIMERS(LEAST, 0), NO_TIMERS(TIMERS_3, 0),
    NOTHING(list_gt_frames, EARLY), NOTHING(list_gt_frames, LATE), NOTHING(list_gt_frames, PAST),
    NOTHING(list_watchdogs, EARLY), NOTHING(list_watchdogs, LATE), NOTHING(list_watchdogs, PAST),
    NOTHING(list_watchdogs, LEAST), NOTHING(list_gtdt_faults, LEAST), NOTHING(list_gtdt_faults, TIMERS_3),
    GOOD(list_watchdogs, TIMERS_3, NULL, NO, 1, 0, 0, 0, 1, 3, 0),
    GOOD(get_ivrs_unit, UNITS_LONG, NULL, A(0, 5), 1, BLOCK_10, 5, 0xd7),
    NOTHING(list_ivrs_faults, UNITS_LONG),

    /* Of a GICC of 80 bytes neither what is after SPE overflow Interrupt is read nor what is after the entry. */
    REFUSED(get_interrupt_model, GICCS, NULL, NO, ZACPI_MADT_UNEXPECTED_ENTRY, NULL),
    GOOD(list_madt_faults, GICCS, NULL, NO, 2, FAULT(MADT_GICCS, 52, 0x0b), FAULT(MADT_GICCS, 132, 0x0b)),
    NOTHING(list_io_apics, GICCS), NOTHING(list_overrides, GICCS), NOTHING(list_nmi_sources, GICCS),
    NOTHING(list_nmi_lines, GICCS), GOOD(list_processors, GICCS, NULL, NO, 1, 1, 10, ZACPI_PROCESSOR_RUNNING, 1, 0, 0),
    REFUSED(get_mailbox_address, GICCS, NULL, NO, ZACPI_MADT_UNEXPECTED_ENTRY, NULL),
    GOOD(get_sci_interrupt, GICCS, NULL, NO, 1, 9, ZACPI_POLARITY_LOW, ZACPI_TRIGGER_LEVEL),
    REFUSED(get_io_apic_pin, GICCS, NULL, A(4), ZACPI_NO_SUCH_IO_APIC, NULL),
    GOOD(get_isa_interrupts, GICCS, NULL, NO, 16, UNPINNED(0), UNPINNED(1), UNPINNED(2), UNPINNED(3), UNPINNED(4),
         UNPINNED(5), UNPINNED(6), UNPINNED(7), UNPINNED(8), UNPINNED(9), UNPINNED(10), UNPINNED(11), UNPINNED(12),
         UNPINNED(13), UNPINNED(14), UNPINNED(15)),
    REFUSED(get_gic_distributor, GICCS, NULL, NO, ZACPI_NO_GIC, NULL),
    GOOD(list_gic_cpu_interfaces, GICCS, NULL, NO, 2,
         0, 0, 0, 0, 0, 0, 1, 2, 0, 0, 0, 0, 0, 0, 0, ZACPI_TRIGGER_LEVEL, ZACPI_TRIGGER_LEVEL, 0,
         0, 0, 0, 0, 0, 0, 3, 4, 0, 0, 0, 0, 0, 0, 0, ZACPI_TRIGGER_LEVEL, ZACPI_TRIGGER_LEVEL, 0),
    NOTHING(list_gic_redistributors, GICCS), NOTHING(list_gic_translation_services, GICCS),
    NOTHING(list_gic_msi_frames, GICCS),

    OF_ROOT(PART, 46), OF_ROOT(PART_X, 56), OF_ROOT(LOW, 52),
    GOOD(list_missing_ranges, PART, NULL, NO, 1, 0x1234, 36), GOOD(list_missing_ranges, PART_X, NULL, NO, 1, 0x1234,
    36),
    GOOD(list_missing_ranges, LOW, NULL, NO, 2, 0x500, 36, BASE + SIZE - 20, 36),
    GOOD(list_missing_ranges, PARTLY, NULL, NO, 2, PART_HPET, 56, PART_MADT, 52),
    GOOD(list_faults, PART, "OEM1", NO, 1, 0x1234, ZACPI_MAP_FAILED, 0),
    GOOD(list_faults, PART_X, "OEM1", NO, 1, 0x1234, ZACPI_MAP_FAILED, 0),
    GOOD(list_faults, LOW, "OEM1", NO, 2, 0x500, ZACPI_MAP_FAILED, 0, BASE + SIZE - 20, ZACPI_MAP_FAILED, 0),
    {&call_list_faults, EMPTY, "OEM1", NO, ZACPI_OK, NULL, 0, NULL, 0},
    GOOD(list_members, PART_X, NULL, NO, 3, AT(FADT_DESKTOP), 116, LETTERS('F', 'A', 'C', 'P'), 1, NO_IDS, 0, 1,
         AT(OEM2_36), 36, LETTERS('O', 'E', 'M', '2'), 1, NO_IDS, 0, 1, 0x1234, 0, 0, 0, NO_IDS, ZACPI_MAP_FAILED, 0),
    GOOD(get_sleep_types, POWER_X, NULL, A(5), 1, 5, 6),
    GOOD(list_ssdts, POWER_X, NULL, NO, 2, AT(SSDT_0) + 36, 0, 1, AT(SSDT_0), AT(SSDT_S5) + 36, 14, 2, AT(SSDT_S5)),
    REFUSED(get_hpet, PARTLY, NULL, NO, ZACPI_TABLE_MISSING, "HPET"), NOTHING(list_hpets, PARTLY),
    GOOD(get_interrupt_model, PARTLY, NULL, NO, 1, 0, 0, 0, 0, 0, 0, 0, 0),
    REFUSED(get_platform, PARTLY, NULL, NO, ZACPI_NO_APICS, NULL),

    OF_UNIT(UNITS_9, DMAR_9, IVRS_9), OF_UNIT(UNITS_1, DMAR_1, IVRS_1),
    GOOD(list_memory_affinities, SRAT_9, NULL, NO, 1, 0x1000, 0x1000, 6, 0, 0),
    NOTHING(list_processor_affinities, SRAT_9), NOTHING(list_generic_initiators, SRAT_9),
    NOTHING(list_its_affinities, SRAT_9),
    GOOD(list_srat_faults, SRAT_9, NULL, NO, 1, AT(SRAT_OTHERS) + 92, ZACPI_NUMA_INVALID_ENTRY_LENGTH, 9),
    GOOD(domain_of_address, SRAT_9, NULL, A(0x1fff), 1, 6),
    REFUSED(domain_of_address, SRAT_9, NULL, A(0x2000), ZACPI_NUMA_INVALID_ENTRY_LENGTH, NULL),
    REFUSED(domain_of_apic, SRAT_9, NULL, A(1), ZACPI_NUMA_INVALID_ENTRY_LENGTH, NULL),
    REFUSED(domain_of_processor, SRAT_9, NULL, A(1), ZACPI_NUMA_INVALID_ENTRY_LENGTH, NULL),

    /* Tables of the least length have no entry. */
    REFUSED(domain_of_address, LEAST, NULL, A(0), ZACPI_NO_DOMAIN, NULL),
    REFUSED(domain_of_apic, LEAST, NULL, A(0), ZACPI_NO_DOMAIN, NULL),
    REFUSED(domain_of_processor, LEAST, NULL, A(0), ZACPI_NO_DOMAIN, NULL), NOTHING(list_srat_faults, LEAST),
    REFUSED(pci_ecam_address, LEAST, NULL, A(0, 0, 0, 0), ZACPI_NO_SUCH_FUNCTION, NULL), NOTHING(list_ecam_ranges,
    LEAST),
    REFUSED(get_dmar_io_apic, LEAST, NULL, A(0), ZACPI_NO_IOMMU, NULL),
    REFUSED(get_dmar_hpet, LEAST, NULL, A(0), ZACPI_NO_IOMMU, NULL),
    REFUSED(list_dmar_scopes, LEAST, NULL, A(0), ZACPI_NO_IOMMU, NULL),
    REFUSED(list_ivrs_entries, LEAST, NULL, A(0), ZACPI_NO_IOMMU, NULL), NOTHING(list_ivrs_memory, LEAST),
    REFUSED(get_reset_plan, LEAST, NULL, NO, ZACPI_NO_RESET, NULL),
    GOOD(get_interrupt_model, LEAST, NULL, NO, 1, 0, 0, 0, 0, 0, 0, 0, 0),
    REFUSED(get_platform, LEAST, NULL, NO, ZACPI_NO_APICS, NULL), NOTHING(list_madt_faults, LEAST),
    NO_APIC_LISTS(LEAST), NO_GIC_LISTS(LEAST),
    REFUSED(get_mailbox_address, LEAST, NULL, NO, ZACPI_MADT_UNEXPECTED_ENTRY, NULL),
    REFUSED(list_rintcs, LEAST, NULL, NO, ZACPI_NO_RISCV, NULL),
    REFUSED(list_imsics, LEAST, NULL, NO, ZACPI_NO_RISCV, NULL),
    REFUSED(list_aplics, LEAST, NULL, NO, ZACPI_NO_RISCV, NULL)};
#endif
