/* Rows of the calls that list what an SRAT has beside memory, and what a DMAR and an IVRS have beside units, worked out
 * by hand from rows_tables.h, rows_tables_kinds.h and rows_tables_iommu.h. For rows.c. */
#ifndef ROWS_KINDS_H
#define ROWS_KINDS_H

typedef struct zacpi_processor_affinity near_processor;
typedef struct zacpi_generic_initiator initiator;
typedef struct zacpi_its_affinity near_its;
typedef struct zacpi_dmar_root_ports root_ports;
typedef struct zacpi_dmar_affinity near_unit;

LIST(list_processor_affinities, near_processor, of_processor_affinity, )
LIST(list_generic_initiators, initiator, of_generic_initiator, )
LIST(list_its_affinities, near_its, of_its_affinity, )
LIST(list_dmar_regions, dmar_reserved, of_dmar_reserved, )
LIST(list_dmar_root_ports, root_ports, of_dmar_root_ports, )
LIST(list_dmar_affinities, near_unit, of_dmar_affinity, )
LIST(list_dmar_structure_scopes, dmar_scope, of_dmar_scope, ARGUMENT(0, uint16_t) ARGUMENT(1, size_t))
LIST(list_ivrs_regions, ivrs_memory, of_ivrs_memory, )

/* The structure of a Type that has no scope. */
#define UNSCOPED(type, index) \
    {&call_list_dmar_structure_scopes, ALL_KINDS, NULL, A(type, index), ZACPI_OK, NULL, 0, NULL, 0}

static const struct row kind_rows[] = {
    GOOD(list_processor_affinities, ALL_KINDS, NULL, NO, 3, 0xff, 0x3020110, 0xb, 0, 0x100, 7, 0xc, 2, 0x23, 8, 0xd, 3),
    GOOD(list_processor_affinities, ARM, NULL, NO, 4, 9, 0x20105, 0, 0, 300, 12, 0, 2, 300, 13, 0, 2, 17, 15, 0, 3),
    GOOD(list_processor_affinities, OLD, NULL, NO, 3, 9, 5, 0, 0, 300, 0x10c, 0, 2, 17, 0x10f, 0, 3),
    GOOD(list_processor_affinities, ODD, NULL, NO, 1, 9, 5, 0, 0),
    GOOD(list_processor_affinities, FAULTS, NULL, NO, 1, 9, 4, 0, 0),
    GOOD(list_processor_affinities, FRONTS, NULL, NO, 1, 9, 5, 0, 0),
    NOTHING(list_processor_affinities, HOLES),
    NOTHING(list_processor_affinities, LEAST),
    REFUSED(list_processor_affinities, EMPTY, NULL, NO, ZACPI_TABLE_MISSING, "SRAT"),
    /* Its handle is PCI Segment 1 and BDF Number 0x1234; of the second device ACPI0042 and 7. */
    GOOD(list_generic_initiators, ALL_KINDS, NULL, NO, 2, 2, 1, 1, 0x12340001, 0, 3, 0, 0, 0x3234303049504341, 7),
    NOTHING(list_generic_initiators, ARM),
    NOTHING(list_generic_initiators, LEAST),
    REFUSED(list_generic_initiators, EMPTY, NULL, NO, ZACPI_TABLE_MISSING, "SRAT"),
    GOOD(list_its_affinities, ALL_KINDS, NULL, NO, 2, 4, 0x11, 0xffffffff, 0x12),
    NOTHING(list_its_affinities, ARM),
    NOTHING(list_its_affinities, LEAST),
    REFUSED(list_its_affinities, EMPTY, NULL, NO, ZACPI_TABLE_MISSING, "SRAT"),
    GOOD(list_srat_faults, ALL_KINDS, NULL, NO, 1, AT(SRAT_ALL) + 298, ZACPI_NUMA_INVALID_ENTRY_LENGTH, 3),
    NOTHING(list_memory_affinities, ALL_KINDS),
    GOOD(domain_of_processor, ALL_KINDS, NULL, A(0x23), 1, 8),
    GOOD(domain_of_apic, ALL_KINDS, NULL, A(0x100), 1, 7),
    REFUSED(domain_of_apic, ALL_KINDS, NULL, A(0x24), ZACPI_NUMA_INVALID_ENTRY_LENGTH, NULL), /* not enabled */

    GOOD(list_dmar_regions, ALL_KINDS, NULL, NO, 1, 0x1000, 0x1fff, 2),
    GOOD(list_dmar_regions, UNITS, NULL, NO, 3, 0x7b800000, 0x7fffffff, 0, 0x100000000, 0x100000000, 0, 5, 4, 3),
    GOOD(list_dmar_regions, UNITS_FAULTS, NULL, NO, 1, 9, 8, 0),
    NOTHING(list_dmar_regions, UNITS_BETWEEN), /* it is malformed */
    NOTHING(list_dmar_regions, UNITS_CUT),
    NOTHING(list_dmar_regions, LEAST),
    REFUSED(list_dmar_regions, EMPTY, NULL, NO, ZACPI_TABLE_MISSING, "DMAR"),
    GOOD(list_dmar_root_ports, ALL_KINDS, NULL, NO, 2, 1, 0, 0, 0xffff, 1, 0x81),
    NOTHING(list_dmar_root_ports, UNITS),
    NOTHING(list_dmar_root_ports, LEAST),
    REFUSED(list_dmar_root_ports, EMPTY, NULL, NO, ZACPI_TABLE_MISSING, "DMAR"),
    GOOD(list_dmar_affinities, ALL_KINDS, NULL, NO, 2, 0x1fed91000, 0x1020304, 0xfed90000, 0),
    NOTHING(list_dmar_affinities, UNITS),
    NOTHING(list_dmar_affinities, LEAST),
    REFUSED(list_dmar_affinities, EMPTY, NULL, NO, ZACPI_TABLE_MISSING, "DMAR"),
    GOOD(list_dmar_faults, ALL_KINDS, NULL, NO, 1, AT(DMAR_ALL) + 212, ZACPI_IOMMU_INVALID_STRUCTURE_LENGTH, 3),
    GOOD(list_dmar_units, ALL_KINDS, NULL, NO, 1, FIRST_UNIT),
    UNSCOPED(ZACPI_DMAR_DRHD, 0),
    GOOD(list_dmar_structure_scopes, ALL_KINDS, NULL, A(ZACPI_DMAR_ATSR, 0), 2, 1, 2, 0, 0, 0, 0x1c, 0, NO_HOPS,
         2, 2, 0, 0, 0x80, 3, 2, 1, 0, 0, 0),
    UNSCOPED(ZACPI_DMAR_ATSR, 1),
    REFUSED(list_dmar_structure_scopes, ALL_KINDS, NULL, A(ZACPI_DMAR_ATSR, 2), ZACPI_NO_IOMMU, NULL),
    GOOD(list_dmar_structure_scopes, ALL_KINDS, NULL, A(ZACPI_DMAR_RMRR, 0), 1, 1, 1, 0, 0, 7, 6, 1, NO_HOPS),
    REFUSED(list_dmar_structure_scopes, ALL_KINDS, NULL, A(ZACPI_DMAR_RMRR, 1), ZACPI_NO_IOMMU,
            NULL), /* after the short RHSA */
    GOOD(list_dmar_structure_scopes, UNITS, NULL, A(ZACPI_DMAR_RMRR, 1), 1, 1, 2, 0, 0, 0, 2, 0, NO_HOPS),
    GOOD(list_dmar_structure_scopes, ALL_KINDS, NULL, A(ZACPI_DMAR_SATC, 0), 1, 1, 1, 0, 0, 0x40, 5, 0, NO_HOPS),
    GOOD(list_dmar_structure_scopes, ALL_KINDS, NULL, A(ZACPI_DMAR_SIDP, 0), 1, 0, 1, 0, 0, 9, 0, 0, NO_HOPS),
    UNSCOPED(ZACPI_DMAR_ANDD, 0),
    UNSCOPED(ZACPI_DMAR_RHSA, 1),
    REFUSED(list_dmar_structure_scopes, ALL_KINDS, NULL, A(ZACPI_DMAR_RHSA, 2), ZACPI_NO_IOMMU, NULL),
    REFUSED(list_dmar_structure_scopes, ALL_KINDS, NULL, A(7, 0), ZACPI_NO_IOMMU, NULL),

    GOOD(list_ivrs_regions, UNITS, NULL, NO, 3, MEMORY_OF_ALL, 0x100000000, 0x20000, 0x100, 0x1ff, 0x22, 8,
         MEMORY_OF_ONE),
    GOOD(list_ivrs_regions, UNITS_FAULTS, NULL, NO, 1, MEMORY_OF_ONE),
    NOTHING(list_ivrs_regions, UNITS_10),
    NOTHING(list_ivrs_regions, UNITS_BETWEEN), /* it is malformed */
    NOTHING(list_ivrs_regions, UNITS_4),
    NOTHING(list_ivrs_regions, LEAST),
    REFUSED(list_ivrs_regions, EMPTY, NULL, NO, ZACPI_TABLE_MISSING, "IVRS")};
#endif
