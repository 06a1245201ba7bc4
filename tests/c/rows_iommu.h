/* Rows of the calls about units that remap what devices ask of memory, worked out by hand from rows_tables_iommu.h. For
 * rows.c. */
#ifndef ROWS_IOMMU_H
#define ROWS_IOMMU_H

typedef struct zacpi_dmar_flags dmar_flags;
typedef struct zacpi_dmar_unit dmar_unit;
typedef struct zacpi_dmar_source dmar_source;
typedef struct zacpi_dmar_reserved dmar_reserved;
typedef struct zacpi_ivrs_device ivrs_device;
typedef struct zacpi_ivrs_memory ivrs_memory;
typedef struct zacpi_ivrs_unit ivrs_unit;
typedef struct zacpi_dmar_scope dmar_scope;
typedef struct zacpi_ivrs_entry ivrs_entry;


/* Of a path the first two hops, and the last one that there is room for. */
FIELDS(of_dmar_scope, F(dmar_scope, path_length), F(dmar_scope, scope_type), F(dmar_scope, flags),
       F(dmar_scope, enumeration_id), F(dmar_scope, bus), F(dmar_scope, path[0].device),
       F(dmar_scope, path[0].function), F(dmar_scope, path[1].device), F(dmar_scope, path[1].function),
       F(dmar_scope, path[15].device), F(dmar_scope, path[15].function), ZERO(dmar_scope, reserved));
/* Of Unique ID the first eight bytes, and the last one that there is room for. */
FIELDS(of_ivrs_entry, F(ivrs_entry, entry_type), F(ivrs_entry, first), F(ivrs_entry, last), F(ivrs_entry, settings),
       F(ivrs_entry, source_id), F(ivrs_entry, extended_settings), F(ivrs_entry, handle), F(ivrs_entry, variety),
       F(ivrs_entry, hardware_id), F(ivrs_entry, compatible_id), F(ivrs_entry, unique_id_format),
       F(ivrs_entry, unique_id_length), {offsetof(ivrs_entry, unique_id), 8, 0}, F(ivrs_entry, unique_id[31]),
       ZERO(ivrs_entry, reserved));

/* Its arguments are a device's segment and bus, how many hops it is from there, and two bytes for each hop. */
#define DEVICE ARGUMENT(0, uint16_t) ARGUMENT(1, uint8_t) hops(r), ARGUMENT(2, size_t)
static const struct zacpi_hop *hops(const struct row *row) {
    static struct zacpi_hop all[4];
    size_t i;
    for (i = 0; i < 4; i++) {
        all[i].device = (uint8_t)(row->arguments[3] >> 16 * i);
        all[i].function = (uint8_t)(row->arguments[3] >> (16 * i + 8));
    }
    return all;
}
ONE(get_dmar_flags, dmar_flags, of_dmar_flags, )
ONE(get_dmar_unit, dmar_unit, of_dmar_unit, DEVICE)
ONE(get_dmar_io_apic, dmar_source, of_dmar_source, ARGUMENT(0, uint8_t))
ONE(get_dmar_hpet, dmar_source, of_dmar_source, ARGUMENT(0, uint8_t))
LIST(list_dmar_reserved, dmar_reserved, of_dmar_reserved, DEVICE)
ONE(get_ivrs_unit, ivrs_device, of_ivrs_device, ARGUMENT(0, uint16_t) ARGUMENT(1, uint16_t))
LIST(list_ivrs_memory, ivrs_memory, of_ivrs_memory, ARGUMENT(0, uint16_t))
LIST(list_dmar_units, dmar_unit, of_dmar_unit, )
LIST(list_dmar_scopes, dmar_scope, of_dmar_scope, ARGUMENT(0, size_t))
LIST(list_dmar_faults, entry_fault, of_entry_fault, )
LIST(list_ivrs_units, ivrs_unit, of_ivrs_unit, )
LIST(list_ivrs_entries, ivrs_entry, of_ivrs_entry, ARGUMENT(0, size_t))
LIST(list_ivrs_faults, entry_fault, of_entry_fault, )

/* Hops of one byte for the device and one for the function, and 00.0 after them. */
#define HOP_1_0 0x0001
#define HOP_2_0 0x0002
#define HOP_4_1 0x0104
/* The units of UNITS. */
#define FIRST_UNIT 0xfed90000, 4096, 0, 0, 0, 0
#define UNIT_OF_ALL 0x1fed91000, 8192, 0, 1, 1, 0x31
#define UNIT_OF_3 0x12fed92000, 4096, 3, 0, 0, 0
/* The one unit of UNITS_CUT and UNITS_END, and the first of UNITS_LATER. */
#define ALONE 0xfed90000, 4096, 0, 1, 1, 0
#define BEFORE_LATER 0xfed91000, 4096, 0, 1, 1, 0
#define BLOCK_11 0x1feb80000, 0x246577efa2254afa, 0x80048f6e, 0, 2, 0x48, 0x105, 0x11, 0xb0, 1
#define OTHER_BLOCK_11 0x1fec00000, 0x55, 7, 1, 0x4002, 0x44, 0x206, 0x11, 0x31, 1
#define BLOCK_10 0xfeb80000, 0, 0x11223344, 0, 2, 0x40, 3, 0x10, 1, 0
#define BLOCK_40 0x1feb80000, 7, 6, 0, 3, 0x48, 5, 0x40, 0, 1
#define MEMORY_OF_ALL 0x70000000, 0x1000, 0, 0, 0x20, 1
#define MEMORY_OF_ONE 0xfffffffffffff000, 0x1000, 0x300, 0x1234, 0x21, 7
/* The second hop and the last one of a path of fewer; the fields of an ACPI HID device in another entry. */
#define NO_HOPS 0, 0, 0, 0
#define NO_HID 0, 0, 0, 0, 0, 0

static const struct row unit_rows[] = {
    GOOD(get_dmar_flags, UNITS, NULL, NO, 1, 39, ZACPI_DMAR_INTR_REMAP),
    GOOD(get_dmar_flags, UNITS_CUT, NULL, NO, 1, 256, 0x86), /* its malformed scope doesn't count */
    GOOD(get_dmar_flags, LEAST, NULL, NO, 1, 1, 0),
    REFUSED(get_dmar_flags, EMPTY, NULL, NO, ZACPI_TABLE_MISSING, "DMAR"),
    GOOD(get_dmar_unit, UNITS, NULL, A(0, 0, 1, HOP_2_0), 1, FIRST_UNIT),
    GOOD(get_dmar_unit, UNITS, NULL, A(0, 0, 1, HOP_1_0), 1, FIRST_UNIT), /* the front of a sub-hierarchy */
    GOOD(get_dmar_unit, UNITS, NULL, A(0, 0, 2, HOP_1_0), 1, FIRST_UNIT), /* and 00.0 below it */
    GOOD(get_dmar_unit, UNITS, NULL, A(0, 0, 2, HOP_2_0), 1, UNIT_OF_ALL), /* 00.0 below an endpoint */
    GOOD(get_dmar_unit, UNITS, NULL, A(0, 0, 1, 0x102), 1, UNIT_OF_ALL),   /* 02.1 */
    GOOD(get_dmar_unit, UNITS, NULL, A(0, 1, 1, HOP_2_0), 1, UNIT_OF_ALL),
    GOOD(get_dmar_unit, UNITS, NULL, A(0, 0, 0, 0), 1, UNIT_OF_ALL),
    GOOD(get_dmar_unit, UNITS, NULL, A(3, 5, 1, HOP_4_1), 1, UNIT_OF_3),
    REFUSED(get_dmar_unit, UNITS, NULL, A(3, 5, 2, HOP_4_1), ZACPI_NO_IOMMU, NULL),
    REFUSED(get_dmar_unit, UNITS, NULL, A(1, 0, 1, HOP_2_0), ZACPI_NO_IOMMU, NULL),
    REFUSED(get_dmar_unit, LEAST, NULL, A(0, 0, 1, HOP_2_0), ZACPI_NO_IOMMU, NULL),
    GOOD(get_dmar_unit, UNITS_CUT, NULL, A(0, 0, 1, HOP_2_0), 1, ALONE), /* whatever its scopes are */
    REFUSED(get_dmar_unit, UNITS_CUT, NULL, A(1, 0, 1, HOP_2_0), ZACPI_NO_IOMMU, NULL), /* it isn't of the segment */
    GOOD(get_dmar_unit, UNITS_END, NULL, A(0, 0, 1, HOP_2_0), 1, ALONE),
    GOOD(get_dmar_unit, UNITS_END, NULL, A(0, 0, 1, HOP_1_0), 1, ALONE),
    REFUSED(get_dmar_unit, UNITS_END, NULL, A(1, 0, 1, HOP_2_0), ZACPI_IOMMU_INVALID_STRUCTURE_LENGTH, NULL),
    GOOD(get_dmar_unit, UNITS_BETWEEN, NULL, A(0, 0, 1, HOP_2_0), 1, FIRST_UNIT), /* before the malformed RMRR */
    REFUSED(get_dmar_unit, UNITS_BETWEEN, NULL, A(0, 0, 1, HOP_1_0), ZACPI_IOMMU_INVALID_STRUCTURE_LENGTH, NULL),
    GOOD(get_dmar_unit, UNITS_FAULTS, NULL, A(0, 0, 1, HOP_2_0), 1, FIRST_UNIT), /* before the malformed scope */
    REFUSED(get_dmar_unit, UNITS_FAULTS, NULL, A(0, 0, 1, HOP_1_0), ZACPI_IOMMU_INVALID_STRUCTURE_LENGTH, NULL),
    REFUSED(get_dmar_unit, UNITS_FAULTS, NULL, A(0, 0, 2, 0x04030201), ZACPI_IOMMU_INVALID_STRUCTURE_LENGTH, NULL),
    REFUSED(get_dmar_unit, UNITS_FAULTS, NULL, A(1, 0, 1, HOP_2_0), ZACPI_NO_IOMMU, NULL),
    GOOD(get_dmar_unit, UNITS_LATER, NULL, A(0, 0, 1, HOP_2_0), 1, BEFORE_LATER),
    REFUSED(get_dmar_unit, EMPTY, NULL, A(0, 0, 1, HOP_2_0), ZACPI_TABLE_MISSING, "DMAR"),
    GOOD(get_dmar_io_apic, UNITS, NULL, A(2), 1, UNIT_OF_ALL, 0xf0, 0x1f, 0, 1),
    GOOD(get_dmar_io_apic, UNITS, NULL, A(9), 1, UNIT_OF_ALL, 0xf2, 0, 0, 0),
    REFUSED(get_dmar_io_apic, UNITS, NULL, A(0), ZACPI_NO_IOMMU, NULL), /* an HPET has the id 0 */
    REFUSED(get_dmar_io_apic, UNITS_CUT, NULL, A(2), ZACPI_IOMMU_INVALID_STRUCTURE_LENGTH, NULL),
    REFUSED(get_dmar_io_apic, UNITS_FAULTS, NULL, A(2), ZACPI_IOMMU_INVALID_STRUCTURE_LENGTH, NULL),
    GOOD(get_dmar_io_apic, UNITS_LATER, NULL, A(2), 1, BEFORE_LATER, 0xf0, 0x1f, 0, 1),
    REFUSED(get_dmar_io_apic, UNITS_LATER, NULL, A(3), ZACPI_IOMMU_INVALID_STRUCTURE_LENGTH, NULL),
    REFUSED(get_dmar_io_apic, EMPTY, NULL, A(2), ZACPI_TABLE_MISSING, "DMAR"),
    GOOD(get_dmar_hpet, UNITS, NULL, A(0), 1, UNIT_OF_ALL, 0xf1, 0x1e, 7, 1),
    REFUSED(get_dmar_hpet, UNITS, NULL, A(2), ZACPI_NO_IOMMU, NULL), /* an I/O APIC has the id 2 */
    REFUSED(get_dmar_hpet, UNITS_END, NULL, A(0), ZACPI_IOMMU_INVALID_STRUCTURE_LENGTH, NULL),
    REFUSED(get_dmar_hpet, EMPTY, NULL, A(0), ZACPI_TABLE_MISSING, "DMAR"),
    GOOD(list_dmar_reserved, UNITS, NULL, A(0, 0, 1, HOP_2_0), 2, 0x7b800000, 0x7fffffff, 0,
         0x100000000, 0x100000000, 0),
    GOOD(list_dmar_reserved, UNITS, NULL, A(0, 0, 2, HOP_2_0), 1, 0x100000000, 0x100000000, 0),
    NOTHING(list_dmar_reserved, UNITS), /* without a hop */
    NOTHING(list_dmar_reserved, LEAST),
    GOOD(list_dmar_reserved, UNITS, NULL, A(3, 5, 1, HOP_4_1), 1, 5, 4, 3), /* no range */
    GOOD(list_dmar_reserved, UNITS_FAULTS, NULL, A(0, 0, 1, HOP_2_0), 1, 9, 8, 0),
    NOTHING(list_dmar_reserved, UNITS_BETWEEN),
    REFUSED(list_dmar_reserved, EMPTY, NULL, A(0, 0, 1, HOP_2_0), ZACPI_TABLE_MISSING, "DMAR"),
    GOOD(list_dmar_units, UNITS, NULL, NO, 3, FIRST_UNIT, UNIT_OF_ALL, UNIT_OF_3),
    GOOD(list_dmar_units, UNITS_CUT, NULL, NO, 1, ALONE),
    GOOD(list_dmar_units, UNITS_BETWEEN, NULL, NO, 1, FIRST_UNIT),
    GOOD(list_dmar_units, UNITS_FAULTS, NULL, NO, 2, FIRST_UNIT, 0x1fed91000, 8192, 0, 1, 0x81, 0x31),
    NOTHING(list_dmar_units, LEAST),
    REFUSED(list_dmar_units, EMPTY, NULL, NO, ZACPI_TABLE_MISSING, "DMAR"),
    GOOD(list_dmar_scopes, UNITS, NULL, A(0), 2, 1, 1, 0, 0, 0, 2, 0, NO_HOPS, 1, 2, 0, 0, 0, 1, 0, NO_HOPS),
    GOOD(list_dmar_scopes, UNITS, NULL, A(2), 1, 1, 1, 0, 0, 5, 4, 1, NO_HOPS),
    REFUSED(list_dmar_scopes, UNITS, NULL, A(3), ZACPI_NO_IOMMU, NULL),
    NOTHING(list_dmar_scopes, UNITS_CUT),
    GOOD(list_dmar_scopes, UNITS_FAULTS, NULL, A(0), 1, 1, 1, 0, 0, 0, 2, 0, NO_HOPS),
    GOOD(list_dmar_scopes, UNITS_FAULTS, NULL, A(1), 3, 1, 3, 0, 2, 0xf0, 0x1f, 0, NO_HOPS,
         0, 0x7f, 0xff, 1, 2, 0, 0, NO_HOPS, 2, 1, 0, 0, 0, 1, 2, 3, 4, 0, 0),
    REFUSED(list_dmar_scopes, UNITS_BETWEEN, NULL, A(1), ZACPI_NO_IOMMU, NULL), /* after the malformed RMRR */
    REFUSED(list_dmar_scopes, EMPTY, NULL, A(0), ZACPI_TABLE_MISSING, "DMAR"),
    GOOD(list_dmar_faults, UNITS, NULL, NO, 1, AT(DMAR) + 208, ZACPI_IOMMU_INVALID_MEMORY_RANGE, 1),
    GOOD(list_dmar_faults, UNITS_CUT, NULL, NO, 1, AT(DMAR_CUT) + 48, ZACPI_IOMMU_INVALID_STRUCTURE_LENGTH, 0),
    GOOD(list_dmar_faults, UNITS_END, NULL, NO, 1, AT(DMAR_END) + 72, ZACPI_IOMMU_INVALID_STRUCTURE_LENGTH, 0),
    GOOD(list_dmar_faults, UNITS_BETWEEN, NULL, NO, 1, AT(DMAR_BETWEEN) + 72, ZACPI_IOMMU_INVALID_STRUCTURE_LENGTH, 1),
    GOOD(list_dmar_faults, UNITS_FAULTS, NULL, NO, 2, AT(DMAR_FAULTS) + 48, ZACPI_IOMMU_INVALID_STRUCTURE_LENGTH, 0,
         AT(DMAR_FAULTS) + 78, ZACPI_IOMMU_INVALID_MEMORY_RANGE, 1),
    GOOD(list_dmar_faults, UNITS_LATER, NULL, NO, 1, AT(DMAR_LATER) + 72, ZACPI_IOMMU_INVALID_STRUCTURE_LENGTH, 0),
    NOTHING(list_dmar_faults, LEAST),
    REFUSED(list_dmar_faults, EMPTY, NULL, NO, ZACPI_TABLE_MISSING, "DMAR"),

    GOOD(get_ivrs_unit, UNITS, NULL, A(0, 0x10), 1, BLOCK_11, 0x10, 0xd7),
    GOOD(get_ivrs_unit, UNITS, NULL, A(0, 0x100), 1, BLOCK_11, 0x100, 1),
    GOOD(get_ivrs_unit, UNITS, NULL, A(0, 0x1ff), 1, BLOCK_11, 0x1ff, 1),
    GOOD(get_ivrs_unit, UNITS, NULL, A(0, 0x300), 1, BLOCK_11, 0x308, 2),
    GOOD(get_ivrs_unit, UNITS, NULL, A(0, 0x4ff), 1, BLOCK_11, 0x410, 3),
    GOOD(get_ivrs_unit, UNITS, NULL, A(0, 0x500), 1, BLOCK_11, 0x500, 4),
    GOOD(get_ivrs_unit, UNITS, NULL, A(0, 0xa0), 1, BLOCK_11, 0xa0, 6),
    GOOD(get_ivrs_unit, UNITS, NULL, A(0, 0x600), 1, BLOCK_11, 0x600, 5),
    GOOD(get_ivrs_unit, UNITS, NULL, A(1, 0xffff), 1, OTHER_BLOCK_11, 0xffff, 9),
    GOOD(get_ivrs_unit, UNITS_10, NULL, A(0, 0x1234), 1, BLOCK_10, 0x1234, 0xd7),
    REFUSED(get_ivrs_unit, UNITS, NULL, A(0, 0), ZACPI_NO_IOMMU, NULL), /* in padding, and in a block of Type 0x10 */
    REFUSED(get_ivrs_unit, UNITS, NULL, A(0, 0x200), ZACPI_NO_IOMMU, NULL),
    REFUSED(get_ivrs_unit, UNITS, NULL, A(2, 0x10), ZACPI_NO_IOMMU, NULL),
    REFUSED(get_ivrs_unit, LEAST, NULL, A(0, 0), ZACPI_NO_IOMMU, NULL),
    REFUSED(get_ivrs_unit, UNITS_CUT, NULL, A(0, 2), ZACPI_IOMMU_INVALID_STRUCTURE_LENGTH, NULL),
    GOOD(get_ivrs_unit, UNITS_END, NULL, A(0, 2), 1, 0, 0, 0, 0, 2, 0, 0, 0x10, 1, 0, 2, 0xd7),
    REFUSED(get_ivrs_unit, UNITS_END, NULL, A(1, 2), ZACPI_IOMMU_INVALID_STRUCTURE_LENGTH, NULL),
    GOOD(get_ivrs_unit, UNITS_BETWEEN, NULL, A(0, 2), 1, BLOCK_10, 2, 0xd7), /* before the malformed IVMD */
    GOOD(get_ivrs_unit, UNITS_4, NULL, A(0, 2), 1, BLOCK_10, 2, 0xd7),
    GOOD(get_ivrs_unit, UNITS_FAULTS, NULL, A(0, 0x600), 1, BLOCK_40, 0x600, 5),
    REFUSED(get_ivrs_unit, UNITS_FAULTS, NULL, A(0, 0x10), ZACPI_NO_IOMMU, NULL), /* malformed is one of Type 0x10 */
    REFUSED(get_ivrs_unit, EMPTY, NULL, A(0, 2), ZACPI_TABLE_MISSING, "IVRS"),
    GOOD(list_ivrs_memory, UNITS, NULL, A(0x1ff), 2, MEMORY_OF_ALL, 0x100000000, 0x20000, 0x100, 0x1ff, 0x22, 8),
    GOOD(list_ivrs_memory, UNITS, NULL, A(0x200), 1, MEMORY_OF_ALL),
    NOTHING(list_ivrs_memory, UNITS_10),
    GOOD(list_ivrs_memory, UNITS, NULL, A(0x300), 2, MEMORY_OF_ALL, MEMORY_OF_ONE), /* it ends at 2^64 */
    GOOD(list_ivrs_memory, UNITS_FAULTS, NULL, A(0x300), 1, MEMORY_OF_ONE),
    NOTHING(list_ivrs_memory, UNITS_BETWEEN),
    NOTHING(list_ivrs_memory, UNITS_4),
    REFUSED(list_ivrs_memory, EMPTY, NULL, A(2), ZACPI_TABLE_MISSING, "IVRS"),
    GOOD(list_ivrs_units, UNITS, NULL, NO, 3, BLOCK_10, BLOCK_11, OTHER_BLOCK_11),
    GOOD(list_ivrs_units, UNITS_BETWEEN, NULL, NO, 1, BLOCK_10),
    GOOD(list_ivrs_units, UNITS_4, NULL, NO, 1, BLOCK_10),
    GOOD(list_ivrs_units, UNITS_FAULTS, NULL, NO, 2, 0xfeb80000, 0, 0, 0, 2, 0x40, 3, 0x10, 0xff, 0, BLOCK_40),
    NOTHING(list_ivrs_units, LEAST),
    REFUSED(list_ivrs_units, EMPTY, NULL, NO, ZACPI_TABLE_MISSING, "IVRS"),
    GOOD(list_ivrs_entries, UNITS, NULL, A(0), 1, 1, 0, 0xffff, 0xd7, 0, 0, 0, 0, NO_HID),
    GOOD(list_ivrs_entries, UNITS, NULL, A(1), 8, 0, 0, 0, 0, 0, 0, 0, 0, NO_HID,
         2, 0x10, 0x10, 0xd7, 0, 0, 0, 0, NO_HID, 3, 0x100, 0x1ff, 1, 0, 0, 0, 0, NO_HID,
         0x42, 0x300, 0x300, 2, 0x308, 0, 0, 0, NO_HID, 0x43, 0x400, 0x4ff, 3, 0x410, 0, 0, 0, NO_HID,
         0x46, 0x500, 0x500, 4, 0, 0xffffffff, 0, 0, NO_HID, 0x48, 0, 0, 6, 0xa0, 0, 4, 1, NO_HID,
         0xf0, 0x600, 0x600, 5, 0, 0, 0, 0, 0, 0, 2, 2, 0, 0),
    REFUSED(list_ivrs_entries, UNITS, NULL, A(3), ZACPI_NO_IOMMU, NULL),
    NOTHING(list_ivrs_entries, UNITS_CUT),
    GOOD(list_ivrs_entries, UNITS_FAULTS, NULL, A(0), 2, 2, 0x10, 0x10, 1, 0, 0, 0, 0, NO_HID,
         5, 7, 7, 8, 0, 0, 0, 0, NO_HID), /* a reserved Type */
    GOOD(list_ivrs_entries, UNITS_FAULTS, NULL, A(1), 1,
         0xf0, 0x600, 0x600, 5, 0, 0, 0, 0, 0x30323030494d41, 1, 2, 2, 0x4241, 0),
    REFUSED(list_ivrs_entries, UNITS_BETWEEN, NULL, A(1), ZACPI_NO_IOMMU, NULL), /* after the malformed IVMD */
    REFUSED(list_ivrs_entries, EMPTY, NULL, A(0), ZACPI_TABLE_MISSING, "IVRS"),
    GOOD(list_ivrs_faults, UNITS, NULL, NO, 1, AT(IVRS) + 300, ZACPI_IOMMU_INVALID_MEMORY_RANGE, 0x21),
    GOOD(list_ivrs_faults, UNITS_CUT, NULL, NO, 1, AT(IVRS_CUT) + 48, ZACPI_IOMMU_INVALID_STRUCTURE_LENGTH, 0x10),
    GOOD(list_ivrs_faults, UNITS_END, NULL, NO, 1, AT(IVRS_END) + 76, ZACPI_IOMMU_INVALID_STRUCTURE_LENGTH, 0),
    GOOD(list_ivrs_faults, UNITS_BETWEEN, NULL, NO, 1, AT(IVRS_BETWEEN) + 76, ZACPI_IOMMU_INVALID_STRUCTURE_LENGTH,
         0x20),
    GOOD(list_ivrs_faults, UNITS_4, NULL, NO, 1, LAST_IVRS + 76, ZACPI_IOMMU_INVALID_STRUCTURE_LENGTH, 0x20),
    GOOD(list_ivrs_faults, UNITS_FAULTS, NULL, NO, 2, AT(IVRS_FAULTS) + 48, ZACPI_IOMMU_INVALID_STRUCTURE_LENGTH, 0x10,
         AT(IVRS_FAULTS) + 88, ZACPI_IOMMU_INVALID_MEMORY_RANGE, 0x21),
    NOTHING(list_ivrs_faults, LEAST),
    REFUSED(list_ivrs_faults, EMPTY, NULL, NO, ZACPI_TABLE_MISSING, "IVRS")};
#endif
