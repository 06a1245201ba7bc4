/* The DMARs of rows_tables.h (Intel Virtualization Technology for Directed I/O 4.0, chapter 8) and its IVRSs (AMD I/O
 * Virtualization Technology (IOMMU) Specification 3.08, section 5.2). An offset is that of a structure, scope, block or
 * entry and that in it. */
#ifndef ROWS_TABLES_IOMMU_H
#define ROWS_TABLES_IOMMU_H

PUTS(units, {36, 4, AT(DMAR)}, {40, 4, AT(IVRS)});
PUTS(units_10, {36, 4, AT(IVRS_10)});
PUTS(units_cut, {36, 4, AT(DMAR_CUT)}, {40, 4, AT(IVRS_CUT)});
PUTS(units_end, {36, 4, AT(DMAR_END)}, {40, 4, AT(IVRS_END)});
PUTS(units_between, {36, 4, AT(DMAR_BETWEEN)}, {40, 4, AT(IVRS_BETWEEN)});
PUTS(units_4, {36, 4, LAST_IVRS});
PUTS(units_faults, {36, 4, AT(DMAR_FAULTS)}, {40, 4, AT(IVRS_FAULTS)});
PUTS(units_later, {36, 4, AT(DMAR_LATER)});

/* ---- DMAR ------------------------------------------------------------------------------------------------ */

/* Type at 0 and Length at 2. */
#define STRUCTURE(at, type, length) {at, 2, type}, {at + 2, 2, length}
/* Flags at 4, Size at 5, Segment Number at 6, Register Base Address at 8. */
#define DRHD(at, length, flags, size, segment, base) \
    STRUCTURE(at, 0, length), {at + 4, 1, flags}, {at + 5, 1, size}, {at + 6, 2, segment}, {at + 8, 8, base}
/* Segment Number at 6, Reserved Memory Region Base Address at 8, Reserved Memory Region Limit Address at 16. */
#define RMRR(at, segment, base, limit) \
    STRUCTURE(at, 1, 32), {at + 6, 2, segment}, {at + 8, 8, base}, {at + 16, 8, limit}
/* A device scope: Type at 0, Length at 1, Enumeration ID at 4, Start Bus Number at 5; a hop of Path, from 6 on. */
#define SCOPE(at, type, length, id, bus) {at, 1, type}, {at + 1, 1, length}, {at + 4, 1, id}, {at + 5, 1, bus}
#define HOP(at, device, function) {at, 1, device}, {at + 1, 1, function}

PUTS(dmar,
    {36, 1, 38} /* Host Address Width */, {37, 1, 1} /* Flags: INTR_REMAP */,
    DRHD(48, 32, 0, 0, 0, 0xfed90000), SCOPE(64, 1, 8, 0, 0), HOP(70, 2, 0) /* an endpoint */,
    SCOPE(72, 2, 8, 0, 0), HOP(78, 1, 0) /* a sub-hierarchy */,
    DRHD(80, 40, 1, 0x31, 0, 0x1fed91000) /* INCLUDE_PCI_ALL; Size: 2 pages, and reserved bits */,
    SCOPE(96, 3, 8, 2, 0xf0), HOP(102, 0x1f, 0) /* an I/O APIC */,
    SCOPE(104, 4, 10, 0, 0xf1), HOP(110, 1, 2), HOP(112, 0x1e, 7) /* an HPET */,
    SCOPE(114, 3, 6, 9, 0xf2) /* an I/O APIC without a path */,
    DRHD(120, 24, 0, 0, 3, 0x12fed92000), SCOPE(136, 1, 8, 0, 5), HOP(142, 4, 1) /* an endpoint */,
    RMRR(144, 0, 0x7b800000, 0x7fffffff), SCOPE(168, 1, 8, 0, 0), HOP(174, 2, 0) /* an endpoint */,
    RMRR(176, 0, 0x100000000, 0x100000000), SCOPE(200, 2, 8, 0, 0), HOP(206, 2, 0) /* a sub-hierarchy */,
    RMRR(208, 3, 5, 4), SCOPE(232, 1, 8, 0, 5), HOP(238, 4, 1) /* an endpoint; the last byte is before the first */);
/* A scope that is a byte too short. */
PUTS(dmar_cut,
    {36, 1, 255} /* Host Address Width */, {37, 1, 0x86} /* Flags: all but INTR_REMAP, and a reserved bit */,
    DRHD(48, 24, 1, 0, 0, 0xfed90000), SCOPE(64, 1, 5, 0, 0));
/* Four zeros after a whole structure: a Length of 0. */
PUTS(dmar_end, DRHD(48, 24, 1, 0, 0, 0xfed90000), SCOPE(64, 1, 8, 0, 0), HOP(70, 2, 0));

/* An RMRR that is too short, between two units. */
PUTS(dmar_between,
    DRHD(48, 24, 0, 0, 0, 0xfed90000), SCOPE(64, 1, 8, 0, 0), HOP(70, 2, 0) /* an endpoint */,
    STRUCTURE(72, 1, 16), DRHD(88, 16, 1, 0, 0, 0xfed91000));
/* A scope that is a byte too short after a whole one; an RMRR whose last byte is before its first; reserved bits and
 * Types. */
PUTS(dmar_faults,
    DRHD(48, 30, 0, 0, 0, 0xfed90000), SCOPE(64, 1, 8, 0, 0), HOP(70, 2, 0) /* an endpoint */, SCOPE(72, 3, 5, 7, 0),
    RMRR(78, 0, 9, 8), SCOPE(102, 1, 8, 0, 0), HOP(108, 2, 0) /* an endpoint */,
    DRHD(110, 40, 0x81, 0x31, 0, 0x1fed91000) /* INCLUDE_PCI_ALL and bit 7; Size: 2 pages, and reserved bits */,
    SCOPE(126, 3, 8, 2, 0xf0), HOP(132, 0x1f, 0) /* an I/O APIC */,
    SCOPE(134, 0x7f, 6, 1, 2), {134 + 2, 1, 0xff} /* a reserved Type, and Flags; no hop */,
    SCOPE(140, 1, 10, 0, 0), HOP(146, 1, 2), HOP(148, 3, 4) /* an endpoint of two hops */);
/* A unit whose only scope is a byte too short, after that of all other devices and of an I/O APIC. */
PUTS(dmar_later,
    DRHD(48, 24, 1, 0, 0, 0xfed91000), SCOPE(64, 3, 8, 2, 0xf0), HOP(70, 0x1f, 0),
    DRHD(72, 21, 0, 0, 0, 0xfed92000), {88, 1, 1}, {89, 1, 6} /* Type, Length */);

/* ---- IVRS ------------------------------------------------------------------------------------------------ */

/* Type at 0, Flags at 1, Length at 2, DeviceID at 4. */
#define BLOCK(at, type, flags, length, id) {at, 1, type}, {at + 1, 1, flags}, {at + 2, 2, length}, {at + 4, 2, id}
/* Capability Offset at 6, IOMMU Base Address at 8, PCI Segment Group at 16, IOMMU Info at 18, IOMMU Feature Reporting
 * or IOMMU Attributes at 20; of Type 0x11 EFR Register Image at 24. */
#define IVHD(at, capability, base, segment, info, features) \
    {at + 6, 2, capability}, {at + 8, 8, base}, {at + 16, 2, segment}, {at + 18, 2, info}, {at + 20, 4, features}
/* Auxiliary Data at 6, IVMD start address at 16, IVMD memory block length at 24. */
#define IVMD(at, auxiliary, start, length) {at + 6, 2, auxiliary}, {at + 16, 8, start}, {at + 24, 8, length}
/* Type at 0, DeviceID at 1, DTE Setting at 3. */
#define ENTRY(at, type, id, settings) {at, 1, type}, {at + 1, 2, id}, {at + 3, 1, settings}

PUTS(ivrs,
    BLOCK(48, 0x10, 1, 28, 2), IVHD(48, 0x40, 0xfeb80000, 0, 3, 0x11223344), ENTRY(72, 1, 9, 0xd7) /* all; 9 reserved */,
    BLOCK(76, 0x11, 0xb0, 116, 2), IVHD(76, 0x48, 0x1feb80000, 0, 0x105, 0x80048f6e),
    {76 + 24, 8, 0x246577efa2254afa} /* EFR Register Image */,
    ENTRY(116, 0, 8, 0xff) /* padding, all reserved */, ENTRY(120, 2, 0x10, 0xd7) /* select */,
    ENTRY(124, 3, 0x100, 1), ENTRY(128, 4, 0x1ff, 0) /* start and end of a range */,
    ENTRY(132, 0x42, 0x300, 2), {132 + 5, 2, 0x308} /* alias select, Source DeviceID */,
    ENTRY(140, 0x43, 0x400, 3), {140 + 5, 2, 0x410}, ENTRY(148, 4, 0x4ff, 0) /* alias start, and its end */,
    ENTRY(152, 0x46, 0x500, 4), {152 + 4, 4, 0xffffffff} /* extended select, Extended DTE Setting */,
    ENTRY(160, 0x48, 7 /* reserved */, 6), {160 + 4, 1, 4}, {160 + 5, 2, 0xa0}, {160 + 7, 1, 1} /* special device: I/O APIC 4 */,
    ENTRY(168, 0xf0, 0x600, 5), {168 + 20, 1, 2}, {168 + 21, 1, 2} /* ACPI HID device, Unique ID of 2 bytes */,
    BLOCK(192, 0x11, 0x31, 44, 0x4002), IVHD(192, 0x44, 0x1fec00000, 1, 0x206, 7), {192 + 24, 8, 0x55},
    ENTRY(232, 1, 0, 9) /* all */,
    BLOCK(236, 0x20, 1, 32, 0), IVMD(236, 0, 0x70000000, 0x1000) /* for all devices */,
    BLOCK(268, 0x22, 8, 32, 0x100), IVMD(268, 0x1ff, 0x100000000, 0x20000) /* for a range */,
    BLOCK(300, 0x21, 7, 32, 0x300), IVMD(300, 0x1234, 0xfffffffffffff000, 0x1000) /* for one: it ends at 2^64 */);
PUTS(ivrs_10, BLOCK(48, 0x10, 1, 28, 2), IVHD(48, 0x40, 0xfeb80000, 0, 3, 0x11223344), ENTRY(72, 1, 0, 0xd7) /* all */);
/* A start of a range that another entry follows. */
PUTS(ivrs_cut, BLOCK(48, 0x10, 1, 32, 2), ENTRY(72, 3, 1, 0), ENTRY(76, 2, 2, 0));
/* Four zeros after a whole block: a Length of 0. */
PUTS(ivrs_end, BLOCK(48, 0x10, 1, 28, 2), ENTRY(72, 1, 0, 0xd7));
/* An IVMD that is too short, between two units. */
PUTS(ivrs_between,
    BLOCK(48, 0x10, 1, 28, 2), IVHD(48, 0x40, 0xfeb80000, 0, 3, 0x11223344), ENTRY(72, 1, 0, 0xd7) /* all */,
    BLOCK(76, 0x20, 0, 16, 0), BLOCK(92, 0x11, 0, 40, 2), IVHD(92, 0x40, 0x1feb80000, 0, 3, 7));
/* The same where the table and its region end right after the Length, so that no DeviceID is there. */
PUTS(last_ivrs,
    BLOCK(48, 0x10, 1, 28, 2), IVHD(48, 0x40, 0xfeb80000, 0, 3, 0x11223344), ENTRY(72, 1, 0, 0xd7) /* all */,
    {76, 1, 0x20} /* Type */, {76 + 2, 2, 4} /* Length */);
/* An end of a range without a start, after whole entries, of which one has a reserved Type; an IVMD that ends at 2^64;
 * and an ACPI HID device with Hardware ID, Unique ID format, its length 2 and Unique ID. */
PUTS(ivrs_faults,
    BLOCK(48, 0x10, 0xff, 40, 2), IVHD(48, 0x40, 0xfeb80000, 0, 3, 0),
    ENTRY(72, 2, 0x10, 1), ENTRY(76, 5, 7, 8), ENTRY(80, 4, 9, 0),
    BLOCK(88, 0x21, 7, 32, 0x300), IVMD(88, 0x1234, 0xfffffffffffff000, 0x1000),
    BLOCK(120, 0x40, 0, 64, 3), IVHD(120, 0x48, 0x1feb80000, 0, 5, 6), {120 + 24, 8, 7} /* EFR Register Image */,
    ENTRY(160, 0xf0, 0x600, 5), {160 + 4, 8, 0x30323030494d41} /* AMI0020 */, {160 + 12, 8, 1} /* Compatible ID */,
    {160 + 20, 1, 2}, {160 + 21, 1, 2}, {160 + 22, 2, 0x4241});
#endif
