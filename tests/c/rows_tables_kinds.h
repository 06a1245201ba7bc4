/* An SRAT and a DMAR of rows_tables.h that have entries and structures of nearly all Types. */
#ifndef ROWS_TABLES_KINDS_H
#define ROWS_TABLES_KINDS_H

PUTS(all_kinds, {36, 4, AT(SRAT_ALL)}, {40, 4, AT(DMAR_ALL)});

/* The last entry is a byte too short. */
PUTS(srat_all,
    {48, 2, HEADER(5, 32)}, {48 + 3, 1, 1} /* Device Handle Type: PCI */, {48 + 4, 4, 2} /* Proximity Domain */,
    {48 + 8, 2, 1} /* PCI Segment */, {48 + 10, 2, 0x1234} /* PCI BDF Number */,
    {48 + 24, 4, 3} /* Flags: Enabled, Architectural Transactions */,
    {80, 2, HEADER(5, 32)}, {80 + 4, 4, 3} /* Device Handle Type: ACPI; Proximity Domain */,
    {80 + 8, 8, 0x3234303049504341} /* _HID: ACPI0042 */, {80 + 16, 4, 7} /* _UID */,
    {80 + 24, 4, 1} /* Flags: Enabled */,
    {112, 2, HEADER(5, 32)}, {112 + 4, 4, 9} /* Proximity Domain */, {112 + 24, 4, 2} /* Flags: not Enabled */,
    {144, 2, HEADER(4, 12)}, {144 + 2, 4, 4} /* Proximity Domain */, {144 + 8, 4, 0x11} /* ITS ID */,
    {156, 2, HEADER(6, 32)}, {156 + 4, 4, 8} /* Proximity Domain */, {156 + 24, 4, 1} /* Flags: Enabled */,
    {188, 2, HEADER(2, 24)}, {188 + 4, 4, 9} /* Proximity Domain */, {188 + 8, 4, 0x24} /* X2APIC ID */,
    {188 + 12, 4, 0xfffffffe} /* Flags: all but Enabled */, {212, 2, HEADER(0xff, 16)},
    {228, 2, HEADER(0, 16)}, {228 + 2, 1, 0x10} /* Proximity Domain [7:0] */, {228 + 3, 1, 0xff} /* APIC ID */,
    {228 + 4, 4, 1} /* Flags: Enabled */, {228 + 9, 3, 0x30201} /* Proximity Domain [31:8] */,
    {228 + 12, 4, 0xb} /* Clock Domain */,
    {244, 2, HEADER(2, 24)}, {244 + 4, 4, 7} /* Proximity Domain */, {244 + 8, 4, 0x100} /* X2APIC ID */,
    {244 + 12, 4, 0x80000001} /* Flags: Enabled, and reserved */, {244 + 16, 4, 0xc} /* Clock Domain */,
    {268, 2, HEADER(3, 18)}, {268 + 2, 4, 8} /* Proximity Domain */, {268 + 6, 4, 0x23} /* ACPI Processor UID */,
    {268 + 10, 4, 1} /* Flags: Enabled */, {268 + 14, 4, 0xd} /* Clock Domain */,
    {286, 2, HEADER(4, 12)}, {286 + 2, 4, 0xffffffff} /* Proximity Domain */, {286 + 8, 4, 0x12} /* ITS ID */,
    {298, 2, HEADER(3, 17)});

/* Flags at 4, Segment Number at 6: of an ATSR, a SATC and an SIDP, whose Flags are reserved. */
#define SCOPED(at, type, length, flags, segment) STRUCTURE(at, type, length), {at + 4, 1, flags}, {at + 6, 2, segment}
/* Register Base Address at 8, Proximity Domain at 16. */
#define RHSA(at, base, domain) STRUCTURE(at, 3, 20), {at + 8, 8, base}, {at + 16, 4, domain}
/* The third RHSA is a byte too short, and an RMRR comes after it. */
PUTS(dmar_all,
    DRHD(48, 16, 0, 0, 0, 0xfed90000),
    SCOPED(64, 2, 26, 0, 1), SCOPE(72, 2, 8, 0, 0), HOP(78, 0x1c, 0),
    SCOPE(80, 2, 10, 0, 0x80), HOP(86, 3, 2), HOP(88, 1, 0),
    RHSA(90, 0x1fed91000, 0x01020304),
    SCOPED(110, 2, 8, 0x81, 0xffff) /* ALL_PORTS, and a reserved bit */,
    SCOPED(118, 5, 16, 1, 2), SCOPE(126, 1, 8, 0, 0x40), HOP(132, 5, 0),
    RMRR(134, 2, 0x1000, 0x1fff), SCOPE(158, 1, 8, 0, 7), HOP(164, 6, 1),
    SCOPED(166, 6, 14, 0, 3), SCOPE(174, 1, 6, 0, 9) /* no hop */,
    STRUCTURE(180, 4, 12), {180 + 7, 1, 3} /* ACPI Device Number */, {180 + 8, 4, 0x564544} /* ACPI Object Name: DEV */,
    RHSA(192, 0xfed90000, 0), STRUCTURE(212, 3, 19), RMRR(231, 0, 0, 1));
#endif
