/* Tables of Arm machines with entries at fault, for rows_tables.h. */
#ifndef ROWS_TABLES_FAULTS_H
#define ROWS_TABLES_FAULTS_H

PUTS(faults, {36, 4, AT(MADT_NO_GICD)}, {40, 4, AT(GTDT_FAULTS)}, {44, 4, AT(SRAT_FAULTS)});
PUTS(early, {36, 4, AT(GTDT_EARLY)});
PUTS(late, {36, 4, AT(GTDT_LATE)});
PUTS(past, {36, 4, AT(GTDT_PAST)});
PUTS(one_left, {36, 4, LAST_MADT});
PUTS(fronts, {36, 4, AT(MADT_FRONT)}, {40, 4, AT(GTDT_FRONT)}, {44, 4, AT(SRAT_FRONT)});

/* No GICD, and reserved bits that are set. */
PUTS(madt_no_gicd,
    {44, 2, HEADER(0x0b, 82)}, {44 + 4, 4, 1} /* CPU Interface Number */, {44 + 8, 4, 2} /* ACPI Processor UID */,
    {44 + 12, 4, 0xfffffff1} /* Flags: Enabled, reserved */,
    {126, 2, HEADER(0x0f, 20)}, {126 + 2, 2, 0xffff} /* reserved */, {126 + 4, 4, 6} /* GIC ITS ID */,
    {126 + 8, 8, 0x1000} /* Physical Base Address */, {126 + 16, 4, 0xffffffff} /* reserved */);
/* A GICC, and a Length of 0 before the GICD. */
PUTS(madt_front,
    {44, 2, HEADER(0x0b, 76)}, {44 + 8, 4, 3} /* ACPI Processor UID */, {120, 2, HEADER(0x0c, 0)},
    {122, 2, HEADER(0x0c, 24)});
/* A Local APIC, and the Type of an entry whose Length is after the table and its region. */
PUTS(last_madt,
    {44, 2, HEADER(0, 8)}, {44 + 2, 1, 3} /* ACPI Processor UID */, {44 + 3, 1, 4} /* APIC ID */,
    {44 + 4, 4, 1} /* Flags: Enabled */, {52, 1, 7} /* Type */);

/* Revision 2: a watchdog with reserved flags, a block of three frames with room for two, a reserved Type, another. */
PUTS(gtdt_faults,
    {88, 4, 4} /* Platform Timer Count */, {92, 4, 96} /* Platform Timer Offset */,
    {96, 1, 1} /* Type: Arm Generic Watchdog */, {96 + 1, 2, 28} /* Length */, {96 + 20, 4, 60} /* GSIV */,
    {96 + 24, 4, 0xfffffff9} /* Watchdog Timer Flags: edge, active high, reserved */,
    {124, 1, 0} /* Type: GT Block */, {124 + 1, 2, 100} /* Length */, {124 + 4, 8, 0x7000} /* Physical Address */,
    {124 + 12, 4, 3} /* GT Block Timer Count */, {124 + 16, 4, 20} /* GT Block Timer Offset */,
    {144, 1, 1} /* GT Frame Number */, {144 + 4, 8, 0x8000} /* CntBaseX */,
    {144 + 20, 4, 92}, {144 + 24, 4, 3} /* GTx Physical Timer GSIV, Flags: edge, active low */,
    {184, 1, 2} /* GT Frame Number */, {184 + 4, 8, 0x9000} /* CntBaseX */,
    {184 + 36, 4, 0xfffffffe} /* GTx Common Flags: Always-on Capability, reserved */,
    {224, 1, 5} /* Type: reserved */, {224 + 1, 2, 4} /* Length */,
    {228, 1, 1} /* Type: Arm Generic Watchdog */, {228 + 1, 2, 28} /* Length */, {228 + 20, 4, 61} /* GSIV */);
/* Revision 2: a block whose frame begins inside its fixed bytes, a watchdog, and a Length of 3. */
PUTS(gtdt_front,
    {88, 4, 3} /* Platform Timer Count */, {92, 4, 96} /* Platform Timer Offset */,
    {96, 1, 0} /* Type: GT Block */, {96 + 1, 2, 60} /* Length */, {96 + 12, 4, 1} /* GT Block Timer Count */,
    {96 + 16, 4, 19} /* GT Block Timer Offset */,
    {156, 1, 1} /* Type: Arm Generic Watchdog */, {156 + 1, 2, 28} /* Length */, {156 + 20, 4, 62} /* GSIV */,
    {184, 1, 0x7f} /* Type: reserved */, {184 + 1, 2, 3} /* Length */);
/* Revision 2: a watchdog, but Platform Timer Offset is 95. */
PUTS(gtdt_early,
    {88, 4, 1} /* Platform Timer Count */, {92, 4, 95} /* Platform Timer Offset */,
    {96, 1, 1} /* Type: Arm Generic Watchdog */, {96 + 1, 2, 28} /* Length */);
/* Revision 2: a block whose frame begins after it, and no second structure. */
PUTS(gtdt_late,
    {88, 4, 2} /* Platform Timer Count */, {92, 4, 96} /* Platform Timer Offset */,
    {96, 1, 0} /* Type: GT Block */, {96 + 1, 2, 20} /* Length */, {96 + 12, 4, 1} /* GT Block Timer Count */,
    {96 + 16, 4, 21} /* GT Block Timer Offset */);
/* Revision 2: the structures begin after the table. */
PUTS(gtdt_past, {88, 4, 1} /* Platform Timer Count */, {92, 4, 0xffffffff} /* Platform Timer Offset */);

/* Memory that ends above 2^64 between others, and as much that isn't enabled; a reserved Type. */
PUTS(srat_faults,
    {48, 2, HEADER(1, 40)}, {48 + 2, 4, 1} /* Proximity Domain */, {48 + 8, 8, 0x1000} /* Base Address */,
    {48 + 16, 8, 0x1000} /* Length */, {48 + 28, 4, 1} /* Flags: Enabled */,
    {88, 2, HEADER(7, 20)},
    {108, 2, HEADER(1, 40)}, {108 + 2, 4, 2} /* Proximity Domain */, {108 + 8, 8, 0xfffffffffffff000} /* Base */,
    {108 + 16, 8, 0x2000} /* Length */, {108 + 28, 4, 3} /* Flags: Enabled, Hot Pluggable */,
    {148, 2, HEADER(1, 40)}, {148 + 2, 4, 3} /* Proximity Domain */, {148 + 8, 8, 0x3000} /* Base Address */,
    {148 + 16, 8, 0x1000} /* Length */, {148 + 28, 4, 5} /* Flags: Enabled, NonVolatile */,
    {188, 2, HEADER(1, 40)}, {188 + 8, 8, ONES} /* Base Address */, {188 + 16, 8, 2} /* Length; not Enabled */,
    {228, 2, HEADER(0, 16)}, {228 + 2, 1, 4} /* Proximity Domain */, {228 + 3, 1, 9} /* APIC ID */,
    {228 + 4, 4, 1} /* Flags: Enabled */);
/* A Length of 0 after memory and a processor; the memory after it isn't reached. */
PUTS(srat_front,
    {48, 2, HEADER(1, 40)}, {48 + 2, 4, 1} /* Proximity Domain */, {48 + 8, 8, 0x1000} /* Base Address */,
    {48 + 16, 8, 0x1000} /* Length */, {48 + 28, 4, 1} /* Flags: Enabled */,
    {88, 2, HEADER(1, 40)}, {88 + 2, 4, 2} /* Proximity Domain */, {88 + 8, 8, 0x3000} /* Base Address */,
    {88 + 16, 8, 0x1000} /* Length */, {88 + 28, 4, 1} /* Flags: Enabled */,
    {128, 2, HEADER(0, 16)}, {128 + 2, 1, 5} /* Proximity Domain */, {128 + 3, 1, 9} /* APIC ID */,
    {128 + 4, 4, 1} /* Flags: Enabled */, {144, 2, HEADER(1, 0)},
    {146, 2, HEADER(1, 40)}, {146 + 2, 4, 6} /* Proximity Domain */, {146 + 8, 8, 0x5000} /* Base Address */,
    {146 + 16, 8, 0x1000} /* Length */, {146 + 28, 4, 1} /* Flags: Enabled */);
#endif
