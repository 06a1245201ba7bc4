/* Tables whose structures have lengths between those that are usual, or fields that are seldom set, for
 * rows_lengths.h. The forms are those of rows_tables.h. */
#ifndef ROWS_TABLES_LENGTHS_H
#define ROWS_TABLES_LENGTHS_H

PUTS(gicc_78, {36, 4, AT(FADT)}, {40, 4, AT(MADT_GICC_78)});
PUTS(flawed_pc, {36, 4, AT(FADT_DESKTOP)}, {40, 4, AT(MADT_BOTH)}, {44, 4, AT(MADT_OEM_ID)}, {48, 4, AT(MADT_TABLE_ID)},
     {52, 4, AT(MADT_SUM)}, {56, 4, AT(MADT_VALID)});
PUTS(text_ids, {36, 4, AT(FADT_DESKTOP)}, {40, 4, AT(MADT_TEXT)}, {44, 4, AT(HPET_TEXT)});
PUTS(lost, {36, 4, AT(FADT_DESKTOP)}, {40, 4, AT(MADT_LONG)}, {44, 4, AT(HPET_LONG)});
PUTS(pins, {36, 4, AT(FADT_DESKTOP)}, {40, 4, AT(MADT_PINS)});
PUTS(other_bus, {36, 4, AT(FADT_DESKTOP)}, {40, 4, AT(MADT_BUS_1)});
PUTS(left_1, {36, 4, AT(GTDT_LEFT_1)});
PUTS(left_2, {36, 4, AT(GTDT_LEFT_2)});
PUTS(left_2_of_2, {36, 4, AT(GTDT_LEFT_2_OF_2)});
PUTS(timer_of_2, {36, 4, AT(GTDT_OF_2)});
PUTS(timer_types, {36, 4, AT(GTDT_TYPES)});
PUTS(no_timer, {36, 4, AT(GTDT_NONE)});
PUTS(low_facs, {36, 4, AT(FADT_LOW_FACS)});
PUTS(x_dsdt, {36, 4, AT(FADT_X_DSDT)});
PUTS(reset_128, {36, 4, AT(FADT_128)});
PUTS(reset_116, {36, 4, AT(FADT_RESET_116)});
PUTS(control_0, {36, 4, AT(FADT_CONTROL_0)});
PUTS(wide_control, {36, 4, AT(FADT_CONTROL_32)});
PUTS(hpet_id_80, {36, 4, AT(HPET_80)});
PUTS(console_85, {36, 4, AT(SPCR_85)});
PUTS(console_87, {36, 4, AT(SPCR_87)});
PUTS(not_enabled, {36, 4, AT(SRAT_NOT_ENABLED)});
PUTS(unscoped, {36, 4, AT(DMAR_UNSCOPED)}, {40, 4, AT(IVRS_ENDS)});
PUTS(one_byte_more, {36, 4, AT(DMAR_17)}, {40, 4, AT(IVRS_OTHERS)});

/* GICCs of 78, 79, 77 and 76 bytes, among what a PC has and the parts of a GIC. */
PUTS(madt_gicc_78,
    {44, 2, HEADER(0, 8)}, {44 + 2, 1, 1} /* ACPI Processor UID */, {44 + 3, 1, 10} /* APIC ID */,
    {44 + 4, 4, 1} /* Flags: Enabled */,
    {52, 2, HEADER(0x0b, 78)}, {52 + 4, 4, 1} /* CPU Interface Number */, {52 + 8, 4, 2} /* ACPI Processor UID */,
    {130, 2, HEADER(0x0b, 79)}, {130 + 4, 4, 3} /* CPU Interface Number */, {130 + 8, 4, 4} /* ACPI Processor UID */,
    {209, 2, HEADER(0x0c, 24)}, {209 + 4, 4, 7} /* GIC ID */, {209 + 8, 8, 0x2f000000} /* Physical Base Address */,
    {209 + 16, 4, 5} /* System Vector Base */, {209 + 20, 1, 3} /* GIC version */,
    {233, 2, HEADER(1, 12)}, {233 + 2, 1, 2} /* I/O APIC ID */, {233 + 4, 4, 0xfec00000} /* I/O APIC Address */,
    {245, 2, HEADER(2, 10)}, {245 + 3, 1, 9} /* Source */, {245 + 4, 4, 20} /* Global System Interrupt */,
    {245 + 8, 2, 0xd} /* Flags: active high, level */,
    {255, 2, HEADER(3, 8)}, {255 + 2, 2, 5} /* Flags: active high, edge */,
    {255 + 4, 4, 50} /* Global System Interrupt */,
    {263, 2, HEADER(4, 6)}, {263 + 2, 1, 0xff} /* ACPI Processor UID: all */, {263 + 5, 1, 1} /* Local APIC LINT# */,
    {269, 2, HEADER(0x0d, 24)}, {269 + 4, 4, 8} /* GIC MSI Frame ID */,
    {269 + 8, 8, 0x12f030000} /* Physical Base Address */, {269 + 16, 4, 1} /* Flags: SPI Count/Base Select */,
    {269 + 20, 2, 32} /* SPI Count */, {269 + 22, 2, 64} /* SPI Base */,
    {293, 2, HEADER(0x0e, 16)}, {293 + 4, 8, 0x12f200000} /* Discovery Range Base Address */,
    {293 + 12, 4, 0x40000} /* Discovery Range Length */,
    {309, 2, HEADER(0x0f, 20)}, {309 + 4, 4, 6} /* GIC ITS ID */, {309 + 8, 8, 0x12f020000} /* Physical Base Address */,
    {329, 2, HEADER(0x0b, 77)}, {329 + 4, 4, 5} /* CPU Interface Number */, {329 + 8, 4, 6} /* ACPI Processor UID */,
    {329 + 76, 1, 9} /* Processor Power Efficiency Class */,
    {406, 2, HEADER(0x0b, 76)}, {406 + 4, 4, 7} /* CPU Interface Number */, {406 + 8, 4, 8} /* ACPI Processor UID */,
    {482, 2, HEADER(0x10, 16)}, {482 + 8, 8, 0x27b000000} /* MailBoxAddress */);
/* One byte after the fixed ones, after a processor, and after an entry of an OEM. */
PUTS(madt_53, PROCESSOR(7, 17));
PUTS(madt_47, OTHER(44));
/* Overrides of an interrupt that ISA hasn't, and of SCI_INT with trigger 2. */
PUTS(madt_source_16, {44, 2, HEADER(2, 10)}, {44 + 3, 1, 16} /* Source */, {44 + 4, 4, 30});
PUTS(madt_sci_trigger, {44, 2, HEADER(2, 10)}, {44 + 3, 1, 9} /* Source */, {44 + 4, 4, 9}, {44 + 8, 2, 9});
/* The first bus is at 2^64, and as many localities as a number can be. */
PUTS(mcfg_high, {44, 8, 0xfffffffffff00000} /* Base Address */, {54, 1, 1} /* Start Bus Number */, {55, 1, 1});
PUTS(slit_ones, {36, 8, ONES}, {44, 1, 10});
/* OEMID and OEM Table ID are no ASCII, but UTF-8: U+00E9, and zeros. */
#define OTHER_TEXTS {10, 2, 0xa9c3}, {16, 2, 0xa9c3}
PUTS(madt_text, PROCESSOR(6, 16), OTHER_TEXTS);
PUTS(hpet_text, {44, 8, 0xfed70000} /* BASE_ADDRESS: Address */, OTHER_TEXTS);
/* OEM Table ID is no UTF-8: it begins with a byte that goes on. */
PUTS(hpet_80, {44, 8, 0xfed80000} /* BASE_ADDRESS: Address */, {16, 1, 0x80});
/* I/O APICs alone, of which the second has interrupts of the first, and the third has those of the second. */
PUTS(madt_pins,
    {44, 2, HEADER(1, 12)}, {44 + 2, 1, 2} /* I/O APIC ID */, {44 + 4, 4, 0xfec00000} /* I/O APIC Address */,
    {56, 2, HEADER(1, 12)}, {56 + 2, 1, 3} /* I/O APIC ID */, {56 + 4, 4, 0xfec01000} /* I/O APIC Address */,
    {56 + 8, 4, 4} /* Global System Interrupt Base */,
    {68, 2, HEADER(1, 12)}, {68 + 2, 1, 4} /* I/O APIC ID */, {68 + 4, 4, 0xfec02000} /* I/O APIC Address */,
    {68 + 8, 4, 4} /* Global System Interrupt Base */);

/* Revision 2: after a watchdog one byte is left; two, of which the second is the lower one of Length, 28 and 2; and all
 * of a structure whose Length is 2. */
#define TIMER_COUNT(count) {88, 4, count} /* Platform Timer Count */, {92, 4, 96} /* Platform Timer Offset */
PUTS(gtdt_left_1, TIMER_COUNT(2), WATCHDOG_AT(96), {124, 1, 1} /* Type */);
PUTS(gtdt_left_2, TIMER_COUNT(2), WATCHDOG_AT(96), {124, 1, 1} /* Type */, {125, 1, 28});
PUTS(gtdt_left_2_of_2, TIMER_COUNT(2), WATCHDOG_AT(96), {124, 1, 1} /* Type */, {125, 1, 2});
PUTS(gtdt_of_2, TIMER_COUNT(2), WATCHDOG_AT(96), {124, 1, 1} /* Type */, {125, 2, 2});
/* Revision 3, with an EL2 timer of virtual software: structures of a reserved Type of 4 and 14 bytes, a block without a
 * frame, and a watchdog. */
PUTS(gtdt_types,
    {88, 4, 4} /* Platform Timer Count */, {92, 4, 104} /* Platform Timer Offset */,
    {96, 4, 28}, {100, 4, 3} /* Virtual EL2 Timer GSIV, Flags: edge, active low */,
    {104, 1, 5} /* Type: reserved */, {105, 2, 4} /* Length */, {108, 1, 5} /* Type: reserved */, {109, 2, 14},
    {122, 1, 0} /* Type: GT Block */, {123, 2, 20} /* Length */, {126, 8, 0x7000} /* Physical Address */,
    {138, 4, 20} /* GT Block Timer Offset */, WATCHDOG_AT(142));
/* Revision 3, without a platform timer, so Platform Timer Offset says nothing. */
PUTS(gtdt_none, {96, 4, 28}, {100, 4, 3} /* Virtual EL2 Timer GSIV, Flags: edge, active low */);

/* X_FIRMWARE_CTRL is 0, so FIRMWARE_CTRL counts, and X_DSDT counts before DSDT. */
PUTS(fadt_low_facs, {36, 4, AT(FACS)} /* FIRMWARE_CTRL */, {40, 4, AT(DSDT_S5)} /* DSDT */);
PUTS(fadt_x_dsdt, {36, 4, AT(FACS)} /* FIRMWARE_CTRL */, {40, 4, AT(DSDT_POWER)} /* DSDT */,
     {140, 8, AT(DSDT_S5)} /* X_DSDT */);
/* The last byte is that before RESET_VALUE, or before RESET_REG. */
PUTS(fadt_128, {112, 4, 0x400} /* Flags: RESET_REG_SUP */, GENERIC(116, 1, 8, 0, 1, 0xcf9) /* RESET_REG */);
PUTS(fadt_reset_116, {112, 4, 0x400} /* Flags: RESET_REG_SUP */);
/* Reduced hardware, whose SLEEP_CONTROL_REG is at address 0. */
PUTS(fadt_control_0, {40, 4, AT(DSDT_S5)} /* DSDT */, {112, 4, 0x100000} /* Flags: HW_REDUCED_ACPI */,
     GENERIC(244, 0, 8, 0, 1, 0) /* SLEEP_CONTROL_REG */);
/* PM1_CNT_LEN is 32, of which the bits are more than a byte, for both blocks or for PM1b_CNT_BLK alone. */
/* Revision 6: blocks that have a length and no address. */
PUTS(fadt_no_blocks, {91, 1, 4} /* PM_TMR_LEN */, {92, 1, 8} /* GPE0_BLK_LEN */, {93, 1, 16} /* GPE1_BLK_LEN */);
PUTS(fadt_b_32, {40, 4, AT(DSDT_S5)} /* DSDT */, {68, 4, 0x704} /* PM1b_CNT_BLK */, {89, 1, 32} /* PM1_CNT_LEN */,
     GENERIC(172, 1, 16, 0, 0, 0x604) /* X_PM1a_CNT_BLK */);
PUTS(fadt_control_32, {40, 4, AT(DSDT_S5)} /* DSDT */, {64, 4, 0x604} /* PM1a_CNT_BLK */,
     {89, 1, 32} /* PM1_CNT_LEN */);

/* They end inside NamespaceStringLength, at 84, and inside NamespaceStringOffset, at 86. */
#define RATES \
    {58, 1, 7} /* Configured Baud Rate */, {76, 4, 48000000} /* UART Clock Frequency */, \
    {80, 4, 230400} /* Precise Baud Rate */
PUTS(spcr_85, RATES, {84, 1, 4});
PUTS(spcr_87, RATES, {84, 2, 4}, {86, 1, 88});

/* Of each Type of a processor an affinity that isn't enabled, and an x2APIC's that is. */
PUTS(srat_not_enabled,
    {48, 2, HEADER(0, 16)}, {48 + 3, 1, 9} /* APIC ID */, {64, 2, HEADER(3, 18)}, {64 + 6, 4, 9} /* Processor UID */,
    {82, 2, HEADER(2, 24)}, {82 + 8, 4, 9} /* X2APIC ID */,
    {106, 2, HEADER(2, 24)}, {106 + 4, 4, 3} /* Proximity Domain */, {106 + 8, 4, 10} /* X2APIC ID */,
    {106 + 12, 4, 1} /* Flags: Enabled */);

/* Structures that end where their scopes would begin: a DRHD, an RMRR and an ATSR; and others that have none. */
PUTS(dmar_unscoped,
    DRHD(48, 16, 0, 0, 0, 0xfed90000), RMRR(64, 0, 0x1000, 0x1fff), {64 + 2, 2, 24} /* Length */,
    STRUCTURE(88, 2, 8), STRUCTURE(96, 4, 8), STRUCTURE(104, 5, 8));
/* A byte is where a scope would begin. */
PUTS(dmar_17,
    DRHD(48, 17, 0, 0, 0, 0xfed90000), RMRR(65, 0, 0x1000, 0x1fff), {65 + 2, 2, 25} /* Length */, STRUCTURE(90, 2, 9));
/* Entries: none; 10 and 21 bytes of one with an ACPI HID, which has 22 at least; a start of a range alone; one with an
 * alias alone, and 5 bytes of another. */
#define BARE_IVHD(at, length) BLOCK(at, 0x10, 0, length, 2), {at + 8, 8, 0xfeb80000} /* IOMMU Base Address */
PUTS(ivrs_ends,
    BARE_IVHD(48, 24), BARE_IVHD(72, 34), ENTRY(96, 0xf0, 3, 4), BARE_IVHD(106, 45), ENTRY(130, 0xf0, 3, 4),
    BARE_IVHD(151, 28), ENTRY(175, 3, 3, 4), BARE_IVHD(179, 32), ENTRY(203, 0x43, 3, 4), BARE_IVHD(211, 29),
    ENTRY(235, 0x43, 3, 4));
/* Blocks of a reserved Type that end in or before each field of an IVHD and of an IVMD, and a unit for all. */
#define OTHER_BLOCK(at, length) {at, 1, 0x50} /* Type */, {at + 2, 2, length}
PUTS(ivrs_others,
    OTHER_BLOCK(48, 4), OTHER_BLOCK(52, 5), OTHER_BLOCK(57, 6), OTHER_BLOCK(63, 7), OTHER_BLOCK(70, 9),
    OTHER_BLOCK(79, 16), OTHER_BLOCK(95, 17), OTHER_BLOCK(112, 18), OTHER_BLOCK(130, 19), OTHER_BLOCK(149, 21),
    OTHER_BLOCK(170, 25), OTHER_BLOCK(195, 33), BLOCK(228, 0x10, 1, 32, 2),
    IVHD(228, 0x40, 0xfeb80000, 0, 3, 0x11223344), ENTRY(252, 5, 7, 8) /* a reserved Type */,
    ENTRY(256, 1, 0, 0xd7) /* all */);
/* A whole entry before a start of a range alone. */
PUTS(ivrs_later, BARE_IVHD(48, 32), ENTRY(72, 2, 9, 1), ENTRY(76, 3, 3, 4));
/* Scopes of 17, 18 and 5 hops; of an I/O APIC, and of no hop. */
PUTS(dmar_hops,
    DRHD(48, 56, 0, 0, 0, 0xfed90000), SCOPE(64, 1, 40, 0, 0), HOP(70, 1, 2), HOP(72, 3, 4), HOP(100, 5, 6),
    HOP(102, 7, 7), DRHD(104, 58, 0, 0, 0, 0xfed91000), SCOPE(120, 1, 42, 0, 0), HOP(126, 1, 2), HOP(128, 3, 4),
    HOP(156, 5, 6), DRHD(162, 38, 0, 0, 0, 0xfed92000), SCOPE(178, 1, 16, 0, 0), HOP(184, 1, 2), HOP(186, 3, 4),
    SCOPE(194, 4, 6, 5, 3) /* an HPET without a path */,
    RMRR(200, 0, 0x1000, 0x1fff), SCOPE(224, 3, 8, 0, 0), HOP(230, 2, 0), RMRR(232, 0, 0x2000, 0x2fff),
    {232 + 2, 2, 30} /* Length */, SCOPE(256, 1, 6, 0, 0));
PUTS(many_hops, {36, 4, AT(DMAR_HOPS)}, {40, 4, AT(IVRS_LATER)});
PUTS(sum_first, {36, 4, AT(FADT_DESKTOP)}, {40, 4, AT(MADT_SUM)}, {44, 4, AT(MADT_VALID)});
PUTS(left_45, {36, 4, AT(FADT_DESKTOP)}, {40, 4, AT(MADT_45)});
PUTS(left_47, {36, 4, AT(FADT_DESKTOP)}, {40, 4, AT(MADT_47)});
PUTS(left_53, {36, 4, AT(FADT_DESKTOP)}, {40, 4, AT(MADT_53)});
PUTS(source_16, {36, 4, AT(FADT_DESKTOP)}, {40, 4, AT(MADT_SOURCE_16)});
PUTS(sci_trigger, {36, 4, AT(FADT)}, {40, 4, AT(MADT_SCI_TRIGGER)});
PUTS(no_blocks, {36, 4, AT(FADT_NO_BLOCKS)});
PUTS(high_bus, {36, 4, AT(MCFG_HIGH)}, {40, 4, AT(SLIT_ONES)}, {44, 4, AT(FADT_B_32)});

/* Root tables, in the order of rows_tables.h, and what they lead to. */
#define ROOTS_OF_LENGTHS \
    {AT(GICC_78), "RSDT", 1, 44, gicc_78}, {AT(FLAWED_PC), "RSDT", 1, 60, flawed_pc}, \
    {AT(TEXT_IDS), "RSDT", 1, 48, text_ids}, {AT(LOST), "RSDT", 1, 48, lost}, {AT(PINS), "RSDT", 1, 44, pins}, \
    {AT(OTHER_BUS), "RSDT", 1, 44, other_bus}, {AT(LEFT_1), "RSDT", 1, 40, left_1}, \
    {AT(LEFT_2), "RSDT", 1, 40, left_2}, {AT(LEFT_2_OF_2), "RSDT", 1, 40, left_2_of_2}, \
    {AT(TIMER_OF_2), "RSDT", 1, 40, timer_of_2}, {AT(TIMER_TYPES), "RSDT", 1, 40, timer_types}, \
    {AT(NO_TIMER), "RSDT", 1, 40, no_timer}, {AT(LOW_FACS), "RSDT", 1, 40, low_facs}, \
    {AT(X_DSDT), "RSDT", 1, 40, x_dsdt}, {AT(RESET_128), "RSDT", 1, 40, reset_128}, \
    {AT(RESET_116), "RSDT", 1, 40, reset_116}, {AT(CONTROL_0), "RSDT", 1, 40, control_0}, \
    {AT(CONSOLE_85), "RSDT", 1, 40, console_85}, {AT(CONSOLE_87), "RSDT", 1, 40, console_87}, \
    {AT(NOT_ENABLED), "RSDT", 1, 40, not_enabled}, {AT(UNSCOPED_UNITS), "RSDT", 1, 44, unscoped}, \
    {AT(ONE_BYTE_MORE), "RSDT", 1, 44, one_byte_more}, {AT(WIDE_CONTROL), "RSDT", 1, 40, wide_control}, \
    {AT(HPET_ID_80), "RSDT", 1, 40, hpet_id_80}, {AT(HOPS), "RSDT", 1, 44, many_hops}, \
    {AT(SUM_FIRST), "RSDT", 1, 48, sum_first}, {AT(LEFT_45), "RSDT", 1, 44, left_45}, \
    {AT(LEFT_47), "RSDT", 1, 44, left_47}, {AT(LEFT_53), "RSDT", 1, 44, left_53}, \
    {AT(SOURCE_16), "RSDT", 1, 44, source_16}, {AT(SCI_TRIGGER), "RSDT", 1, 44, sci_trigger}, \
    {AT(HIGH_BUS), "RSDT", 1, 48, high_bus}, {AT(NO_BLOCKS), "RSDT", 1, 40, no_blocks}
#define LAID_OF_LENGTHS \
    {AT(MADT_GICC_78), "APIC", 6, 498, madt_gicc_78}, {AT(MADT_TEXT), "APIC", 5, 52, madt_text}, \
    {AT(HPET_TEXT), "HPET", 1, 56, hpet_text}, {AT(MADT_LONG), "APIC", 5, SIZE, no_fields}, \
    {AT(HPET_LONG), "HPET", 1, SIZE, no_fields}, {AT(MADT_PINS), "APIC", 5, 80, madt_pins}, \
    {AT(GTDT_LEFT_1), "GTDT", 2, 125, gtdt_left_1}, {AT(GTDT_LEFT_2), "GTDT", 2, 126, gtdt_left_2}, \
    {AT(GTDT_LEFT_2_OF_2), "GTDT", 2, 126, gtdt_left_2_of_2}, {AT(GTDT_OF_2), "GTDT", 2, 152, gtdt_of_2}, \
    {AT(GTDT_TYPES), "GTDT", 3, 170, gtdt_types}, {AT(GTDT_NONE), "GTDT", 3, 104, gtdt_none}, \
    {AT(FADT_LOW_FACS), "FACP", 6, 276, fadt_low_facs}, {AT(FADT_X_DSDT), "FACP", 6, 276, fadt_x_dsdt}, \
    {AT(FADT_128), "FACP", 2, 128, fadt_128}, {AT(FADT_RESET_116), "FACP", 2, 116, fadt_reset_116}, \
    {AT(FADT_CONTROL_0), "FACP", 5, 268, fadt_control_0}, {AT(SPCR_85), "SPCR", 4, 85, spcr_85}, \
    {AT(SPCR_87), "SPCR", 4, 87, spcr_87}, {AT(SRAT_NOT_ENABLED), "SRAT", 3, 130, srat_not_enabled}, \
    {AT(DMAR_UNSCOPED), "DMAR", 1, 112, dmar_unscoped}, {AT(DMAR_17), "DMAR", 1, 99, dmar_17}, \
    {AT(IVRS_ENDS), "IVRS", 2, 240, ivrs_ends}, {AT(IVRS_OTHERS), "IVRS", 2, 260, ivrs_others}, \
    {AT(FADT_CONTROL_32), "FACP", 1, 116, fadt_control_32}, {AT(HPET_80), "HPET", 1, 56, hpet_80}, \
    {AT(DMAR_HOPS), "DMAR", 1, 262, dmar_hops}, {AT(IVRS_LATER), "IVRS", 2, 80, ivrs_later}, \
    {AT(MADT_45), "APIC", 5, 45, no_fields}, {AT(MADT_47), "APIC", 5, 47, madt_47}, \
    {AT(MADT_53), "APIC", 5, 53, madt_53}, {AT(MADT_SOURCE_16), "APIC", 5, 54, madt_source_16}, \
    {AT(MADT_SCI_TRIGGER), "APIC", 5, 54, madt_sci_trigger}, {AT(MCFG_HIGH), "MCFG", 1, 60, mcfg_high}, \
    {AT(SLIT_ONES), "SLIT", 1, 48, slit_ones}, {AT(FADT_B_32), "FACP", 3, 244, fadt_b_32}, \
    {AT(FADT_NO_BLOCKS), "FACP", 6, 276, fadt_no_blocks}
#endif
