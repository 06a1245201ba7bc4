/* What rows.c expects, worked out by hand from rows_tables.h: which call, of which machine, with which signature and
 * arguments; then how many items, and the values of the fields of each, in the order of the struct in zacpi.h; or the
 * refusal, and the signature that it carries. */
#ifndef ROWS_EXPECTED_H
#define ROWS_EXPECTED_H

#define VALUES(...) (const uint64_t[]){__VA_ARGS__}
/* OEMID, OEM Table ID, OEM Revision, Creator ID and Creator Revision of a table: zeros, and those of the table HPET. */
#define NO_IDS 0, 0, 0, 0, 0
#define HPET_IDS 0x464544434241, 0x4e4d4c4b4a494847, 0x12345678, LETTERS('O', 'P', 'Q', 'R'), 0x9abcdef0
/* A block of timers at this address, all of whose other fields are 0. */
#define HPET_OF_ZEROS(address) address, 0, 0, 0, 0
#define ABSENT 0, 0, 0, 0, 0, 0
#define REFUSED_REGISTER 0, 0, 0, 0, 0, 2
#define GOOD(call, machine, letters, arguments, count, ...) \
    {&call_##call, machine, letters, arguments, ZACPI_OK, NULL, count, VALUES(__VA_ARGS__), \
     sizeof(VALUES(__VA_ARGS__)) / sizeof(uint64_t)}
#define NOTHING(call, machine) {&call_##call, machine, NULL, NO, ZACPI_OK, NULL, 0, NULL, 0}
#define REFUSED(call, machine, letters, arguments, status, named) \
    {&call_##call, machine, letters, arguments, status, named, 0, NULL, 0}

/* The fixed hardware of an FADT that has a FACS, a DSDT and a power profile, and else zeros: PM1a is present at port 0,
 * and RESET_REG is past the end. */
#define PROFILE(machine, facs, dsdt, profile) \
    GOOD(get_fixed_hardware, machine, NULL, NO, 1, facs, dsdt, 0, 1, 0, 0, 0, 1, ABSENT, 0, 1, 0, 0, 0, 1, ABSENT, \
         ABSENT, ABSENT, ABSENT, ABSENT, 0, 0, 0, 0, 0, 1, ABSENT, ABSENT, 0, 0, 0, 0, 0, 0, 0, 0, \
         0, 0, 0, 0, 0, 0, 0, 0, 0, profile, 0, 0, 0, 0, 0, 0, 0, 0, 0, 0, 0, 0, 1, 0, 0)
/* An ISA interrupt that is active high and by edge: at PC's first I/O APIC, whose base is 0, and at none, since the
 * base of DESKTOP's is 48. */
#define PINNED(number) number, ZACPI_POLARITY_HIGH, ZACPI_TRIGGER_EDGE, 0xfec00000, 0, 2, number, 1, 1
#define UNPINNED(number) number, ZACPI_POLARITY_HIGH, ZACPI_TRIGGER_EDGE, 0, 0, 0, 0, 1, 0
#define NO_ROUTE 0, 0, 0, 0, 0, 0, 0, 0, 0
/* Fields of an item that isn't written. */
#define PAINTED_PROCESSOR 0xa5a5a5a5, 0xa5a5a5a5, PAINT, PAINT, PAINT, PAINT
#define PAINTED_IO_APIC 0xa5a5a5a5, 0xa5a5a5a5, PAINT
#define PAINTED_OVERRIDE 0xa5a5a5a5, PAINT, PAINT, PAINT, PAINT
#define PAINTED_NMI_SOURCE 0xa5a5a5a5, PAINT, PAINT
#define PAINTED_NMI_LINE 0xa5a5a5a5, PAINT, PAINT, PAINT, PAINT
/* An NMI line of all or of one processor, whose flags conform to the bus. */
#define AS_BUS ZACPI_POLARITY_BUS, ZACPI_TRIGGER_BUS
/* The first of two tables is a byte too short. */
#define LEAST_OF(letters, short_one) \
    GOOD(list_faults, LEAST, letters, NO, 1, AT(short_one), ZACPI_SDT_INVALID_LENGTH, 0)

static const struct row rows[] = {
    GOOD(open, PC, NULL, NO, 1, AT(PC), 68, 2, 8, 0, 0),
    GOOD(open, ARM, NULL, NO, 1, AT(ARM), 56, 0, 4, 0, 0),
    REFUSED(open, START_RSDP, NULL, NO, ZACPI_MAP_FAILED, NULL),
    GOOD(open, RSDP_0, NULL, NO, 1, AT(ARM), 56, 0, 4, AT(RSDP_0), 20),
    GOOD(open, RSDP_2, NULL, NO, 1, AT(PC), 68, 2, 8, AT(RSDP_2), 36),
    GOOD(open, RSDP_40, NULL, NO, 1, AT(PC), 68, 2, 8, AT(RSDP_40), 40),
    GOOD(open, RSDP_MIXED, NULL, NO, 1, AT(ARM), 56, 2, 4, AT(RSDP_MIXED), 36), /* XsdtAddress is 0 */
    REFUSED(open, RSDP_LONG, NULL, NO, ZACPI_MAP_FAILED, NULL),
    REFUSED(open, RSDP_LOST, NULL, NO, ZACPI_MAP_FAILED, NULL),
    REFUSED(open, RSDP_CUT, NULL, NO, ZACPI_MAP_FAILED, NULL),
    REFUSED(open, RSDP_SHORT, NULL, NO, ZACPI_RSDP_INVALID_CHECKSUM, NULL),
    REFUSED(open, RSDP_NONE, NULL, NO, ZACPI_RSDP_INCORRECT_SIGNATURE, NULL),
    GOOD(open, FOUND, NULL, NO, 1, BIOS + 0x10000, 36, 0, 4, BIOS + 0x1ffe0, 20),
    REFUSED(open, NO_BIOS, NULL, NO, ZACPI_MAP_FAILED, NULL),
    REFUSED(open, NO_EBDA, NULL, NO, ZACPI_MAP_FAILED, NULL),
    REFUSED(open, NO_RSDP, NULL, NO, ZACPI_NO_VALID_RSDP, NULL),
    REFUSED(open, NO_ROOT, NULL, NO, ZACPI_MAP_FAILED, NULL),
    REFUSED(open, EMPTY_INSIDE, NULL, NO, ZACPI_REGIONS_NOT_ASCENDING, NULL),
    GOOD(open, EMPTY_AFTER, NULL, NO, 1, AT(EMPTY), 36, 0, 4, 0, 0),
    REFUSED(open, LENT_NONE, NULL, NO, ZACPI_NO_VALID_RSDP, NULL),
    REFUSED(open, LENT_NO_ROOT, NULL, NO, ZACPI_MAP_FAILED, NULL), /* the RSDP of the EBDA comes first */
    GOOD(open, LENT_BIOS, NULL, NO, 1, BIOS + 0x10000, 36, 0, 4, BIOS + 0x1ffe0, 20),
    REFUSED(open, LENT_20_BYTES, NULL, NO, ZACPI_NO_VALID_RSDP, NULL), /* an RSDP is asked for with 36 bytes */
    GOOD(open, LENT_36_BYTES, NULL, NO, 1, BIOS + 0x10000, 36, 0, 4, BIOS + 0x1ffe0, 20),
    REFUSED(open, LENT_LONG, NULL, NO, ZACPI_NO_VALID_RSDP, NULL),
    GOOD(open, LENT_LONG_EBDA, NULL, NO, 1, BIOS + 0x10000, 36, 0, 4, BIOS + 0x1ffe0, 20),
    GOOD(open, LENT_TABLES, NULL, NO, 1, 0x200000, 36, 0, 4, EBDA + 0x40, 20),
    REFUSED(open, LONG_ALONE, NULL, NO, ZACPI_MAP_FAILED, NULL),
    REFUSED(open, LONG_BEFORE_ROOT, NULL, NO, ZACPI_MAP_FAILED, NULL),
    GOOD(open, LONG_AND_TABLES, NULL, NO, 1, 0x200000, 36, 0, 4, EBDA + 0x40, 20),

    /* An RSDP is returned wherever it leads. Its fields from Length on don't count at revision 0. */
    GOOD(get_rsdp, RSDP_0, NULL, NO, 1, AT(RSDP_0), 0, AT(ARM), 20, 0, 0),
    GOOD(get_rsdp, RSDP_2, NULL, NO, 1, AT(RSDP_2), AT(PC), AT(EMPTY), 36, 2, 0),
    GOOD(get_rsdp, RSDP_40, NULL, NO, 1, AT(RSDP_40), AT(PC), 0, 40, 2, 0x464544434241),
    GOOD(get_rsdp, RSDP_MIXED, NULL, NO, 1, AT(RSDP_MIXED), 0, AT(ARM), 36, 2, 0),
    GOOD(get_rsdp, RSDP_LOST, NULL, NO, 1, AT(RSDP_LOST), 0x300000000, 0, 36, 2, 0),
    GOOD(get_rsdp, RSDP_TO_SUM, NULL, NO, 1, AT(RSDP_TO_SUM), 0, AT(SUM), 20, 0, 0),
    GOOD(get_rsdp, FOUND, NULL, NO, 1, BIOS + 0x1ffe0, 0, BIOS + 0x10000, 20, 0, 0),
    GOOD(get_rsdp, NO_ROOT, NULL, NO, 1, EBDA + 0x40, 0, 0x200000, 20, 0, 0),
    GOOD(get_rsdp, LENT_NO_ROOT, NULL, NO, 1, EBDA + 0x40, 0, 0x200000, 20, 0, 0),
    GOOD(get_rsdp, LENT_BIOS, NULL, NO, 1, BIOS + 0x1ffe0, 0, BIOS + 0x10000, 20, 0, 0),
    REFUSED(get_rsdp, START_RSDP, NULL, NO, ZACPI_MAP_FAILED, NULL),
    REFUSED(get_rsdp, RSDP_LONG, NULL, NO, ZACPI_MAP_FAILED, NULL),
    REFUSED(get_rsdp, RSDP_SHORT, NULL, NO, ZACPI_RSDP_INVALID_CHECKSUM, NULL),
    REFUSED(get_rsdp, RSDP_NONE, NULL, NO, ZACPI_RSDP_INCORRECT_SIGNATURE, NULL),
    REFUSED(get_rsdp, NO_BIOS, NULL, NO, ZACPI_MAP_FAILED, NULL),
    REFUSED(get_rsdp, NO_RSDP, NULL, NO, ZACPI_NO_VALID_RSDP, NULL),
    REFUSED(get_rsdp, LENT_NONE, NULL, NO, ZACPI_NO_VALID_RSDP, NULL),
    REFUSED(get_rsdp, ARM, NULL, NO, ZACPI_UNKNOWN_START, NULL), /* at an RSDT */
    REFUSED(get_rsdp, PC, NULL, NO, ZACPI_UNKNOWN_START, NULL), /* at an XSDT */

    /* The header of a member, a table whose header is lent, and the DSDT and the FACS of the FADT. */
    GOOD(list_missing_ranges, HOLES, NULL, NO, 4, 0x200000, 36, TAIL, 80, 0x300000, 36, 0x400000, 36),
    GOOD(list_missing_ranges, START_RSDP, NULL, NO, 1, 0x200000, 36),
    GOOD(list_missing_ranges, START_SEARCH, NULL, NO, 1, 0x40e, 2),
    GOOD(list_missing_ranges, NO_BIOS, NULL, NO, 1, BIOS, 0x20010),
    GOOD(list_missing_ranges, NO_EBDA, NULL, NO, 1, 0x90000, 0x410), /* 1 KiB, by the word at 0x40e */
    GOOD(list_missing_ranges, NO_LOW, NULL, NO, 1, 0x80000, 0x20010), /* the word at 0x40e is 0 */
    NOTHING(list_missing_ranges, NO_RSDP),
    NOTHING(list_missing_ranges, FOUND), /* the second area isn't asked for */
    GOOD(list_missing_ranges, NO_ROOT, NULL, NO, 1, 0x200000, 36),
    /* Of two RSDPs the Length reaches past what is lent; then the second area, or the root table, isn't lent. */
    GOOD(list_missing_ranges, LONG_ALONE, NULL, NO, 3, BIOS, BIOS_SIZE + 1, 0xfffe0, 64, 0x90000, 0x410),
    GOOD(list_missing_ranges, LONG_BEFORE_ROOT, NULL, NO, 3, BIOS, BIOS_SIZE + 1, 0xfffe0, 64, 0x200000, 36),
    GOOD(list_missing_ranges, LONG_AND_TABLES, NULL, NO, 2, BIOS, BIOS_SIZE + 1, 0xfffe0, 64),
    /* What isn't lent of the areas isn't asked for. */
    NOTHING(list_missing_ranges, LENT_NONE),
    GOOD(list_missing_ranges, LENT_NO_ROOT, NULL, NO, 1, 0x200000, 36),
    NOTHING(list_missing_ranges, LENT_BIOS),
    NOTHING(list_missing_ranges, LENT_20_BYTES),
    GOOD(list_missing_ranges, LENT_LONG, NULL, NO, 1, 0xfffe0, 64), /* of the other one 32 bytes are lent */
    GOOD(list_missing_ranges, LENT_LONG_EBDA, NULL, NO, 1, 0x903e0, 49),
    NOTHING(list_missing_ranges, LENT_TABLES), /* they come after the RSDP that is taken */
    GOOD(list_missing_ranges, RSDP_LONG, NULL, NO, 1, AT(RSDP_LONG), SIZE),
    GOOD(list_missing_ranges, RSDP_LOST, NULL, NO, 1, 0x300000000, 36),
    GOOD(list_missing_ranges, NO_REGIONS, NULL, NO, 1, AT(EMPTY), 36),
    GOOD(list_missing_ranges, RSDP_CUT, NULL, NO, 1, CUT(2), 52),
    NOTHING(list_missing_ranges, RSDP_SHORT),
    /* Of the DSDT and the FACS the headers are lent. */
    GOOD(list_missing_ranges, SOHO, NULL, NO, 2, CUT(1), 60, CUT(0), 64),
    GOOD(list_missing_ranges, WIDE, NULL, NO, 2, 0x500002000, 36, 0x500001000, 36),
    NOTHING(list_missing_ranges, APPLIANCE),
    NOTHING(list_missing_ranges, PERFORMANCE), /* neither is one, but nothing is missing */
    /* The last pointer has two bytes, and zeros after them. */
    GOOD(list_missing_ranges, OLD, NULL, NO, 1, 0x1234, 36),
    NOTHING(list_missing_ranges, ARM),
    NOTHING(list_missing_ranges, SUM), /* it is refused, but nothing is missing */

    /* A table too short for zacpi_get_hpet is one for zacpi_find_table. */
    GOOD(find_table, PC, "HPET", NO, 1, AT(HPET_SHORT), 48, LETTERS('H', 'P', 'E', 'T'), 3, NO_IDS),
    GOOD(find_nth_table, PC, "HPET", A(0), 1, AT(HPET_SHORT), 48, LETTERS('H', 'P', 'E', 'T'), 3, NO_IDS),
    GOOD(find_nth_table, PC, "HPET", A(1), 1, AT(HPET), 56, LETTERS('H', 'P', 'E', 'T'), 1, HPET_IDS),
    GOOD(list_faults, PC, "HPET", NO, 1, AT(HPET_SHORT), ZACPI_SDT_INVALID_LENGTH, 0),
    GOOD(list_faults, HOLES, "OEM1", NO, 2, 0x200000, ZACPI_MAP_FAILED, 0, TAIL, ZACPI_MAP_FAILED, 0),
    LEAST_OF("FACP", FADT_115), LEAST_OF("APIC", MADT_43), LEAST_OF("MCFG", MCFG_43), LEAST_OF("HPET", HPET_55),
    LEAST_OF("BGRT", BGRT_55), LEAST_OF("SPCR", SPCR_79), LEAST_OF("GTDT", GTDT_95), LEAST_OF("SRAT", SRAT_47),
    LEAST_OF("SLIT", SLIT_43), LEAST_OF("OEM2", OEM2_35), LEAST_OF("DMAR", DMAR_47), LEAST_OF("IVRS", IVRS_47),
    GOOD(find_table, LEAST, "OEM2", NO, 1, AT(OEM2_36), 36, LETTERS('O', 'E', 'M', '2'), 1, NO_IDS),
    GOOD(list_tables, PC, NULL, NO, 4, AT(FADT), 276, LETTERS('F', 'A', 'C', 'P'), 6, NO_IDS,
         AT(MADT_PC), 96, LETTERS('A', 'P', 'I', 'C'), 4, NO_IDS,
         AT(HPET_SHORT), 48, LETTERS('H', 'P', 'E', 'T'), 3, NO_IDS,
         AT(HPET), 56, LETTERS('H', 'P', 'E', 'T'), 1, HPET_IDS),
    NOTHING(list_tables, EMPTY),
    GOOD(list_members, MEMBERS, NULL, NO, 4, AT(HPET), 56, LETTERS('H', 'P', 'E', 'T'), 1, HPET_IDS, 0, 1,
         AT(OEM2_35), 35, LETTERS('O', 'E', 'M', '2'), 1, NO_IDS, ZACPI_SDT_INVALID_LENGTH, 1,
         0, 0, 0, 0, NO_IDS, ZACPI_MAP_FAILED, 0, AT(HPET), 56, LETTERS('H', 'P', 'E', 'T'), 1, HPET_IDS, 0, 1),
    /* Of the first nothing is mapped, and of the second the header alone. */
    GOOD(list_members, HOLES, NULL, NO, 4, 0x200000, 0, 0, 0, NO_IDS, ZACPI_MAP_FAILED, 0,
         TAIL, 80, LETTERS('O', 'E', 'M', '1'), 1, NO_IDS, ZACPI_MAP_FAILED, 1,
         AT(FADT_1), 116, LETTERS('F', 'A', 'C', 'P'), 1, NO_IDS, 0, 1,
         AT(SRAT_HIGH), 88, LETTERS('S', 'R', 'A', 'T'), 3, NO_IDS, 0, 1),
    NOTHING(list_members, EMPTY),
    REFUSED(list_members, RSDP_LOST, NULL, NO, ZACPI_MAP_FAILED, NULL),
    /* A Signature that isn't UTF-8 is no table's, and no fault, whichever is looked for. */
    GOOD(list_tables, OLD, NULL, NO, 4, AT(FADT_OLD), 276, LETTERS('F', 'A', 'C', 'P'), 1, NO_IDS,
         AT(MADT_OLD), 150, LETTERS('A', 'P', 'I', 'C'), 5, NO_IDS,
         AT(GTDT_OLD), 192, LETTERS('G', 'T', 'D', 'T'), 1, NO_IDS,
         AT(SRAT_OLD), 146, LETTERS('S', 'R', 'A', 'T'), 1, NO_IDS),
    GOOD(list_members, OLD, NULL, NO, 6, AT(FADT_OLD), 276, LETTERS('F', 'A', 'C', 'P'), 1, NO_IDS, 0, 1,
         AT(MADT_OLD), 150, LETTERS('A', 'P', 'I', 'C'), 5, NO_IDS, 0, 1,
         AT(GTDT_OLD), 192, LETTERS('G', 'T', 'D', 'T'), 1, NO_IDS, 0, 1,
         AT(SRAT_OLD), 146, LETTERS('S', 'R', 'A', 'T'), 1, NO_IDS, 0, 1,
         AT(OEM_BYTE), 36, LETTERS(0xff, 'O', 'E', 'M'), 1, NO_IDS, ZACPI_SDT_INVALID_SIGNATURE, 1,
         0x1234, 0, 0, 0, NO_IDS, ZACPI_MAP_FAILED, 0),
    GOOD(list_faults, OLD, "OEM1", NO, 1, 0x1234, ZACPI_MAP_FAILED, 0),
    GOOD(list_faults, OLD, "\377OEM", NO, 1, 0x1234, ZACPI_MAP_FAILED, 0),
    REFUSED(find_table, OLD, "\377OEM", NO, ZACPI_TABLE_MISSING, "\377OEM"),
    GOOD(get_hpet, PC, NULL, NO, 1, 0x1fed00000, 0x8086a201, 0x80, 1, 2),
    GOOD(get_hpet, DESKTOP, NULL, NO, 1, 0xfed00000, 0x10de8201, 0x90f3, 2, 0),
    GOOD(get_hpet, MOBILE, NULL, NO, 1, 0xfed10000, 0x10de8202, 0x1234, 3, 1),
    GOOD(get_hpet, WORKSTATION, NULL, NO, 1, 0xfed20000, 0x10de8203, 0x5678, 4, 3),
    GOOD(get_hpet, SERVER, NULL, NO, 1, 0xfed30000, 0x10de8204, 0x9abc, 5, 3), /* 11 is reserved too */
    GOOD(get_hpet, LEAST, NULL, NO, 1, HPET_OF_ZEROS(0)),
    GOOD(list_hpets, PC, NULL, NO, 1, 0x1fed00000, 0x8086a201, 0x80, 1, 2),
    GOOD(list_hpets, HPETS, NULL, NO, 3, 0xfed00000, 0x10de8201, 0x90f3, 2, 0, 0xfed20000, 0x10de8203, 0x5678, 4, 3,
         0xfed00000, 0x10de8201, 0x90f3, 2, 0),
    NOTHING(list_hpets, SOHO), /* in ports */
    NOTHING(list_hpets, EMPTY),
    REFUSED(get_hpet, SOHO, NULL, NO, ZACPI_INVALID_GENERIC_ADDRESS, NULL),
    GOOD(get_boot_graphic, DESKTOP, NULL, NO, 1, 0x2abcdef00, 800, 600, 90, 1, 0),
    GOOD(get_boot_graphic, MOBILE, NULL, NO, 1, 0x7f000000, 1, 70000, 270, 0, 1),
    GOOD(get_boot_graphic, WORKSTATION, NULL, NO, 1, ONES, 0xffffffff, 0, 180, 1, 1),
    GOOD(get_boot_graphic, LEAST, NULL, NO, 1, 0, 0, 0, 0, 0, 0),
    REFUSED(get_boot_graphic, EMPTY, NULL, NO, ZACPI_TABLE_MISSING, "BGRT"),
    GOOD(get_console, DESKTOP, NULL, NO, 1, 0x3fe002000, 0, 32, 4, 3, 1, 230400, 0x12345, 48000000, 0x0a0b0c0d,
         0x1a2b, 0x3c4d, 0x12, 11, 1, 1, 1, 5, 6, 0x31, 0x21, 0x1e, 4),
    /* In revision 2 no clock; an interrupt of a GIC or the like, and no IRQ. */
    GOOD(get_console, MOBILE, NULL, NO, 1, REFUSED_REGISTER, 9600, 0x21, 0, 1, 0xffff, 0xffff, 1, 0, 0, 1, 1, 0, 1,
         0, 0, 0, 0),
    /* No base; an IRQ, and no global system interrupt; no baud rate. */
    GOOD(get_console, WORKSTATION, NULL, NO, 1, ABSENT, 0, 0, 0, 0, 0, 0xffff, 0x15, 5, 1, 0, 0, 0, 0, 0, 0, 0, 0),
    GOOD(get_console, HALF, NULL, NO, 1, ABSENT, 0x8400, 0, 48000000, 0, 0, 0, 0, 0, 0, 0, 1, 0, 0, 0, 0, 0, 0),
    GOOD(get_console, LEAST, NULL, NO, 1, ABSENT, 0, 0, 0, 0, 0, 0, 0, 0, 0, 0, 0, 0, 0, 0, 0, 0, 0),
    REFUSED(get_console, EMPTY, NULL, NO, ZACPI_TABLE_MISSING, "SPCR"),
    REFUSED(find_table, ARM, "HPET", NO, ZACPI_TABLE_MISSING, "HPET"),
    REFUSED(find_table, HOLES, "OEM1", NO, ZACPI_TABLE_MISSING, "OEM1"),
    REFUSED(find_nth_table, PC, "HPET", A(2), ZACPI_TABLE_MISSING, "HPET"),
    REFUSED(get_hpet, EMPTY, NULL, NO, ZACPI_TABLE_MISSING, "HPET"),
    REFUSED(get_dsdt, PC, NULL, NO, ZACPI_MAP_FAILED, NULL), /* X_DSDT is 0, and at DSDT nothing is lent */
    GOOD(get_dsdt, APPLIANCE, NULL, NO, 1, AT(DSDT) + 36, 24, 2, AT(DSDT)),
    REFUSED(get_dsdt, SOHO, NULL, NO, ZACPI_MAP_FAILED, NULL), /* its header is lent */
    REFUSED(get_dsdt, PERFORMANCE, NULL, NO, ZACPI_SDT_INVALID_SIGNATURE, "DSDT"),
    REFUSED(get_dsdt, TABLET, NULL, NO, ZACPI_INVALID_DSDT_ADDRESS, NULL),
    REFUSED(get_dsdt, OLD, NULL, NO, ZACPI_INVALID_DSDT_ADDRESS, NULL), /* X_DSDT doesn't count */
    REFUSED(get_dsdt, EMPTY, NULL, NO, ZACPI_TABLE_MISSING, "FACP"),
    /* The second has no AML, and the first is listed twice. */
    GOOD(list_ssdts, APPLIANCE, NULL, NO, 3, AT(SSDT_12) + 36, 12, 2, AT(SSDT_12), AT(SSDT_0) + 36, 0, 1, AT(SSDT_0),
         AT(SSDT_12) + 36, 12, 2, AT(SSDT_12)),
    NOTHING(list_ssdts, PC),

    GOOD(get_facs, APPLIANCE, NULL, NO, 1, AT(FACS), 0x123456789abcdef, 64, 0x11223344, 0x55667788, 0x8d7c6b03, 2),
    /* X_FIRMWARE_CTRL counts, and not FIRMWARE_CTRL, where one of 63 bytes is. */
    GOOD(get_facs, HALF_X, NULL, NO, 1, AT(FACS), 0x123456789abcdef, 64, 0x11223344, 0x55667788, 0x8d7c6b03, 2),
    REFUSED(get_facs, PERFORMANCE, NULL, NO, ZACPI_SDT_INVALID_LENGTH, "FACS"),
    REFUSED(get_facs, RESERVED, NULL, NO, ZACPI_SDT_INVALID_SIGNATURE, "FACS"), /* a DSDT */
    REFUSED(get_facs, SOHO, NULL, NO, ZACPI_MAP_FAILED, NULL), /* 40 of its 64 bytes are lent */
    REFUSED(get_facs, WIDE, NULL, NO, ZACPI_MAP_FAILED, NULL), /* nothing is lent there */
    REFUSED(get_facs, OLD, NULL, NO, ZACPI_TABLE_MISSING, "FACS"), /* X_FIRMWARE_CTRL doesn't count in revision 1 */
    REFUSED(get_facs, TABLET, NULL, NO, ZACPI_TABLE_MISSING, "FACS"),
    REFUSED(get_facs, EMPTY, NULL, NO, ZACPI_TABLE_MISSING, "FACP"),

    /* The RSDP first, unless the start is at a root table. */
    GOOD(list_ranges, RSDP_40, NULL, NO, 6, AT(RSDP_40), 40, AT(PC), 68, AT(FADT), 276, AT(MADT_PC), 96,
         AT(HPET_SHORT), 48, AT(HPET), 56),
    GOOD(list_ranges, FOUND, NULL, NO, 2, BIOS + 0x1ffe0, 20, BIOS + 0x10000, 36),
    GOOD(list_ranges, LENT_TABLES, NULL, NO, 2, EBDA + 0x40, 20, 0x200000, 36),
    /* The root table and its members: neither the DSDT nor the FACS is lent. */
    GOOD(list_ranges, PC, NULL, NO, 5, AT(PC), 68, AT(FADT), 276, AT(MADT_PC), 96, AT(HPET_SHORT), 48, AT(HPET), 56),
    /* All of them, repeats kept, and then the DSDT and the FACS. */
    GOOD(list_ranges, APPLIANCE, NULL, NO, 7, AT(APPLIANCE), 52, AT(FADT_APPLIANCE), 116, AT(SSDT_12), 48,
         AT(SSDT_0), 36, AT(SSDT_12), 48, AT(DSDT), 60, AT(FACS), 64),
    GOOD(list_ranges, PERFORMANCE, NULL, NO, 2, AT(PERFORMANCE), 40, AT(FADT_PERFORMANCE), 116), /* FACS: 63 bytes */
    GOOD(list_ranges, SOHO, NULL, NO, 3, AT(SOHO), 44, AT(FADT_SOHO), 116, AT(HPET_PORT), 56), /* they are cut off */

    GOOD(get_fixed_hardware, PC, NULL, NO, 1, 0x123456000, 0x8000,
         0x200000600, 0, 32, 0, 3, 1, 0x680, 1, 32, 0, 0, 1, REFUSED_REGISTER, ABSENT, /* PM1 */
         0x650, 1, 8, 0, 0, 1, 0x608, 1, 32, 0, 0, 1,                  /* PM2_CNT_BLK, PM_TMR_BLK */
         0x620, 1, 128, 0, 0, 1, REFUSED_REGISTER,                     /* GPE1_BLK: 32 bytes are too many bits */
         0xcf9, 1, 8, 0, 1, 1, 0x405, 1, 8, 2, 1, 1, 0, 0, 0, 0, 0, 1, /* SLEEP_STATUS_REG: there, and zeros */
         0x620, 1, 16, 1, 0x640, 1, 32, 1, 0xb2, 0x4a5, 9, 0x13, 3, 101, 1001, 1024, 16, 4, 0xa1, 0xa0, 0xf2, 0x80,
         0xe3, 0x40, 1, 3, 13, 14, 50, 6, 6, 0x14, 0x564b4d564b4d564b),
    GOOD(get_fixed_hardware, HOLES, NULL, NO, 1, 0x400000, 0x300000,
         0, 1, 0, 0, 0, 1, ABSENT, 0, 1, 0, 0, 0, 1, ABSENT, /* PM1a: present at port 0 */
         ABSENT, ABSENT, ABSENT, ABSENT, 0, 0, 0, 0, 0, 1,   /* RESET_REG is past the end */
         ABSENT, ABSENT, 0, 0, 0, 0, 0, 0, 0, 0, ABSENT, ABSENT, ABSENT, 0, 0, 0, 0, 1, 0, 0),
    PROFILE(DESKTOP, 0, 0, 1), PROFILE(MOBILE, 0, 0, 2), PROFILE(WORKSTATION, 0, 0, 3), PROFILE(SERVER, 0, 0, 4),
    PROFILE(SOHO, CUT(0), CUT(1), 5), PROFILE(APPLIANCE, AT(FACS), AT(DSDT), 6),
    PROFILE(PERFORMANCE, AT(FACS_SHORT), AT(DSDT_OTHER), 7), PROFILE(TABLET, 0, 0, 8),
    PROFILE(RESERVED, AT(DSDT), 0, 9),
    PROFILE(LEAST, 0, 0, 0),
    GOOD(get_fixed_hardware, WIDE, NULL, NO, 1, 0x500001000, 0x500002000,
         0x500003000, 0, 32, 0, 3, 1, 0x500004000, 0, 31, 1, 2, 1, /* PM1a_EVT, PM1b_EVT */
         0x500005000, 0, 30, 2, 1, 1, 0x500006000, 0, 29, 3, 4, 1, /* PM1a_CNT, PM1b_CNT */
         0x500007000, 0, 28, 4, 3, 1, 0x500008000, 0, 27, 5, 3, 1, /* PM2_CNT, PM_TMR */
         0x500000000, 0, 26, 6, 1, 1, 0x50000a000, 0, 25, 7, 2, 1, /* GPE0, GPE1 */
         0x50000d000, 2, 22, 10, 1, 1, 0x50000b000, 0, 24, 8, 3, 1, 0x50000c000, 0, 23, 9, 4, 1, /* RESET, SLEEP */
         0x500000000, 0, 8, 1, 0x50000a000, 0, 16, 1, 0, 0x100, 0, 0, 0, 0, 0, 0, 0, 0, 0, 0, 0, 0, 0, 0, 0, 0, 0, 0,
         0, 0, 6, 0, 0),
    GOOD(get_fixed_hardware, OLD, NULL, NO, 1, 0, 0, REFUSED_REGISTER, REFUSED_REGISTER, /* PM1_EVT: 32 bytes */
         0x620, 1, 248, 0, 0, 1, ABSENT, REFUSED_REGISTER, ABSENT,                   /* PM1_CNT, PM2_CNT, PM_TMR */
         0x660, 1, 0, 0, 0, 1, REFUSED_REGISTER, 0xcf9, 1, 8, 0, 1, 1, ABSENT, ABSENT, /* GPE0 has no bytes */
         0, 0, 0, 0, 0x670, 1, 33, 1, 0, 0x100, 0, 0, 0x203, 0, 0, 0, 0, 0, 0, 0, 0, 0, 0, 0, 0, 0, 0, 0, 0, 6,
         1, 0x21, 0), /* the other is of revision 6 on */
    /* Of ARM_BOOT_ARCH there is one byte, and no X_ field. */
    GOOD(get_fixed_hardware, HALF, NULL, NO, 1, 0, 0, 0, 1, 0, 0, 0, 1, ABSENT, 0, 1, 0, 0, 0, 1, ABSENT,
         ABSENT, ABSENT, ABSENT, ABSENT, 0, 0, 0, 0, 0, 1, ABSENT, ABSENT, 0, 0, 0, 0, 0, 0, 0, 0,
         0, 0, 0, 0, 3, 0, 0, 0, 0, 0, 0, 0, 0, 0, 0, 0, 0, 0, 0, 0, 0, 0, 6, 0, 0),
    /* X_GPE1_BLK isn't there as a whole, so that GPE1_BLK counts. */
    GOOD(get_fixed_hardware, HALF_X, NULL, NO, 1, AT(FACS), 0, 0, 1, 0, 0, 0, 1, ABSENT, 0, 1, 0, 0, 0, 1, ABSENT,
         ABSENT, ABSENT, 0x500000000, 0, 26, 6, 1, 1, 0x670, 1, 128, 0, 0, 1, 0, 0, 0, 0, 0, 1, ABSENT, ABSENT,
         0x500000000, 0, 8, 1, 0x670, 1, 16, 1,
         0, 0, 0, 0, 0, 0, 0, 0, 0, 0, 0, 0, 0, 0, 0, 0, 0, 0, 0, 0, 0, 0, 6, 0, 0),
    /* In revision 5 all is zeros but the timer's reserved Access Size and the version. */
    GOOD(get_fixed_hardware, TIMER_5, NULL, NO, 1, 0, 0, 0, 1, 0, 0, 0, 1, ABSENT, 0, 1, 0, 0, 0, 1, ABSENT,
         ABSENT, REFUSED_REGISTER, ABSENT, ABSENT, 0, 0, 0, 0, 0, 1, 0, 0, 0, 0, 0, 1, 0, 0, 0, 0, 0, 1,
         0, 0, 0, 0, 0, 0, 0, 0, 0, 0, 0, 0, 0, 0, 0, 0, 0, 0, 0, 0, 0, 0, 0, 0, 0, 0, 0, 0, 0, 0, 5, 1, 0),
    REFUSED(get_fixed_hardware, EMPTY, NULL, NO, ZACPI_TABLE_MISSING, "FACP"),
    GOOD(get_pm_timer, PC, NULL, NO, 1, 0x608, 1, 32, 0, 0, 1, 0),
    GOOD(get_pm_timer, WIDE, NULL, NO, 1, 0x500008000, 0, 27, 5, 3, 1, 1),
    GOOD(get_pm_timer, HOLES, NULL, NO, 1, ABSENT, 0),
    GOOD(get_pm_timer, OLD, NULL, NO, 1, ABSENT, 0), /* TMR_VAL_EXT is set */
    REFUSED(get_pm_timer, TIMER_5, NULL, NO, ZACPI_INVALID_GENERIC_ADDRESS, NULL),
    REFUSED(get_pm_timer, EMPTY, NULL, NO, ZACPI_TABLE_MISSING, "FACP"),

    GOOD(list_pci_regions, ARM, NULL, NO, 4, 0x140000000, 1, 0x10, 0x1f, 0x50000000, 2, 5, 4,
         0xfffffffffff00000, 3, 0, 1, 0xffffffffffe00000, 4, 0, 0),
    GOOD(list_pci_regions, HALF, NULL, NO, 1, 0x60000000, 7, 0, 3),
    NOTHING(list_pci_regions, LEAST),
    REFUSED(list_pci_regions, EMPTY, NULL, NO, ZACPI_TABLE_MISSING, "MCFG"),

    /* From bus 0x10 on, 16 buses of 1 MiB; no bus; two up to 2^64 and above; one that ends 1 MiB below. */
    GOOD(list_ecam_ranges, ARM, NULL, NO, 4, 0x141000000, 0x1000000, 1, 1, 0, 0, 2, 0, 0, 0, 3, 0,
         0xffffffffffe00000, 0x100000, 4, 1),
    REFUSED(list_ecam_ranges, EMPTY, NULL, NO, ZACPI_TABLE_MISSING, "MCFG"),
    /* Bus 0x12 lies 0x12 times 1 MiB after the base, though it is the third of the region. */
    GOOD(pci_ecam_address, ARM, NULL, A(1, 0x12, 3, 2), 1, 0x14121a000),
    GOOD(pci_ecam_address, ARM, NULL, A(3, 0, 31, 7), 1, 0xfffffffffffff000),
    REFUSED(pci_ecam_address, ARM, NULL, A(3, 1, 0, 0), ZACPI_NO_SUCH_FUNCTION, NULL), /* at 2^64 */
    REFUSED(pci_ecam_address, ARM, NULL, A(1, 0x20, 0, 0), ZACPI_NO_SUCH_FUNCTION, NULL),
    REFUSED(pci_ecam_address, ARM, NULL, A(1, 0x12, 32, 0), ZACPI_NO_SUCH_FUNCTION, NULL),
    REFUSED(pci_ecam_address, ARM, NULL, A(1, 0x12, 0, 8), ZACPI_NO_SUCH_FUNCTION, NULL),
    REFUSED(pci_ecam_address, EMPTY, NULL, A(1, 0x12, 3, 2), ZACPI_TABLE_MISSING, "MCFG"),
};
#endif
