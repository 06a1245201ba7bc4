/* RSDPs that firmware left with errors, by the bits of `accept`, at each start: for rows.c. By its RSDT such a machine
 * has 16 processors, and by its XSDT none, so that it shows which of these is taken. */
#ifndef ROWS_RSDPS_H
#define ROWS_RSDPS_H

#define OLD_RSDP 0xf0000u /* in the BIOS area */
#define OLD_RSDT 0x200000u
#define OLD_XSDT 0x200100u
#define OLD_MADT 0x200200u
#define OLD_SIZE 0x300u

/* Checksum, the first letter of OEMID, Revision, two bytes of Length, Extended Checksum (section 5.2.5.3). Signature,
 * six blanks and RsdtAddress sum to 0xff, and XsdtAddress to 0x21; the first 20 bytes to 0, except where named. */
#define OLD(sum, letter, revision, low, high, whole) \
    {RSD_PTR, sum, letter, ' ', ' ', ' ', ' ', ' ', revision, 0, 0, 0x20, 0, low, 0, high, 0, \
     0, 1, 0x20, 0, 0, 0, 0, 0, whole}
#define COPYRIGHT 0xa9 /* by ISO 8859-1: 0x89 more than a blank */
enum { WHOLE, ID, ID_0, ONE, ONE_WHOLE, ONE_ID, SECOND_SUM, SECOND_SUM_ID, LENGTH_35, LENGTH_LONG, FIRST_SUM, UNSIGNED,
       OLD_RSDPS };
static const uint8_t old_rsdps[OLD_RSDPS][36] = {
    [WHOLE] = OLD(0xff, ' ', 2, 36, 0, 0xbb),
    [ID] = OLD(0x76, COPYRIGHT, 2, 36, 0, 0xbb),
    [ID_0] = OLD(0x78, COPYRIGHT, 0, 36, 0, 0),
    [ONE] = OLD(0, ' ', 1, 0, 0, 0),
    [ONE_WHOLE] = OLD(0, ' ', 1, 36, 0, 0xbb),
    [ONE_ID] = OLD(0x77, COPYRIGHT, 1, 0, 0, 0),
    [SECOND_SUM] = OLD(0xff, ' ', 2, 36, 0, 0xbc),
    [SECOND_SUM_ID] = OLD(0x76, COPYRIGHT, 2, 36, 0, 0xbc),
    [LENGTH_35] = OLD(0xff, ' ', 2, 35, 0, 0xbc),
    [LENGTH_LONG] = OLD(0xff, ' ', 2, 36, 0x10, 0xab), /* 0x100024 bytes, which aren't mapped */
    [FIRST_SUM] = OLD(0xfe, ' ', 2, 36, 0, 0xbc),
    [UNSIGNED] = {'R', 'S', 'D', '_', 'P', 'T', 'R', ' ', 1}};

static const struct old_row {
    int rsdp;
    uint32_t accept;
    zacpi_status status; /* by the RSDP's address */
    unsigned revision;   /* as it is read: 0 leads to the RSDT */
} old_rows[] = {
#define RSDP_IDS ZACPI_ACCEPT_RSDP_IDS
#define REVISION ZACPI_ACCEPT_RSDP_REVISION
#define FIRST ZACPI_ACCEPT_RSDP_FIRST
#define ALL_BUT(bits) (31 & ~(bits))
    {WHOLE, 0, ZACPI_OK, 2}, {WHOLE, 31, ZACPI_OK, 2},
    /* An OEMID that isn't UTF-8. */
    {ID, 0, ZACPI_RSDP_INVALID_OEM_ID, 0}, {ID, ALL_BUT(RSDP_IDS), ZACPI_RSDP_INVALID_OEM_ID, 0},
    {ID, RSDP_IDS, ZACPI_OK, 2}, {ID, 31, ZACPI_OK, 2},
    {ID_0, 0, ZACPI_RSDP_INVALID_OEM_ID, 0}, {ID_0, ALL_BUT(RSDP_IDS), ZACPI_RSDP_INVALID_OEM_ID, 0},
    {ID_0, RSDP_IDS, ZACPI_OK, 0},
    /* Revision 1, with nothing after 20 bytes, and with all fields. */
    {ONE, 0, ZACPI_RSDP_INVALID_CHECKSUM, 0}, {ONE, ALL_BUT(REVISION | FIRST), ZACPI_RSDP_INVALID_CHECKSUM, 0},
    {ONE, REVISION, ZACPI_OK, 0}, {ONE, FIRST, ZACPI_OK, 0}, {ONE, 31, ZACPI_OK, 0},
    {ONE_WHOLE, 0, ZACPI_OK, 1}, {ONE_WHOLE, ALL_BUT(REVISION), ZACPI_OK, 1}, {ONE_WHOLE, REVISION, ZACPI_OK, 0},
    {ONE_ID, ALL_BUT(RSDP_IDS), ZACPI_RSDP_INVALID_OEM_ID, 0}, {ONE_ID, RSDP_IDS, ZACPI_RSDP_INVALID_CHECKSUM, 0},
    {ONE_ID, RSDP_IDS | REVISION, ZACPI_OK, 0},
    /* Only the first 20 bytes pass their checks. */
    {SECOND_SUM, 0, ZACPI_RSDP_INVALID_CHECKSUM, 0}, {SECOND_SUM, ALL_BUT(FIRST), ZACPI_RSDP_INVALID_CHECKSUM, 0},
    {SECOND_SUM, FIRST, ZACPI_OK, 0}, {SECOND_SUM, 31, ZACPI_OK, 0},
    {SECOND_SUM_ID, ALL_BUT(RSDP_IDS), ZACPI_RSDP_INVALID_OEM_ID, 0},
    {SECOND_SUM_ID, ALL_BUT(FIRST), ZACPI_RSDP_INVALID_CHECKSUM, 0}, {SECOND_SUM_ID, RSDP_IDS | FIRST, ZACPI_OK, 0},
    {LENGTH_35, 0, ZACPI_RSDP_INVALID_CHECKSUM, 0}, {LENGTH_35, ALL_BUT(FIRST), ZACPI_RSDP_INVALID_CHECKSUM, 0},
    {LENGTH_35, FIRST, ZACPI_OK, 0},
    {LENGTH_LONG, 0, ZACPI_MAP_FAILED, 0}, {LENGTH_LONG, ALL_BUT(FIRST), ZACPI_MAP_FAILED, 0},
    {LENGTH_LONG, FIRST, ZACPI_OK, 0},
    /* Whatever is accepted. */
    {FIRST_SUM, 0, ZACPI_RSDP_INVALID_CHECKSUM, 0}, {FIRST_SUM, 31, ZACPI_RSDP_INVALID_CHECKSUM, 0},
    {UNSIGNED, 0, ZACPI_RSDP_INCORRECT_SIGNATURE, 0}, {UNSIGNED, 31, ZACPI_RSDP_INCORRECT_SIGNATURE, 0},
    {WHOLE, 32, ZACPI_UNKNOWN_POLICY, 0}, {ID, 36, ZACPI_UNKNOWN_POLICY, 0},
    {ONE, 0x80000008, ZACPI_UNKNOWN_POLICY, 0}};

/* Processors whose APIC id is 3 times the UID. The first is the boot processor, which runs. */
#define WAITS(n) n, 3 * (n), ZACPI_PROCESSOR_WAITING, 0, 0, 0
#define FOUR_WAIT(n) WAITS(n), WAITS(n + 1), WAITS(n + 2), WAITS(n + 3)
#define PROCESSORS_16 0, 0, ZACPI_PROCESSOR_RUNNING, 1, 0, 0, WAITS(1), WAITS(2), WAITS(3), FOUR_WAIT(4), \
    FOUR_WAIT(8), FOUR_WAIT(12)

static void check_old(const struct old_row *old, const struct zacpi_source *source) {
    const int n = old->rsdp, is_first = !old->revision, is_policy = old->status == ZACPI_UNKNOWN_POLICY;
    const uint64_t id = 0x202020202000 | old_rsdps[n][9], length = is_first ? 20 : 36;
    const struct row read[] = {
        GOOD(open, n, NULL, NO, 1, is_first ? OLD_RSDT : OLD_XSDT, is_first ? 40 : 36, old->revision, is_first ? 4 : 8,
             OLD_RSDP, length),
        GOOD(get_rsdp, n, NULL, NO, 1, OLD_RSDP, is_first ? 0 : OLD_XSDT, OLD_RSDT, length, old->revision, id),
        GOOD(list_processors, n, NULL, NO, 16, PROCESSORS_16)};
    const struct row empty = REFUSED(list_processors, n, NULL, NO, ZACPI_TABLE_MISSING, "APIC");
    const struct row nothing = NOTHING(list_missing_ranges, n);
    const struct row too_long = GOOD(list_missing_ranges, n, NULL, NO, 1, OLD_RSDP, 0x100024);
    const zacpi_status searched = is_policy || !old->status ? old->status : (zacpi_status)ZACPI_NO_VALID_RSDP;
    size_t i;
    for (i = 0; i < 3; i++) {
        struct row row = read[i];
        if (i == 2 && !is_first) row = empty;
        if (old->status) row.status = source->start == ZACPI_START_RSDP ? old->status : searched;
        if (old->status) row.named = NULL, row.count = 0, row.values_length = 0;
        if (is_there(row.call->name)) check_rooms(&row);
    }
    if (!is_policy && is_there("list_missing_ranges"))
        check_rooms(old->status && n == LENGTH_LONG ? &too_long : &nothing);
}

/* The RSDT lists the MADT, whose entries begin at 44: Type, Length, ACPI Processor UID, APIC ID, Flags (sections 5.2.7
 * and 5.2.12.2). */
static void lay_out_old(uint8_t *bytes) {
    size_t i;
    memcpy(bytes, "RSDT\50\0\0\0", 8);
    put(bytes + 36, 4, OLD_MADT);
    memcpy(bytes + 0x100, "XSDT\44\0\0\0", 8);
    memcpy(bytes + 0x200, "APIC\254\0\0\0", 8);
    for (i = 0; i < 16; i++) put(bytes + 0x22c + 8 * i, 8, 0x100000800 | (uint64_t)i << 16 | (uint64_t)(3 * i) << 24);
    bytes[9] = (uint8_t)-zacpi_byte_sum(bytes, 40);
    bytes[0x109] = (uint8_t)-zacpi_byte_sum(bytes + 0x100, 36);
    bytes[0x209] = (uint8_t)-zacpi_byte_sum(bytes + 0x200, 172);
}

static void check_rsdps(void) {
    static const uint32_t starts[] = {ZACPI_START_RSDP, ZACPI_START_SEARCH, ZACPI_START_BIOS_SEARCH};
    static uint8_t areas[OLD_RSDPS][BIOS_SIZE], old_tables[OLD_SIZE];
    static struct zacpi_region regions[OLD_RSDPS][4];
    size_t i, k;
    lay_out_old(old_tables);
    for (i = 0; i < OLD_RSDPS; i++) {
        const struct zacpi_region all[] = {{0x40e, word, 2}, {EBDA, zeros, EBDA_SIZE}, {BIOS, areas[i], BIOS_SIZE},
                                           {OLD_RSDT, old_tables, OLD_SIZE}};
        memcpy(areas[i] + (OLD_RSDP - BIOS), old_rsdps[i], 36);
        memcpy(regions[i], all, sizeof all);
    }
    for (i = 0; i < sizeof old_rows / sizeof *old_rows; i++)
        for (k = 0; k < 3; k++) {
            const struct zacpi_source source = {regions[old_rows[i].rsdp], 4, k ? 0 : OLD_RSDP, starts[k], 0};
            own_source = &source;
            accept = old_rows[i].accept;
            check_old(old_rows + i, &source);
        }
    own_source = NULL;
    accept = 0;
}
#endif
