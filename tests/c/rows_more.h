/* More rows of the calls that write tables: lists of no item and of two, flags that others haven't, and what a machine
 * takes for a DSDT. Each byte is worked out by hand from the layouts. For rows_written.h. */
#ifndef ROWS_MORE_H
#define ROWS_MORE_H

/* ---- Lists ------------------------------------------------------------------------------------------------ */

static const uint8_t empty_rsdt_bytes[] = {HEAD('R', 'S', 'D', 'T', 36, 1, 0x6d)};
WRITE(an_empty_rsdt, rsdt, NONE(addresses_32))

/* Harts alone, and two of each controller. */
static const struct zacpi_imsic two_imsics[] = {{0, 63, 0, 0, 0, 0, 0, 1}, {0, 255, 0, 0, 1, 0, 24, 1}};
static const struct zacpi_aplic two_aplics[] = {{0x0c000000, 0, 0, 0, 0x8000, 0, 96, 0, 1},
                                                {0x0d000000, 0, 0, 96, 0x8000, 0, 96, 1, 1}};
static const struct zacpi_plic two_plics[] = {{0x0e000000, 0, 0, 0, 0x1000, 31, 7, 0, 1},
                                              {0x0f000000, 0, 0, 32, 0x1000, 31, 7, 1, 1}};
static const struct zacpi_riscv_contents harts_alone = {rintcs + 1, 1, NONE(imsics), NONE(aplics), NONE(plics)};
static const struct zacpi_riscv_contents two_of_each = {rintcs + 1, 1, LISTED(two_imsics), LISTED(two_aplics),
                                                        LISTED(two_plics)};
#define HART_9 0x18, 36, 255, 0, 1, 0, 0, 0, 9, 0, 0, 0, 0, 0, 0, 0, 10, 0, 0, 0, 0, 0, 0, 0, ZEROS_12
static const uint8_t harts_alone_bytes[] = {HEAD('A', 'P', 'I', 'C', 80, 7, 0x0c), 0, 0, 0, 0, 0, 0, 0, 0, HART_9};
static const uint8_t two_of_each_bytes[] = {LONG_HEAD('A', 'P', 'I', 'C', 0, 1, 7, 0xce), 0, 0, 0, 0, 0, 0, 0, 0,
    HART_9,
    0x19, 16, 1, 0, 0, 0, 0, 0, 63, 0, 0, 0, 0, 0, 0, 0, 0x19, 16, 1, 0, 0, 0, 0, 0, 255, 0, 0, 0, 0, 1, 0, 24,
    0x1a, 36, 1, 0, 0, 0, 0, 0, 0, 0, 0, 0, 0, 0, 0, 0, 0, 0, 96, 0, 0, 0, 0, 0, 0, 0, 0, 0x0c, 0, 0, 0, 0,
    0, 0x80, 0, 0,
    0x1a, 36, 1, 1, 0, 0, 0, 0, 0, 0, 0, 0, 0, 0, 0, 0, 0, 0, 96, 0, 96, 0, 0, 0, 0, 0, 0, 0x0d, 0, 0, 0, 0,
    0, 0x80, 0, 0,
    0x1b, 36, 1, 0, 0, 0, 0, 0, 0, 0, 0, 0, 31, 0, 7, 0, 0, 0, 0, 0, 0, 0x10, 0, 0, 0, 0, 0, 0x0e, 0, 0, 0, 0, 0, 0,
    0, 0,
    0x1b, 36, 1, 1, 0, 0, 0, 0, 0, 0, 0, 0, 31, 0, 7, 0, 0, 0, 0, 0, 0, 0x10, 0, 0, 0, 0, 0, 0x0f, 0, 0, 0, 0, 32, 0,
    0, 0};
WRITE(harts, riscv_madt, &harts_alone)
WRITE(two_controllers, riscv_madt, &two_of_each)

static const struct zacpi_range two_redistributors[] = {{0x1080a0000, 0x20000}, {0x1090a0000, 0x20000}};
static const struct zacpi_gic_translation_service two_services[] = {{0x08080000, 7}, {0x08090000, 8}};
static const struct zacpi_gic_contents two_of_a_gic = {
    GICD, interfaces + 1, 1, LISTED(two_redistributors), LISTED(two_services), NONE(frames)};
static const uint8_t two_of_a_gic_bytes[] = {HEAD('A', 'P', 'I', 'C', 220, 6, 0x4b), 0, 0, 0, 0, 0, 0, 0, 0, GICD_ENTRY,
    SHORT_GICC, 14, 16, 0, 0, 0, 0, 0x0a, 8, 1, 0, 0, 0, 0, 0, 2, 0, 14, 16, 0, 0, 0, 0, 0x0a, 9, 1, 0, 0, 0, 0, 0, 2,
    0,
    15, 20, 0, 0, 7, 0, 0, 0, 0, 0, 8, 8, 0, 0, 0, 0, 0, 0, 0, 0, 15, 20, 0, 0, 8, 0, 0, 0, 0, 0, 9, 8, 0, 0, 0, 0, 0,
    0, 0, 0};
WRITE(a_gic_of_two, gic_madt, &two_of_a_gic)

/* ---- Flags ------------------------------------------------------------------------------------------------ */

/* Each timer, frame and watchdog with other flags than those of `with_platform_timers`. */
static const struct zacpi_gt_frame other_frames[] = {
    {9, 0x2a830000, 0x2a840000, 313, 570, 1, LEVEL_LOW, EDGE_HIGH, 1, 0},
    {9, 0x12a850000, 0xffffffffffffffff, 315, 572, 2, LEVEL_HIGH, EDGE_LOW, 0, 1}};
static const struct zacpi_platform_timer other_timers[] = {
    {1, {0}, 9, many_frames, 0, {0x2a450000, 0x12a440000, 829, EDGE_HIGH, 0}}, {0, {0}, 0x2a810000, other_frames, 2,
    NO_WATCHDOG}};
static const struct zacpi_gtdt_contents other_flags = {
    {0x0102030405060708, 0xf1f2f3f4f5f6f7f8, {29, EDGE_HIGH, 1, 0}, {30, LEVEL_LOW, 0, 1}, {27, LEVEL_HIGH, 0, 7},
     {26, EDGE_LOW, 1, 1}, {28, EDGE_HIGH, 0, 1}, 9}, LISTED(other_timers)};
static const uint8_t other_flags_bytes[] = {HEAD('G', 'T', 'D', 'T', 232, 3, 0x84),
    8, 7, 6, 5, 4, 3, 2, 1, 0, 0, 0, 0, 29, 0, 0, 0, 5, 0, 0, 0, 30, 0, 0, 0, 2, 0, 0, 0, 27, 0, 0, 0, 0, 0, 0, 0,
    26, 0, 0, 0, 7, 0, 0, 0, 0xf8, 0xf7, 0xf6, 0xf5, 0xf4, 0xf3, 0xf2, 0xf1,
    2, 0, 0, 0, 104, 0, 0, 0, 28, 0, 0, 0, 1, 0, 0, 0,
    1, 28, 0, 0, 0, 0, 0x45, 0x2a, 0, 0, 0, 0, 0, 0, 0x44, 0x2a, 1, 0, 0, 0, /* Watchdog: its two frames */
    61, 3, 0, 0, 1, 0, 0, 0,                                              /* GSIV, Flags: edge, high */
    0, 100, 0, 0, 0, 0, 0x81, 0x2a, 0, 0, 0, 0, 2, 0, 0, 0, 20, 0, 0, 0,  /* GT Block: address, Timer Count, Offset */
    1, 0, 0, 0, 0, 0, 0x83, 0x2a, 0, 0, 0, 0, 0, 0, 0x84, 0x2a, 0, 0, 0, 0, /* GTx: Number, CntBaseX, CntEL0BaseX */
    57, 1, 0, 0, 2, 0, 0, 0, 58, 2, 0, 0, 1, 0, 0, 0, 1, 0, 0, 0,         /* physical, virtual: GSIV, Flags; Common */
    2, 0, 0, 0, 0, 0, 0x85, 0x2a, 1, 0, 0, 0, NO_ADDRESS,
    59, 1, 0, 0, 0, 0, 0, 0, 60, 2, 0, 0, 3, 0, 0, 0, 2, 0, 0, 0};
WRITE(a_gtdt_of_other_flags, gtdt, &other_flags)

/* A FACS without X_Firmware_Waking_Vector's bit 1 of Flags, and one without bit 0. */
static const struct zacpi_facs_contents facs_of_s4bios = {0, 0, 0, 1, 0}, facs_of_64_bits = {0, 0, 0, 0, 1};
static const uint8_t facs_of_s4bios_bytes[64] = {'F', 'A', 'C', 'S', 64, [20] = 1, [32] = 2};
static const uint8_t facs_of_64_bits_bytes[64] = {'F', 'A', 'C', 'S', 64, [20] = 2, [32] = 2};
static zacpi_status a_facs_of_s4bios(uint8_t *to, size_t room, size_t *length) {
    return zacpi_write_facs(&facs_of_s4bios, to, room, length);
}
static zacpi_status a_facs_of_64_bits(uint8_t *to, size_t room, size_t *length) {
    return zacpi_write_facs(&facs_of_64_bits, to, room, length);
}

/* ---- Machines --------------------------------------------------------------------------------------------- */

/* A DSDT of no AML, and two whose AML begins as a DSDT does but isn't one: it has no Length, or another. The RSDP of an
 * empty machine, the XSDT 0x30 on, and the DSDT 0x60 on. */
static const uint8_t no_length[] = {'D', 'S', 'D', 'T'}, other_length[] = {'D', 'S', 'D', 'T', 9, 0, 0, 0};
static const uint8_t dsdt_of_no_aml[] = {HEAD('D', 'S', 'D', 'T', 36, 2, 0x7a)};
static const uint8_t dsdt_of_no_length[] = {HEAD('D', 'S', 'D', 'T', 40, 2, 0x47), 'D', 'S', 'D', 'T'};
static const uint8_t dsdt_of_other_length[] = {HEAD('D', 'S', 'D', 'T', 44, 2, 0x3a), 'D', 'S', 'D', 'T', 9, 0, 0, 0};
static uint8_t no_aml_bytes[0x90], no_length_bytes[0x90], other_length_bytes[0x90];
static void lay_dsdt(uint8_t *to, const uint8_t *dsdt, size_t length) {
    memcpy(to, empty_machine_bytes, sizeof empty_machine_bytes);
    memcpy(to + 0x60, dsdt, length);
}
static void lay_dsdts(void) {
    lay_dsdt(no_aml_bytes, LISTED(dsdt_of_no_aml));
    lay_dsdt(no_length_bytes, LISTED(dsdt_of_no_length));
    lay_dsdt(other_length_bytes, LISTED(dsdt_of_other_length));
}
static zacpi_status on_aml(const uint8_t *aml, size_t aml_length, uint8_t *to, size_t room, size_t *length) {
    const struct zacpi_aml_contents dsdt = {aml, aml_length, 2};
    const struct zacpi_machine machine = {*ids, {0}, NULL, 0, &dsdt, 1, NULL, 0};
    return zacpi_write_tables(&machine, 0x7fe00000, to, room, length);
}
MACHINE(a_machine_of_no_aml, on_aml(NONE(code), to, room, length))
MACHINE(a_machine_of_no_length, on_aml(LISTED(no_length), to, room, length))
MACHINE(a_machine_of_other_length, on_aml(LISTED(other_length), to, room, length))

/* A tree without a table, and at no multiple of 16; and of each table that isn't one what the other calls return. */
static const uint8_t empty_tree_bytes[0x30] = {HEAD('X', 'S', 'D', 'T', 36, 1, 0x67)};
MACHINE(an_empty_tree, on_machine(&not_listed, 0, 0, 0, 0x7fe00000, 0, to, room, length))
static void check_bad_tables(void) {
    static const struct zacpi_listed_table tables[] = {{oem_bytes, 0}, {short_bytes, 35}, {oem_bytes, 37},
        {hpet_bytes, sizeof hpet_bytes - 1}, {long_bytes, 36}, {unsummed_bytes, 36}};
    static const uint64_t addresses[] = {0, 0x7fe00008, 0xffffffffffffffd0};
    size_t i, size = UNCOUNTED, *length;
    zacpi_status got;
    for (i = 0; i < sizeof tables / sizeof *tables; i++) {
        const struct zacpi_machine machine = {*ids, {0}, tables + i, 1, &some_aml, 0, &facs, 0};
        length = paint_size(&out_count);
        got = on_machine(tables + i, 1, 0, 0, 0x7fe00000, 0, (uint8_t *)paint(&out, 100), 100, length);
        result(got == ZACPI_BAD_TABLE && *length == UNCOUNTED, "a bad table", (int)i, 0, got);
        got = zacpi_tables_size(&machine, &size);
        result(got == ZACPI_BAD_TABLE && size == UNCOUNTED, "a bad table's size", (int)i, 0, got);
    }
    { /* a DSDT of 2^32 + 35 bytes, of whose AML the first four are read */
        static const uint8_t begin[4] = {0};
        static const struct zacpi_aml_contents too_long = {begin, UINT32_MAX, 2};
        const struct zacpi_machine machine = {*ids, {0}, &not_listed, 0, &too_long, 1, &facs, 0};
        got = zacpi_tables_size(&machine, &size);
        result(got == ZACPI_TOO_LONG && size == UNCOUNTED, "the size of a long DSDT", 0, 0, got);
    }
    for (i = 0; i < 3; i++) {
        length = paint_size(&out_count);
        got = on_machine(&not_listed, 0, 0, 0, addresses[i], 0, (uint8_t *)paint(&out, 100), 100, length);
        result(got == ZACPI_NO_ADDRESS && *length == UNCOUNTED, "a tree's place", (int)i, 0, got);
    }
}

/* ---- Whole machines of each length: a DSDT and a listed table that end at each byte of sixteen, with a FACS and
 * without, with the RSDP and without; and the errors of a DSDT whatever a call does with the machine --------------- */

enum { MOST_AML = 20, MOST_BODY = 20, MACHINE_AT = 0x7fe00000 };
static const uint8_t aml_bytes[MOST_AML] = {0xa3, 1, 2, 3, 4, 5, 6, 7, 8, 9, 10, 11, 12, 13, 14, 15, 16, 17, 18, 19};

/* A table of this header with a body that follows it. */
static void lay_table(uint8_t *to, const uint8_t *head, const uint8_t *body, size_t length) {
    memcpy(to, head, 36);
    memcpy(to + 36, body, length);
    put(to + 4, 4, 36 + length), sum_up(to, 36 + length);
}
static size_t padded_to(size_t length, size_t unit) { return (length + unit - 1) / unit * unit; }

/* The tree of a machine at `at`: the XSDT of 44 bytes, the DSDT, 128 bytes with the FACS, and the table. */
static size_t lay_lengths(uint8_t *to, uint64_t at, size_t aml, const uint8_t *table, size_t body, int has_facs) {
    static const uint8_t xsdt_head[36] = {HEAD('X', 'S', 'D', 'T', 0, 1, 0)};
    static const uint8_t dsdt_head[36] = {HEAD('D', 'S', 'D', 'T', 0, 2, 0)};
    const size_t after_dsdt = 48 + padded_to(36 + aml, 16), of_table = after_dsdt + (has_facs ? 128 : 0);
    uint8_t address[8];
    put(address, 8, at + of_table);
    memset(to, 0, of_table + padded_to(36 + body, 16));
    lay_table(to, xsdt_head, address, 8);
    lay_table(to + 48, dsdt_head, aml_bytes, aml);
    if (has_facs) memcpy(to + padded_to((size_t)at + after_dsdt, 64) - (size_t)at, facs_bytes, sizeof facs_bytes);
    memcpy(to + of_table, table, 36 + body);
    return of_table + padded_to(36 + body, 16);
}

static void check_length(size_t aml, size_t body, int has_facs) {
    static const uint8_t oem_head[36] = {HEAD('O', 'E', 'M', '7', 0, 1, 0)};
    uint8_t table[36 + MOST_BODY], bytes[512];
    const struct zacpi_listed_table listed_so = {table, 36 + body};
    const struct zacpi_aml_contents dsdt = {aml_bytes, aml, 2};
    const struct zacpi_machine machine = {makers, {0}, &listed_so, 1, &dsdt, 1, &facs, has_facs ? 1 : 0};
    int has_rsdp;
    lay_table(table, oem_head, aml_bytes, body);
    for (has_rsdp = 0; has_rsdp < 2; has_rsdp++) {
        const size_t front = has_rsdp ? 48 : 0;
        const size_t size = front + lay_lengths(lay(bytes, machine_rsdp, front ? 36 : 0), MACHINE_AT + front, aml,
                                                table, body, has_facs);
        size_t room, counted = UNCOUNTED;
        memset(bytes + (front ? 36 : 0), 0, front ? 12 : 0);
        for (room = size - 1; room < size + 2; room++) {
            size_t *length = paint_size(&out_count);
            uint8_t *to = (uint8_t *)paint(&out, room);
            const zacpi_status got = (has_rsdp ? zacpi_write_tables : zacpi_write_tables_without_rsdp)(
                &machine, MACHINE_AT, to, room, length);
            const int holds = room >= size;
            result(got == (holds ? ZACPI_OK : (zacpi_status)ZACPI_NO_ROOM) && *length == (holds ? size : UNCOUNTED)
                   && is_left_but(&out, holds ? size : 0) && (!holds || !memcmp(to, bytes, size)), "a length",
                   (int)(aml * 100 + body), room, got);
        }
        if (has_rsdp) result(!zacpi_tables_size(&machine, &counted) && counted == size, "a length", (int)aml, body, 0);
    }
}

/* A DSDT that can't be written, or ids that aren't texts. */
static void check_machine_errors(void) {
    static const struct zacpi_aml_contents dsdts[] = {{LISTED(dsdt_bytes), 2}, {LISTED(code), 2}};
    static const struct zacpi_table_ids *const not_texts[] = {&makers, &no_oem, &no_table_id, &no_creator};
    size_t i, k;
    for (i = 0; i < 2; i++)
        for (k = 0; k < 4; k++) {
            const zacpi_status expects = k ? ZACPI_BAD_NAME : i ? ZACPI_OK : ZACPI_HAS_HEADER;
            const struct zacpi_machine machine = {*not_texts[k], {0}, NULL, 0, dsdts + i, 1, &facs, 1};
            size_t *length = paint_size(&out_count);
            zacpi_status got = zacpi_tables_size(&machine, length);
            result(got == expects && *length == (got ? UNCOUNTED : 48 + 48 + 48 + 128), "a size", (int)i, k, got);
            length = paint_size(&out_count);
            got = zacpi_write_tables_without_rsdp(&machine, MACHINE_AT, (uint8_t *)paint(&out, 224), 224, length);
            result(got == expects && *length == (got ? UNCOUNTED : 224) && is_left_but(&out, got ? 0 : 224), "a tree",
                   (int)i, k, got);
        }
}

static void check_machine_lengths(void) {
    size_t aml, body;
    for (aml = 0; aml <= MOST_AML; aml++)
        for (body = 0; body <= MOST_BODY; body++) check_length(aml, body, (int)(aml + body) % 2);
    check_machine_errors();
}
#endif
