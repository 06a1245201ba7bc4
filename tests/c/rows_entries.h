/* Entries one by one: each polarity and trigger of a MADT's, GICC Affinities in a row, ids that are too wide for the
 * shorter of two entries, each length of a block of general purpose events, AML that begins as a table does, and names
 * that aren't ASCII. Each byte is worked out from the layouts. For rows_written.h. */
#ifndef ROWS_ENTRIES_H
#define ROWS_ENTRIES_H

enum { MOST_WRITTEN = 300 };
/* What a call gave, against a table that ends where `length` says, whose Checksum isn't there yet. */
static void check_bytes_of(zacpi_status got, zacpi_status expects, uint8_t *bytes, size_t length,
                           const size_t *counted, const char *name, int which, size_t part) {
    put(bytes + 4, 4, length), sum_up(bytes, length);
    result(got == expects && *counted == (expects ? UNCOUNTED : length) && is_left_but(&out, expects ? 0 : length)
           && (expects || !memcmp(out.at, bytes, length)), name, which, part, got);
}

/* ---- MPS INTI Flags: Polarity in bits 0 and 1, Trigger Mode in bits 2 and 3 (section 5.2.12.5) ------------------ */

/* The MADT of `small_madt` with one entry after its processor. */
static void check_entry(const struct zacpi_madt_contents *given, const uint8_t *entry, size_t length, int holds,
                        size_t which) {
    uint8_t bytes[MOST_WRITTEN];
    const size_t whole = sizeof small_madt_bytes + length;
    size_t *counted = paint_size(&out_count);
    const zacpi_status got = zacpi_write_madt(ids, given, (uint8_t *)paint(&out, whole), whole, counted);
    memcpy(bytes, small_madt_bytes, sizeof small_madt_bytes);
    memcpy(bytes + sizeof small_madt_bytes, entry, length);
    check_bytes_of(got, holds ? ZACPI_OK : (zacpi_status)ZACPI_UNKNOWN_CODE, bytes, whole, counted, "an entry",
                   entry[0], which);
}
static void check_inti(uint8_t polarity, uint8_t trigger) {
    const int holds = polarity <= 3 && polarity != 2 && trigger <= 3 && trigger != 2;
    const uint8_t flags = (uint8_t)(polarity | trigger << 2);
    const struct zacpi_interrupt_source_override wiring = {0x04030201, 9, polarity, trigger, 0};
    const struct zacpi_nmi_source source = {0x04030201, polarity, trigger};
    const struct zacpi_nmi_line lines[] = {{77, 1, 1, polarity, trigger}, {7, 0, 0, polarity, trigger},
                                           {0x0103, 0, 1, polarity, trigger}};
    const uint8_t entries[][12] = {{2, 10, 0, 9, 1, 2, 3, 4, flags}, {3, 8, flags, 0, 1, 2, 3, 4},
                                   {4, 6, 255, flags, 0, 1}, {4, 6, 7, flags, 0, 0},
                                   {10, 12, flags, 0, 3, 1, 0, 0, 1}};
    size_t i;
    for (i = 0; i < 5; i++) {
        struct zacpi_madt_contents given = small_madt;
        if (i == 0) given.overrides = &wiring, given.overrides_length = 1;
        else if (i == 1) given.nmi_sources = &source, given.nmi_sources_length = 1;
        else given.nmi_lines = lines + i - 2, given.nmi_lines_length = 1;
        check_entry(&given, entries[i], entries[i][1], holds, flags);
    }
}

/* ---- GICC Affinities (section 5.2.16.4) ---------------------------------------------------------------------- */

static void check_giccs(size_t count) {
    static const struct zacpi_gicc_domain domains[] = {{0, 0xffffffff}, {0x0a0b0c0d, 1}, {0xfffffffe, 0x01020304}};
    static const uint8_t entries[][18] = {{3, 18, 255, 255, 255, 255, 0, 0, 0, 0, 1},
                                          {3, 18, 1, 0, 0, 0, 0x0d, 0x0c, 0x0b, 0x0a, 1},
                                          {3, 18, 4, 3, 2, 1, 254, 255, 255, 255, 1}};
    const struct zacpi_srat_contents given = {NONE(domains_of_apics), domains, count, NONE(domains_of_memory)};
    uint8_t bytes[MOST_WRITTEN];
    const size_t whole = sizeof empty_srat_bytes + 18 * count;
    size_t *counted = paint_size(&out_count);
    const zacpi_status got = zacpi_write_srat(ids, &given, (uint8_t *)paint(&out, whole), whole, counted);
    memcpy(bytes, empty_srat_bytes, sizeof empty_srat_bytes);
    memcpy(bytes + sizeof empty_srat_bytes, entries, 18 * count);
    check_bytes_of(got, ZACPI_OK, bytes, whole, counted, "giccs", 0, count);
}

/* ---- GPE0_BLK_LEN and GPE1_BLK_LEN, and the width of what is in X_GPE0_BLK and X_GPE1_BLK (section 5.2.9) ------- */

static void check_event_lengths(uint8_t bytes_long) {
    const uint8_t width = (uint8_t)(bytes_long < 32 ? 8 * bytes_long : 255);
    struct zacpi_fixed_hardware given = pc_fadt;
    uint8_t bytes[FADT_SIZE];
    size_t *counted = paint_size(&out_count);
    zacpi_status got;
    given.gpe0_block.byte_length = given.gpe1_block.byte_length = bytes_long;
    got = zacpi_write_fadt(ids, &given, (uint8_t *)paint(&out, FADT_SIZE), FADT_SIZE, counted);
    memcpy(bytes, fadt_bytes, FADT_SIZE);
    bytes[92] = bytes[93] = bytes_long, bytes[221] = bytes[233] = width;
    check_bytes_of(got, ZACPI_OK, bytes, FADT_SIZE, counted, "events", 0, bytes_long);
}

/* A block of which no byte is there: PM1b's, PM2's, and each block of events (section 5.2.9). */
static void check_no_byte(unsigned width) {
    size_t which;
    for (which = 0; which < 5; which++) {
        struct zacpi_fixed_hardware given = pc_fadt;
        size_t *counted = paint_size(&out_count);
        const struct zacpi_register block = PORT(0x670, (uint8_t)width, 1);
        zacpi_status got;
        if (which == 0) given.pm1b_event = block;
        else if (which == 1) given.pm1b_control = block;
        else if (which == 2) given.pm2_control = block;
        else if (which == 3) given.gpe0_block.byte_length = 0;
        else given.gpe1_block.byte_length = 0;
        got = zacpi_write_fadt(ids, &given, (uint8_t *)paint(&out, FADT_SIZE), FADT_SIZE, counted);
        result(got == ZACPI_BAD_REGISTER && *counted == UNCOUNTED && is_left_but(&out, 0), "no byte", (int)which, width,
               got);
    }
}

/* ---- A watchdog in whose fields no two bytes are the same (section 5.2.24.1.2) ----------------------------------- */

static void check_whole_watchdog(void) {
    const struct zacpi_platform_timer watchdog = {1, {0}, 0, NULL, 0, {0x1817161514131211, 0x2827262524232221,
                                                  0x34333231, ZACPI_POLARITY_LOW, ZACPI_TRIGGER_EDGE, 1, 0}};
    struct zacpi_gtdt_contents given = all_timers;
    uint8_t bytes[132] = {0};
    size_t *counted = paint_size(&out_count);
    zacpi_status got;
    given.platform_timers = &watchdog, given.platform_timers_length = 1;
    got = zacpi_write_gtdt(ids, &given, (uint8_t *)paint(&out, 132), 132, counted);
    memcpy(bytes, gtdt_bytes, 104), put(bytes + 88, 4, 1), put(bytes + 104, 3, 28 << 8 | 1);
    put(bytes + 108, 8, watchdog.watchdog.refresh_frame), put(bytes + 116, 8, watchdog.watchdog.control_frame);
    put(bytes + 124, 4, watchdog.watchdog.interrupt), bytes[128] = 7; /* edge, active low, secure */
    check_bytes_of(got, ZACPI_OK, bytes, 132, counted, "a watchdog", 0, 0);
}

/* ---- Ids of which only the lowest byte would fit an entry of a Local APIC: they take one of an x2APIC ----------- */

static void check_wide_domain(uint32_t wide) {
    const struct zacpi_apic_domain domain = {wide, 0x04030201};
    const struct zacpi_srat_contents given = {&domain, 1, NONE(domains_of_giccs), NONE(domains_of_memory)};
    uint8_t bytes[72] = {0};
    size_t *counted = paint_size(&out_count);
    const zacpi_status got = zacpi_write_srat(ids, &given, (uint8_t *)paint(&out, 72), 72, counted);
    memcpy(bytes, empty_srat_bytes, 48);
    bytes[48] = 2, bytes[49] = 24; /* section 5.2.16.3 */
    put(bytes + 48 + 4, 4, domain.domain), put(bytes + 48 + 8, 4, wide), put(bytes + 48 + 12, 4, 1);
    check_bytes_of(got, ZACPI_OK, bytes, 72, counted, "a wide id", 0, wide);
}
static void check_wide_ids(void) {
    size_t i;
    for (i = 1; i <= 3; i++) {
        const uint32_t wide = 5 + ((uint32_t)1 << 8 * i);
        const struct zacpi_processor by_uid[] = {listed[0], {wide, 6, ZACPI_PROCESSOR_WAITING, 0, 0, 0}},
                                     by_id[] = {listed[0], {6, wide, ZACPI_PROCESSOR_WAITING, 0, 0, 0}};
        const struct zacpi_nmi_line line = {wide, 0, 1, ZACPI_POLARITY_BUS, ZACPI_TRIGGER_BUS};
        struct zacpi_madt_contents of_uid = small_madt, of_id = small_madt, of_line = small_madt;
        uint8_t entry[16] = {9, 16, [8] = 1}, line_entry[12] = {10, 12, [8] = 1}; /* 5.2.12.12 and 5.2.12.13 */
        of_uid.processors = by_uid, of_uid.processors_length = 2;
        of_id.processors = by_id, of_id.processors_length = 2;
        of_line.nmi_lines = &line, of_line.nmi_lines_length = 1;
        put(entry + 4, 4, 6), put(entry + 12, 4, wide);
        check_entry(&of_uid, entry, 16, 1, wide);
        put(entry + 4, 4, wide), put(entry + 12, 4, 6);
        check_entry(&of_id, entry, 16, 1, wide);
        put(line_entry + 4, 4, wide);
        check_entry(&of_line, line_entry, 12, 1, wide);
        check_wide_domain(wide);
    }
}

/* ---- AML that begins with a Signature, and has a part of a Length that isn't its own ---------------------------- */

static void check_front(size_t length) {
    static const uint8_t fronts[][8] = {{'D', 'S', 'D', 'T', 9, 0, 0, 0}, {'S', 'S', 'D', 'T', 9, 0, 0, 0}};
    size_t i;
    for (i = 0; i < 2; i++) {
        uint8_t bytes[MOST_WRITTEN];
        size_t *counted = paint_size(&out_count);
        uint8_t *to = (uint8_t *)paint(&out, 36 + length);
        const zacpi_status got = (i ? zacpi_write_ssdt : zacpi_write_dsdt)(ids, 1, fronts[i], length, to, 36 + length,
                                                                          counted);
        memcpy(bytes, ssdt_bytes, 36), bytes[0] = i ? 'S' : 'D';
        memcpy(bytes + 36, fronts[i], length);
        check_bytes_of(got, ZACPI_OK, bytes, 36 + length, counted, "a front of AML", (int)i, length);
    }
}

/* ---- Names of more than ASCII, which are texts ------------------------------------------------------------------- */

static void check_names(unsigned which) {
    static const uint8_t oem[6] = {0xe2, 0x82, 0xac, 'A', 0xc3, 0xa9}, creator[4] = {0xc3, 0xa9, 0xc2, 0x80};
    static const uint8_t table[8] = {'M', 0xf0, 0x9f, 0x99, 0x82, ' ', 0, 0};
    struct zacpi_table_ids named_so = makers;
    uint8_t bytes[MOST_WRITTEN];
    size_t *counted = paint_size(&out_count);
    zacpi_status got;
    memcpy(bytes, ssdt_bytes, 36);
    if (which & 1) memcpy(named_so.oem_id, oem, 6), memcpy(bytes + 10, oem, 6);
    if (which & 2) memcpy(named_so.oem_table_id, table, 8), memcpy(bytes + 16, table, 8);
    if (which & 4) memcpy(named_so.creator_id, creator, 4), memcpy(bytes + 28, creator, 4);
    got = zacpi_write_ssdt(&named_so, 1, NONE(code), (uint8_t *)paint(&out, 36), 36, counted);
    check_bytes_of(got, ZACPI_OK, bytes, 36, counted, "names", (int)which, 0);
}

static void check_entries_written(void) {
    static const uint8_t tried[] = {0, 1, 2, 3, 4, 5, 7, 255};
    size_t i, k;
    for (i = 0; i < sizeof tried; i++)
        for (k = 0; k < sizeof tried; k++) check_inti(tried[i], tried[k]);
    for (i = 0; i <= 3; i++) check_giccs(i);
    check_wide_ids();
    check_whole_watchdog();
    for (i = 1; i <= 255; i++) check_event_lengths((uint8_t)i);
    for (i = 0; i < 8; i++) check_no_byte((unsigned)i);
    for (i = 0; i <= 8; i++) check_front(i);
    for (i = 0; i < 8; i++) check_names((unsigned)i);
}
#endif
