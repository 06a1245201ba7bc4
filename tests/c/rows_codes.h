/* Each code of a register: a FADT with every register, in which one byte has each value, as it is read and as it is
 * written. For rows_written.h, whose FADT of a PC it begins with. */
#ifndef ROWS_CODES_H
#define ROWS_CODES_H

/* Address Space ID is 0 to 0x0a, 0x7f, or an OEM's from 0xc0 on, and Access Size at most 4 (section 5.2.3.2). */
static int is_space(unsigned code) { return code <= 0x0a || code == 0x7f || code >= 0xc0; }
static int is_access_size(unsigned code) { return code <= 4; }

/* A register: where the record has it, and its gpe_block; where the FADT has its X_ field, its field of 32 bits, and
 * its length in bytes (section 5.2.9). 0: it has none. */
static const struct spot {
    size_t in_record, block, x, port, length;
    struct zacpi_generic_address at;
    uint8_t bytes;
} spots[] = {
#define SPOT(name, x, port, length, ...) {offsetof(fixed, name), 0, x, port, length, __VA_ARGS__}
#define GPE_SPOT(n, x, port, length, ...) {offsetof(fixed, gpe##n), offsetof(fixed, gpe##n##_block), x, port, length, \
                                           __VA_ARGS__}
    SPOT(pm1a_event, 148, 56, 88, {0x600, 1, 32, 0, 2}, 4), SPOT(pm1b_event, 160, 60, 88, {0x610, 1, 32, 0, 3}, 4),
    SPOT(pm1a_control, 172, 64, 89, {0x604, 1, 16, 0, 2}, 2), SPOT(pm1b_control, 184, 68, 89, {0x614, 1, 16, 0, 1}, 2),
    SPOT(pm2_control, 196, 72, 90, {0x650, 1, 8, 0, 1}, 1), SPOT(pm_timer, 208, 76, 91, {0x608, 1, 32, 0, 3}, 4),
    GPE_SPOT(0, 220, 80, 92, {0x620, 1, 128, 0, 0}, 16), GPE_SPOT(1, 232, 84, 93, {0x640, 1, 64, 0, 0}, 8),
    SPOT(reset, 116, 0, 0, {0xcf9, 1, 8, 0, 1}, 0), SPOT(sleep_control, 244, 0, 0, {0x660, 1, 8, 0, 1}, 0),
    SPOT(sleep_status, 256, 0, 0, {0x661, 1, 8, 0, 1}, 0)};
enum { PM1A_CONTROL = 2, PM1B_CONTROL = 3, PM_TIMER = 5, RESET = 8, SLEEP_CONTROL_AT = 9, FADT_SIZE = 276,
       SPCR_SIZE = 90,
       SPOTS = sizeof spots / sizeof *spots };

static void sum_up(uint8_t *bytes, size_t length) { bytes[9] = (uint8_t)(bytes[9] - zacpi_byte_sum(bytes, length)); }
static void lay_register(uint8_t *to, const struct zacpi_generic_address *at) {
    to[0] = at->space, to[1] = at->bit_width, to[2] = at->bit_offset, to[3] = at->access_size;
    put(to + 4, 8, at->address);
}
/* The FADT of a PC with all of these registers. */
static void lay_every_register(uint8_t *bytes) {
    const struct spot *spot;
    memcpy(bytes, fadt_bytes, FADT_SIZE);
    for (spot = spots; spot < spots + SPOTS; spot++) {
        lay_register(bytes + spot->x, &spot->at);
        if (spot->port) put(bytes + spot->port, 4, spot->at.address), bytes[spot->length] = spot->bytes;
    }
    sum_up(bytes, FADT_SIZE);
}

/* Each code that is defined but those of OEMs, and those beside which others begin. */
static const uint8_t codes[] = {0, 1, 2, 3, 4, 5, 6, 7, 8, 9, 0x0a, 0x0b, 0x7e, 0x7f, 0x80, 0xbf, 0xc0, 0xfe, 0xff};
/* The byte of a register that has a code: Address Space ID at 0, and Access Size at 3. */
static int is_code(size_t byte, unsigned code) { return byte ? is_access_size(code) : is_space(code); }

/* ---- Read ------------------------------------------------------------------------------------------------ */

/* A machine of an RSDT, a FADT, an SPCR, and a DSDT that has S5 with 5 and 6; bytes of it change, and stay where they
 * are, and so may the FADT's length. */
static uint8_t coded_bytes[4][FADT_SIZE], *coded_fadt, *coded_spcr;
static struct zacpi_region *coded_regions;
static struct zacpi_source coded;
static void lay_coded(void) {
    static const uint8_t rsdt[] = {'R', 'S', 'D', 'T', 44, 0, 0, 0, 1, [37] = 0x20, [41] = 0x40};
    static const uint8_t dsdt[] = {'D', 'S', 'D', 'T', 48, 0, 0, 0, 2, [36] = 0x08, '_', 'S', '5', '_', 0x12, 6, 2,
                                   0x0a, 5, 0x0a, 6};
    static struct zacpi_region regions[] = {{0x1000, coded_bytes[0], 44}, {0x2000, coded_bytes[1], FADT_SIZE},
                                            {0x3000, coded_bytes[2], 48}, {0x4000, coded_bytes[3], SPCR_SIZE}};
    memcpy(coded_bytes[0], rsdt, sizeof rsdt), sum_up(coded_bytes[0], 44);
    memcpy(coded_bytes[3], pc_spcr_bytes, SPCR_SIZE);
    memcpy(coded_bytes[2], dsdt, sizeof dsdt), sum_up(coded_bytes[2], 48);
    lay_every_register(coded_bytes[1]);
    put(coded_bytes[1] + 40, 4, 0x3000), put(coded_bytes[1] + 140, 8, 0); /* DSDT, X_DSDT */
    sum_up(coded_bytes[1], FADT_SIZE);
    coded.regions = all_at_edge(regions, 4), coded.regions_length = 4;
    coded.address = 0x1000, coded.start = ZACPI_START_RSDT;
    coded_regions = edge == NO_EDGE ? regions : (void *)(uintptr_t)coded.regions;
    coded_fadt = (uint8_t *)(uintptr_t)coded_regions[1].bytes;
    coded_spcr = (uint8_t *)(uintptr_t)coded_regions[3].bytes;
}

/* What a call of them writes. */
static union coded_output {
    fixed fixed;
    plan plan;
    pm_timer timer;
    uint8_t bytes[sizeof(plan) > sizeof(fixed) ? sizeof(plan) : sizeof(fixed)];
} expected;
#define READER(verb, call, ...) static zacpi_status read_##verb(void *to) \
    { struct zacpi_signature named; return zacpi_get_##call(&coded, __VA_ARGS__ to, &named); }
READER(fixed, fixed_hardware, )
READER(timer, pm_timer, )
READER(reset, reset_plan, )
READER(enable, enable_plan, )
READER(power_off, power_off_plan, )
READER(sleep, sleep_plan, 5, )

/* Where a call shows a register in what it returns; the fixed hardware has each. The others refuse a reserved code. */
static const struct reader {
    const char *name;
    zacpi_status (*run)(void *to);
    const struct field *fields;
    size_t size, spot, at;
    int is_reduced;
} readers[] = {
#define READS(verb, type, spot, field, reduced) \
    {#verb, read_##verb, of_##type, sizeof(type), spot, offsetof(type, field), reduced}
    {"fixed", read_fixed, of_fixed_hardware, sizeof(fixed), SPOTS, 0, 0}, READS(timer, pm_timer, PM_TIMER, base, 0),
    READS(reset, plan, RESET, steps[0].at, 0), READS(enable, plan, PM1A_CONTROL, steps[1].at, 0),
    READS(power_off, plan, PM1A_CONTROL, steps[0].at, 0), READS(power_off, plan, PM1B_CONTROL, steps[1].at, 0),
    READS(sleep, plan, PM1A_CONTROL, steps[0].at, 0), READS(sleep, plan, PM1B_CONTROL, steps[1].at, 0),
    READS(sleep, plan, SLEEP_CONTROL_AT, steps[0].at, 1)};
/* Of 124 bytes, the last of which are the first half of the Address of RESET_REG. */
static const struct reader front_reader = READS(reset, plan, RESET, steps[0].at, 0);

static void check_coded(const struct reader *reader, zacpi_status status, size_t place, unsigned value) {
    zacpi_status got;
    sum_up(coded_fadt, (size_t)coded_regions[1].length);
    got = reader->run(paint(&out, reader->size));
    result(got == status && (status || same_fields(reader->fields, out.at, &expected))
           && is_left_but(&out, status ? 0 : reader->size), reader->name, (int)place, value, got);
}
/* A field at a time, since padding stays as it was. */
static void refuse(struct zacpi_register *shown) {
    shown->at.address = 0, shown->at.space = shown->at.bit_width = shown->at.bit_offset = shown->at.access_size = 0;
    shown->present = 2;
}

/* With a code in one byte of a register it returns what it returned before, but for that byte. */
static void check_read_code(const struct reader *reader, const struct spot *spot, size_t byte, unsigned value) {
    const int is_fixed = reader->spot == SPOTS, holds = is_code(byte, value);
    const union coded_output before = expected;
    const uint8_t was = coded_fadt[spot->x + byte];
    struct zacpi_register *shown = (void *)(expected.bytes + (is_fixed ? spot->in_record : reader->at));
    struct zacpi_gpe_block *block = (void *)(expected.bytes + spot->block);
    if (!holds) refuse(shown);
    else if (byte) shown->at.access_size = (uint8_t)value;
    else shown->at.space = (uint8_t)value;
    if (is_fixed && spot->block && !byte) {
        block->space = (uint8_t)value;
        if (!holds) block->address = 0, block->space = block->byte_length = 0, block->present = 2;
    }
    coded_fadt[spot->x + byte] = (uint8_t)value;
    check_coded(reader, holds || is_fixed ? ZACPI_OK : (zacpi_status)ZACPI_INVALID_GENERIC_ADDRESS, spot->x + byte,
                value);
    coded_fadt[spot->x + byte] = was, expected = before;
}

/* The registers that a call returns are as they were laid out, and so is each code of them. */
static void check_reader(const struct reader *reader) {
    size_t i, k;
    if (reader->is_reduced) coded_fadt[114] ^= 0x10; /* Flags: HW_REDUCED_ACPI */
    sum_up(coded_fadt, (size_t)coded_regions[1].length);
    result(!reader->run(paint(&out, reader->size)), reader->name, 0, 0, 0);
    memcpy(&expected, out.at, reader->size);
    for (i = 0; i < SPOTS; i++) {
        const struct zacpi_register *shown;
        if (reader->spot != SPOTS && reader->spot != i) continue;
        shown = (void *)(expected.bytes + (reader->spot == i ? reader->at : spots[i].in_record));
        result(shown->at.address == spots[i].at.address && shown->at.space == 1 && !shown->at.bit_offset
               && shown->at.bit_width == spots[i].at.bit_width && shown->at.access_size == spots[i].at.access_size
               && (reader->spot == PM_TIMER || shown->present == 1), reader->name, (int)i, 1, 0);
        for (k = 0; k < sizeof codes; k++) {
            check_read_code(reader, spots + i, 0, codes[k]);
            check_read_code(reader, spots + i, 3, codes[k]);
        }
    }
    if (reader->is_reduced) coded_fadt[114] ^= 0x10;
}
/* Of a FADT of 124 bytes the fixed hardware has a RESET_REG with the first half of its Address, and each code of it. */
static void check_half_reset(void) {
    static const uint8_t bytes[] = {0, 3};
    const struct spot *spot = spots + RESET;
    size_t i, k;
    for (i = 0; i < 2; i++)
        for (k = 0; k < sizeof codes; k++) {
            const uint8_t was = coded_fadt[spot->x + bytes[i]];
            struct zacpi_register wanted = {spot->at, 1};
            const struct zacpi_register *shown;
            zacpi_status got;
            if (!is_code(bytes[i], codes[k])) refuse(&wanted);
            else if (bytes[i]) wanted.at.access_size = codes[k];
            else wanted.at.space = codes[k];
            coded_fadt[spot->x + bytes[i]] = codes[k], sum_up(coded_fadt, 124);
            got = read_fixed(paint(&out, sizeof(fixed)));
            shown = &((const fixed *)(const void *)out.at)->reset;
            result(!got && shown->present == wanted.present && shown->at.address == wanted.at.address
                   && shown->at.space == wanted.at.space && shown->at.bit_width == wanted.at.bit_width
                   && shown->at.bit_offset == wanted.at.bit_offset && shown->at.access_size == wanted.at.access_size,
                   "half a reset", (int)bytes[i], codes[k], got);
            coded_fadt[spot->x + bytes[i]] = was;
        }
}

static void check_read_codes(void) {
    const struct reader *reader;
    for (reader = readers; reader < readers + sizeof readers / sizeof *readers; reader++) check_reader(reader);
    coded_regions[1].length = 124, put(coded_fadt + 4, 4, 124);
    check_reader(&front_reader);
    check_half_reset();
    coded_regions[1].length = FADT_SIZE, put(coded_fadt + 4, 4, FADT_SIZE), sum_up(coded_fadt, FADT_SIZE);
}

/* The same of Base Address of an SPCR, at 40, as it is read and written. */
static void check_console_codes(void) {
    struct zacpi_signature named;
    struct zacpi_spcr_contents given = pc_console;
    console before, shown;
    size_t k, byte;
    zacpi_status got = zacpi_get_console(&coded, (console *)paint(&out, sizeof(console)), &named);
    result(!got, "console", 0, 0, got);
    memcpy(&before, out.at, sizeof before);
    for (k = 0; k < 2 * sizeof codes; k++) {
        const unsigned value = codes[k / 2];
        const int holds = is_code(byte = k % 2 ? 3 : 0, value);
        const uint8_t was = coded_spcr[40 + byte];
        size_t *length = paint_size(&out_count);
        shown = before;
        given.console.base = pc_console.console.base;
        *(byte ? &given.console.base.at.access_size : &given.console.base.at.space) = (uint8_t)value;
        *(byte ? &shown.base.at.access_size : &shown.base.at.space) = (uint8_t)value;
        if (!holds) refuse(&shown.base);
        coded_spcr[40 + byte] = (uint8_t)value, sum_up(coded_spcr, SPCR_SIZE);
        got = zacpi_get_console(&coded, (console *)paint(&out, sizeof(console)), &named);
        result(!got && same_fields(of_console, out.at, &shown), "console", (int)byte, value, got);
        got = zacpi_write_spcr(ids, &given, (uint8_t *)paint(&out, SPCR_SIZE), SPCR_SIZE, length);
        result(got == (holds ? ZACPI_OK : (zacpi_status)ZACPI_UNKNOWN_CODE)
               && *length == (holds ? SPCR_SIZE : UNCOUNTED) && is_left_but(&out, holds ? SPCR_SIZE : 0)
               && (!holds || !memcmp(out.at, coded_spcr, SPCR_SIZE)),
               "written console", (int)byte, value, got);
        coded_spcr[40 + byte] = was;
    }
    sum_up(coded_spcr, SPCR_SIZE);
}

/* By its ports alone, with each length beside which another rule begins: of a width in 8 bits only those below 32 bytes
 * are, but a block of events may have any; a timer has 4 bytes. PM1_EVT_LEN and PM1_CNT_LEN are each of two blocks. */
static void check_lengths_of_ports(void) {
    static const uint8_t lengths[] = {0, 1, 3, 4, 5, 31, 32, 33, 255};
    const struct spot *spot, *other;
    size_t k;
    for (spot = spots; spot < spots + RESET; spot++) put(coded_fadt + spot->x + 4, 8, 0);
    sum_up(coded_fadt, FADT_SIZE);
    result(!read_fixed(paint(&out, sizeof(fixed))), "ports", 0, 0, 0);
    memcpy(&expected, out.at, sizeof(fixed));
    for (spot = spots; spot < spots + RESET; spot++) {
        const uint8_t was = coded_fadt[spot->length];
        for (k = 0; k < sizeof lengths; k++) {
            const union coded_output before = expected;
            const uint8_t length = lengths[k];
            for (other = spots; other < spots + RESET; other++) {
                struct zacpi_register *shown = (void *)(expected.bytes + other->in_record);
                struct zacpi_gpe_block *block = (void *)(expected.bytes + other->block);
                if (other->length != spot->length) continue;
                shown->at.address = other->at.address, shown->at.space = 1, shown->at.bit_width = (uint8_t)(8 * length);
                shown->at.bit_offset = shown->at.access_size = 0, shown->present = 1;
                if (length > 31) refuse(shown);
                if (spot == spots + PM_TIMER && length != 4) refuse(shown), shown->present = 0;
                if (!other->block) continue;
                block->byte_length = length;
                if (!length) block->address = 0, block->space = block->present = 0;
            }
            coded_fadt[spot->length] = length;
            check_coded(readers, ZACPI_OK, spot->length, length);
            expected = before;
        }
        coded_fadt[spot->length] = was;
    }
    lay_every_register(coded_fadt);
}

/* A front of the table, of each length from that of version 1 on: an X_ field counts if all its bytes are there, and so
 * does a sleep register; all others are read with zeros past the end. */
static void check_fronts(void) {
    size_t length;
    for (length = 116; length <= FADT_SIZE; length++) {
        uint8_t front[FADT_SIZE] = {0};
        const struct zacpi_region regions[] = {coded.regions[0], {0x2000, front, length}};
        struct zacpi_source source = coded;
        struct zacpi_signature named;
        const fixed *shown;
        const struct spot *spot;
        zacpi_status got;
        memcpy(front, coded_fadt, length);
        put(front + 4, 4, length);
        for (spot = spots; spot < spots + SPOTS; spot++)
            if (spot->port && spot->x + 12 <= length) front[spot->x + 4] |= 0x08; /* the address of the X_ field */
        sum_up(front, length);
        source.regions = all_at_edge(regions, 2), source.regions_length = 2;
        got = zacpi_get_fixed_hardware(&source, (fixed *)paint(&out, sizeof(fixed)), &named);
        memcpy(&expected, out.at, sizeof(fixed));
        shown = &expected.fixed;
        result(!got && shown->minor_revision == (length > 131 ? fadt_bytes[131] : 0)
               && shown->reset_value == (length > 128 ? 6 : 0), "front", (int)length, 0, got);
        for (spot = spots; spot < spots + SPOTS; spot++) {
            const struct zacpi_register *at = (void *)(expected.bytes + spot->in_record);
            const int is_whole = spot->x + 12 <= length;
            if (spot == spots + RESET && !is_whole) continue; /* it may have a part of its bytes */
            result(at->present == (spot->port || is_whole)
                   && at->at.address == (spot->port && is_whole ? spot->at.address | 8
                                         : spot->port || is_whole ? spot->at.address : 0)
                   && at->at.access_size == (is_whole ? spot->at.access_size : 0), "front", (int)length, spot->x, got);
        }
    }
}

/* ---- Written --------------------------------------------------------------------------------------------- */

/* It is written as it was laid out, with a byte of a register or of its block changed to another code; a block that
 * isn't one of ports then isn't in its field of 32 bits. A `present` above 1 is no code, but pm1a's and the reset's
 * aren't looked at. */
static void check_written_code(const struct zacpi_fixed_hardware *given, int holds, const struct spot *spot,
                               size_t byte, unsigned value) {
    uint8_t bytes[FADT_SIZE];
    size_t *length = paint_size(&out_count);
    zacpi_status got;
    lay_every_register(bytes);
    if (byte <= 3) {
        bytes[spot->x + byte] = (uint8_t)value;
        if (!byte && spot->port && value != 1) put(bytes + spot->port, 4, 0);
        sum_up(bytes, FADT_SIZE);
    }
    got = zacpi_write_fadt(ids, given, (uint8_t *)paint(&out, FADT_SIZE), FADT_SIZE, length);
    result(got == (holds ? ZACPI_OK : (zacpi_status)ZACPI_UNKNOWN_CODE) && *length == (holds ? FADT_SIZE : UNCOUNTED)
           && is_left_but(&out, holds ? FADT_SIZE : 0) && (!holds || !memcmp(out.at, bytes, FADT_SIZE)), "written",
           (int)(spot->x + byte), value, got);
}
/* A register that isn't there is written as zeros, and neither its codes nor its width are looked at; PM1_EVT_LEN and
 * PM1_CNT_LEN are those of PM1a. */
static void check_absent(const union coded_output *given, const struct spot *spot) {
    union coded_output without = *given;
    struct zacpi_register *shown = (void *)(without.bytes + spot->in_record);
    struct zacpi_gpe_block *block = (void *)(without.bytes + spot->block);
    const int is_pm1b = spot == spots + 1 || spot == spots + PM1B_CONTROL;
    uint8_t bytes[FADT_SIZE];
    size_t *length = paint_size(&out_count);
    zacpi_status got;
    if (spot->block) block->space = 0x0b, block->present = 0;
    else shown->at.space = 0x0b, shown->at.access_size = 5, shown->present = 0;
    lay_every_register(bytes);
    memset(bytes + spot->x, 0, 12);
    if (spot->port) put(bytes + spot->port, 4, 0);
    if (spot->port && !is_pm1b) bytes[spot->length] = 0;
    sum_up(bytes, FADT_SIZE);
    got = zacpi_write_fadt(ids, &without.fixed, (uint8_t *)paint(&out, FADT_SIZE), FADT_SIZE, length);
    result(!got && *length == FADT_SIZE && !memcmp(out.at, bytes, FADT_SIZE), "absent", (int)spot->x, 0, got);
}

static void check_written_codes(void) {
    static const uint8_t no_presences[] = {2, 3, 255};
    union coded_output given;
    const struct spot *spot;
    size_t k;
    given.fixed = pc_fadt;
    given.fixed.gpe1_block.address = 0x640, given.fixed.gpe1_block.space = 1, given.fixed.gpe1_block.byte_length = 8;
    for (spot = spots; spot < spots + SPOTS; spot++) {
        struct zacpi_register *shown = (void *)(given.bytes + spot->in_record);
        if (!spot->block) shown->at = spot->at, shown->present = 1;
    }
    for (spot = spots; spot < spots + SPOTS; spot++) {
        const union coded_output before = given;
        const int is_looked_at = spot != spots && spot != spots + PM1A_CONTROL && spot != spots + RESET;
        struct zacpi_register *shown = (void *)(given.bytes + spot->in_record);
        struct zacpi_gpe_block *block = (void *)(given.bytes + spot->block);
        if (is_looked_at) check_absent(&given, spot);
        for (k = 0; k < sizeof codes; k++) {
            *(spot->block ? &block->space : &shown->at.space) = codes[k];
            check_written_code(&given.fixed, is_space(codes[k]), spot, 0, codes[k]);
            given = before;
            if (spot->block) continue;
            shown->at.access_size = codes[k];
            check_written_code(&given.fixed, is_access_size(codes[k]), spot, 3, codes[k]);
            given = before;
            shown->at.space = 0xc0, shown->at.access_size = codes[k]; /* of an OEM */
            if (!is_access_size(codes[k])) check_written_code(&given.fixed, 0, spot, 3, codes[k]);
            given = before;
        }
        for (k = 0; k < sizeof no_presences; k++) {
            *(spot->block ? &block->present : &shown->present) = no_presences[k];
            check_written_code(&given.fixed, !is_looked_at, spot, sizeof(struct zacpi_register), no_presences[k]);
            given = before;
        }
    }
}

static void check_all_codes(void) {
    lay_coded();
    check_read_codes();
    check_console_codes();
    check_lengths_of_ports();
    check_fronts();
    check_written_codes();
}
#endif
