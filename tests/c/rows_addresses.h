/* Each byte of each address of a FADT: a register that is at a place of which one byte isn't 0, as it is read and as it
 * is written, and RESET_REG with each part of its bytes. For rows_written.h, after rows_codes.h. */
#ifndef ROWS_ADDRESSES_H
#define ROWS_ADDRESSES_H

/* A register in memory, at an address with one byte of 0x80, or with each byte another. */
static uint64_t placed_at(size_t byte) { return byte < 8 ? (uint64_t)0x80 << 8 * byte : 0x9182736455463728; }
static struct zacpi_generic_address in_memory(const struct spot *spot, size_t byte) {
    struct zacpi_generic_address at = spot->at;
    at.address = placed_at(byte), at.space = 0;
    return at;
}

/* ---- Read ------------------------------------------------------------------------------------------------ */

/* An X_ field counts if its Address isn't 0, whichever of its bytes isn't. */
static void check_read_address(const struct reader *reader, const struct spot *spot, size_t byte) {
    const int is_fixed = reader->spot == SPOTS;
    const struct zacpi_generic_address at = in_memory(spot, byte);
    const union coded_output before = expected;
    struct zacpi_register *shown = (void *)(expected.bytes + (is_fixed ? spot->in_record : reader->at));
    struct zacpi_gpe_block *block = (void *)(expected.bytes + spot->block);
    uint8_t was[12];
    memcpy(was, coded_fadt + spot->x, 12);
    lay_register(coded_fadt + spot->x, &at);
    shown->at.address = at.address, shown->at.space = 0;
    if (is_fixed && spot->block) block->address = at.address, block->space = 0;
    check_coded(reader, ZACPI_OK, spot->x, (unsigned)byte);
    memcpy(coded_fadt + spot->x, was, 12);
    expected = before;
}
static void check_read_addresses(void) {
    const struct reader *reader;
    size_t i, byte;
    for (reader = readers; reader < readers + sizeof readers / sizeof *readers; reader++) {
        if (reader->is_reduced) coded_fadt[114] ^= 0x10; /* Flags: HW_REDUCED_ACPI */
        sum_up(coded_fadt, FADT_SIZE);
        result(!reader->run(paint(&out, reader->size)), reader->name, 0, 0, 0);
        memcpy(&expected, out.at, reader->size);
        for (i = 0; i < SPOTS; i++)
            for (byte = 0; byte <= 8; byte++)
                if (reader->spot == SPOTS || reader->spot == i) check_read_address(reader, spots + i, byte);
        if (reader->is_reduced) coded_fadt[114] ^= 0x10;
    }
    sum_up(coded_fadt, FADT_SIZE);
}

/* X_FIRMWARE_CTRL at 132 and X_DSDT at 140 count unless they are 0, before FIRMWARE_CTRL at 36 and DSDT at 40. */
static void check_read_pointers(void) {
    size_t byte, k;
    result(!read_fixed(paint(&out, sizeof(fixed))), "pointers", 0, 0, 0);
    memcpy(&expected, out.at, sizeof(fixed));
    for (k = 0; k < 2; k++)
        for (byte = 0; byte <= 8; byte++) {
            const union coded_output before = expected;
            uint8_t *const x = coded_fadt + (k ? 140 : 132), was[8];
            memcpy(was, x, 8);
            put(x, 8, placed_at(byte));
            *(k ? &expected.fixed.dsdt_address : &expected.fixed.facs_address) = placed_at(byte);
            check_coded(readers, ZACPI_OK, k ? 140 : 132, (unsigned)byte);
            memcpy(x, was, 8), expected = before;
        }
    sum_up(coded_fadt, FADT_SIZE);
}

/* A FADT that ends in RESET_REG, at 116, has the bytes of it that are there, and zeros after them. */
static void check_reset_fronts(void) {
    static const uint8_t whole[12] = {4, 0xa2, 0xb3, 3, 0x11, 0x22, 0x33, 0x44, 0x55, 0x66, 0x77, 0x88};
    size_t length;
    for (length = 116; length <= 129; length++) {
        uint8_t front[129], reset[12] = {0};
        const struct zacpi_region regions[] = {coded.regions[0], {0x2000, front, length}};
        struct zacpi_source source = coded;
        struct zacpi_signature named;
        const struct zacpi_register *shown;
        zacpi_status got;
        memcpy(front, coded_fadt, 129), memcpy(front + 116, whole, 12);
        memcpy(reset, whole, length < 128 ? length - 116 : 12);
        put(front + 4, 4, length), sum_up(front, length);
        source.regions = all_at_edge(regions, 2), source.regions_length = 2;
        got = zacpi_get_fixed_hardware(&source, (fixed *)paint(&out, sizeof(fixed)), &named);
        shown = &((const fixed *)(const void *)out.at)->reset;
        result(!got && shown->present == 1 && shown->at.space == reset[0] && shown->at.bit_width == reset[1]
               && shown->at.bit_offset == reset[2] && shown->at.access_size == reset[3]
               && shown->at.address == number_at(reset + 4, 8), "a reset's front", (int)length, 0, got);
    }
}

/* ---- Written --------------------------------------------------------------------------------------------- */

/* A block is in its field of 32 bits if it is one of ports and fits there. */
static void check_written_address(const struct zacpi_fixed_hardware *given, const struct spot *spot, size_t byte,
                                  uint8_t space) {
    union coded_output changed = {*given};
    struct zacpi_register *shown = (void *)(changed.bytes + spot->in_record);
    struct zacpi_gpe_block *block = (void *)(changed.bytes + spot->block);
    struct zacpi_generic_address at = in_memory(spot, byte);
    uint8_t bytes[FADT_SIZE];
    const int holds = is_space(at.space = space);
    size_t *length = paint_size(&out_count);
    zacpi_status got;
    lay_every_register(bytes);
    lay_register(bytes + spot->x, &at);
    if (spot->port) put(bytes + spot->port, 4, space == 1 && at.address < FOUR_GIB ? at.address : 0);
    sum_up(bytes, FADT_SIZE);
    if (spot->block) block->address = at.address, block->space = space;
    else shown->at = at;
    got = zacpi_write_fadt(ids, &changed.fixed, (uint8_t *)paint(&out, FADT_SIZE), FADT_SIZE, length);
    result(got == (holds ? ZACPI_OK : (zacpi_status)ZACPI_UNKNOWN_CODE) && *length == (holds ? FADT_SIZE : UNCOUNTED)
           && is_left_but(&out, holds ? FADT_SIZE : 0) && (!holds || !memcmp(out.at, bytes, FADT_SIZE)),
           "a written address", (int)spot->x, byte, got);
}
/* The DSDT's address, and the FACS', in a field of 64 bits, and in one of 32 if it fits. */
static void check_written_pointers(const struct zacpi_fixed_hardware *given, size_t byte) {
    struct zacpi_fixed_hardware changed = *given;
    const uint64_t at = placed_at(byte);
    uint8_t bytes[FADT_SIZE];
    size_t k, *length;
    zacpi_status got;
    for (k = 0; k < 2; k++) {
        changed = *given;
        *(k ? &changed.dsdt_address : &changed.facs_address) = at;
        lay_every_register(bytes);
        put(bytes + (k ? 40 : 36), 4, at < FOUR_GIB ? at : 0), put(bytes + (k ? 140 : 132), 8, at);
        sum_up(bytes, FADT_SIZE);
        length = paint_size(&out_count);
        got = zacpi_write_fadt(ids, &changed, (uint8_t *)paint(&out, FADT_SIZE), FADT_SIZE, length);
        result(!got && *length == FADT_SIZE && !memcmp(out.at, bytes, FADT_SIZE), "a written pointer", (int)k, byte,
               got);
    }
}
static void check_written_addresses(void) {
    static const uint8_t spaces[] = {0, 1, 0x0b};
    union coded_output given;
    const struct spot *spot;
    size_t byte, k;
    given.fixed = pc_fadt;
    given.fixed.gpe1_block.address = 0x640, given.fixed.gpe1_block.space = 1, given.fixed.gpe1_block.byte_length = 8;
    for (spot = spots; spot < spots + SPOTS; spot++) {
        struct zacpi_register *shown = (void *)(given.bytes + spot->in_record);
        if (!spot->block) shown->at = spot->at, shown->present = 1;
    }
    for (byte = 0; byte <= 8; byte++) {
        for (spot = spots; spot < spots + SPOTS; spot++)
            for (k = 0; k < sizeof spaces; k++) check_written_address(&given.fixed, spot, byte, spaces[k]);
        check_written_pointers(&given.fixed, byte);
    }
}

static void check_addresses(void) {
    lay_coded();
    check_read_addresses();
    check_read_pointers();
    check_reset_fronts();
    check_written_addresses();
}
#endif
