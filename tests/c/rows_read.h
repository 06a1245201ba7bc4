/* Rows of what is read of a table that was written: an XSDT lists it, and what a call of zacpi.h then returns is worked
 * out by hand from what was passed. For rows_written.h. */
#ifndef ROWS_READ_H
#define ROWS_READ_H

/* Of `listed`: the first is the boot processor, whatever is_boot is; ids that have no place in a Processor Local APIC
 * are in a Processor Local x2APIC; and Online Capable is bit 1 of Flags. */
static const struct zacpi_processor read_processors[] = {
    {7, 2, ZACPI_PROCESSOR_RUNNING, 1, 0, 0},     {255, 0x1234, ZACPI_PROCESSOR_DISABLED, 0, 1, 1},
    {255, 254, ZACPI_PROCESSOR_WAITING, 0, 0, 1}, {254, 255, ZACPI_PROCESSOR_WAITING, 0, 0, 1},
    {254, 254, ZACPI_PROCESSOR_DISABLED, 0, 1, 0}, {6, 5, ZACPI_PROCESSOR_WAITING, 0, 0, 1}};
/* Of `lines_of_nmis`: the first one's processors are all. */
static const struct zacpi_nmi_line read_lines[] = {
    {0, 1, 1, ZACPI_POLARITY_HIGH, ZACPI_TRIGGER_EDGE}, {255, 0, 0, ZACPI_POLARITY_BUS, ZACPI_TRIGGER_BUS},
    {254, 0, 1, ZACPI_POLARITY_LOW, ZACPI_TRIGGER_BUS},
    {0xfffffffe, 0, 1, ZACPI_POLARITY_HIGH, ZACPI_TRIGGER_LEVEL}};
static const struct zacpi_local_apic read_local_apic[] = {{0x1fee00000, 1}};
static const uint64_t read_mailbox[] = {0x7000};
/* Of `pc_fadt`: what isn't there is zeros, but for the registers of reduced hardware; the GPE blocks are registers too,
 * the second one as wide as a width can be; and reserved flags are 0. */
static const struct zacpi_fixed_hardware read_pc[] = {
    {.facs_address = 0x7ff00040, .dsdt_address = 0x7fe00090, .pm1a_event = {{0x600, 1, 32, 0, 2}, 1},
     .pm1a_control = {{0x604, 1, 16, 0, 2}, 1}, .pm2_control = PORT(0x650, 8, 1), .pm_timer = PORT(0x608, 32, 3),
     .gpe0 = PORT(0x620, 128, 0), .gpe1 = {{0x100000000, 0, 255, 0, 0}, 1}, .reset = {{0xcf9, 1, 8, 0, 1}, 1},
     .sleep_control = {{0, 0, 0, 0, 0}, 1}, .sleep_status = {{0, 0, 0, 0, 0}, 1}, .gpe0_block = {0x620, 1, 16, 1},
     .gpe1_block = {0x100000000, 0, 40, 1}, .smi_command = 0xb2, .flags = 0x255555, .sci_interrupt = 0x1409,
     .x86_boot_flags = 0x15, .arm_boot_flags = 1, PC_NUMBERS, .revision = 6, .minor_revision = 4}};
/* Of `reduced_fadt`: its fixed hardware is zeros, of which PM1a_EVT_BLK and PM1a_CNT_BLK are ports. */
static const struct zacpi_fixed_hardware read_reduced[] = {
    {.facs_address = 0x200000040, .dsdt_address = 0x100000010, .pm1a_event = PORT(0, 0, 0),
     .pm1a_control = PORT(0, 0, 0), .reset = {{0, 0, 0, 0, 0}, 1}, .sleep_control = {{0xfed00000, 0, 8, 0, 1}, 1},
     .sleep_status = {{0x0807060504030201, 0x7f, 64, 3, 4}, 1}, .flags = 0x1aaaaa, .sci_interrupt = 9,
     .x86_boot_flags = 0x2a, .arm_boot_flags = 2, .power_profile = 200, .reset_value = 0x77, .revision = 6,
     .minor_revision = 4}};

static const struct read_row {
    zacpi_status (*write)(uint8_t *to, size_t room, size_t *length);
    const struct call *call;
    const void *records;
    size_t count;
} read_rows[] = {
#define READ(verb, call, records) {verb, &call_##call, LISTED(records)}
    READ(a_madt, list_processors, read_processors), READ(a_madt, list_nmi_lines, read_lines),
    READ(a_madt, list_nmi_sources, sources_of_nmis), READ(a_madt, list_overrides, wirings),
    READ(a_madt, list_io_apics, controllers), READ(a_madt, get_local_apic, read_local_apic),
    READ(a_madt, get_mailbox_address, read_mailbox), READ(a_fadt, get_fixed_hardware, read_pc),
    READ(a_reduced_fadt, get_fixed_hardware, read_reduced), READ(an_mcfg, list_pci_regions, buses),
    {an_hpet, &call_get_hpet, &timers_block, 1}, {an_unprotected_hpet, &call_get_hpet, &unprotected, 1},
    {an_hpet, &call_list_hpets, &timers_block, 1}, {a_bgrt_at_270, &call_get_boot_graphic, &image_at_270, 1},
    {a_gic, &call_get_gic_distributor, &whole_gic.distributor, 1}, READ(a_gic, list_gic_redistributors, redistributors),
    READ(a_gic, list_gic_translation_services, services), READ(a_riscv_madt, list_rintcs, rintcs),
    READ(a_riscv_madt, list_imsics, imsics), READ(a_riscv_madt, list_aplics, aplics),
    READ(a_riscv_madt, list_plics, plics)};

/* Whether the first items of `out` are these records, and all bytes after them are as they were. */
static int are_read(const struct call *call, const uint8_t *records, size_t count) {
    size_t i;
    const struct field *f;
    for (i = 0; i < count; i++)
        for (f = call->fields; f->size; f++)
            if (memcmp(out.at + i * call->size + f->at, records + i * call->size + f->at, f->size)) return 0;
    return is_left_but(&out, count * call->size);
}

/* The XSDT of 44 bytes is at `base`, and the table 48 on. */
static void check_read_at(uint64_t base) {
    static uint8_t written_tables[48 + 400];
    const uint64_t address = base + 48;
    static const struct row no_argument;
    size_t i;
    for (i = 0; i < sizeof read_rows / sizeof *read_rows; i++) {
        const struct read_row *row = read_rows + i;
        struct zacpi_signature named = {{'?', '?', '?', '?'}};
        size_t length = 0, *count = paint_size(&out_count);
        zacpi_status got = zacpi_write_xsdt(ids, &address, 1, written_tables, 48, &length);
        if (!got) got = row->write(written_tables + 48, sizeof written_tables - 48, &length);
        if (!got) {
            const struct zacpi_region region = {base, written_tables, 48 + length};
            const struct zacpi_source source = {all_at_edge(&region, 1), 1, base, ZACPI_START_XSDT, 0};
            got = row->call->run(&no_argument, &source, paint(&out, row->count * row->call->size), row->count, count,
                                 &named);
        }
        result(!got && *count == (row->call->is_list ? row->count : UNCOUNTED)
               && are_read(row->call, row->records, row->count), row->call->name, (int)i, row->count, got);
    }
}
/* Below 4 GiB, and above. */
static void check_all_read(void) { check_read_at(0x7fe00000), check_read_at(0x97fe00000); }
#endif
