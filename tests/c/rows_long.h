/* Tables of 2^32 bytes, which no Length has, lists of 2^32 items, and a capacity that is as large: what is passed are
 * pages that nobody touches, since each call fails before it writes, or reads more of them than their first bytes; they
 * are never given back. For rows_written.h, with addresses of 64 bits alone, and where there is so much address
 * space. */
#ifndef ROWS_LONG_H
#define ROWS_LONG_H

#define FOUR_GIB ((uint64_t)1 << 32)
static uint8_t *untouched;
#define LONG(verb, call, ...) \
    static zacpi_status verb(size_t *length) \
    { return zacpi_write_##call(ids, __VA_ARGS__, untouched, (size_t)(FOUR_GIB + 64), length); }
/* The header has 36 bytes, and a SLIT 8 more. */
LONG(a_long_table, table, tpm2, 4, untouched, (size_t)(FOUR_GIB - 36))
LONG(a_long_dsdt, dsdt, 2, untouched, (size_t)(FOUR_GIB - 36))
LONG(a_long_ssdt, ssdt, 2, untouched, (size_t)(FOUR_GIB - 36))
LONG(a_long_rsdt, rsdt, (const uint32_t *)(const void *)untouched, (size_t)((FOUR_GIB - 36) / 4))
LONG(a_long_xsdt, xsdt, (const uint64_t *)(const void *)untouched, (size_t)((FOUR_GIB - 32) / 8))
LONG(a_long_slit, slit, 0x10000, untouched, (size_t)FOUR_GIB)


/* Lists of as few items that the table is too long: after so many bytes, which are a header, the fields before the
 * entries, and the entries of one processor, as many of so many bytes as make 2^32. */
#define LONG_LIST(verb, call, type, base, items, before, size) \
    static zacpi_status verb(size_t *length) { \
        struct type contents = base; \
        contents.items = (const void *)untouched; \
        contents.items##_length = (size_t)((FOUR_GIB - (before) + (size) - 1) / (size)); \
        return zacpi_write_##call(ids, &contents, untouched, (size_t)(FOUR_GIB + 64), length); \
    }
LONG_LIST(a_long_madt, madt, zacpi_madt_contents, small_madt, io_apics, 44 + 8, 12)
LONG_LIST(a_long_gic, gic_madt, zacpi_gic_contents, small_gic, translation_services, 44 + 24 + 80, 20)
LONG_LIST(a_long_riscv_madt, riscv_madt, zacpi_riscv_contents, harts_alone, imsics, 44 + 36, 16)
LONG_LIST(a_long_rhct, rhct, zacpi_rhct_contents, rhct_without_isa, harts, 56 + 10, 16)
/* Where 2^32 bytes are no whole number of entries, these two have as many still: a GICD, a GICC, two MSI frames of 24
 * bytes, and translation services of 20; and an ISA string of 15 letters, in a node of 24 bytes, and harts of 16. */
static zacpi_status an_exact_gic(size_t *length) {
    struct zacpi_gic_contents contents = small_gic;
    contents.msi_frames = (const void *)untouched, contents.msi_frames_length = 2;
    contents.translation_services = (const void *)untouched;
    contents.translation_services_length = (size_t)((FOUR_GIB - (44 + 24 + 80 + 2 * 24)) / 20);
    return zacpi_write_gic_madt(ids, &contents, untouched, (size_t)(FOUR_GIB + 64), length);
}
static zacpi_status an_exact_rhct(size_t *length) {
    const struct zacpi_rhct_contents contents = {untouched, 15, (const void *)untouched,
                                                 (size_t)((FOUR_GIB - (56 + 24)) / 16), 1, 0};
    return zacpi_write_rhct(ids, &contents, untouched, (size_t)(FOUR_GIB + 64), length);
}
LONG(a_long_mcfg, mcfg, (const struct zacpi_pci_region *)(const void *)untouched, (size_t)((FOUR_GIB - 44 + 15) / 16))

/* The DSDT of a machine, whose AML's first bytes alone are read. */
#define LONG_MACHINE(verb, answer) \
    static zacpi_status verb(size_t *length) { \
        const struct zacpi_aml_contents dsdt = {untouched, (size_t)(FOUR_GIB - 36), 2}; \
        const struct zacpi_machine machine = {makers, {0}, NULL, 0, &dsdt, 1, NULL, 0}; \
        return answer; \
    }
LONG_MACHINE(a_long_machine, zacpi_write_tables(&machine, 0x7fe00000, untouched, (size_t)FOUR_GIB, length))
LONG_MACHINE(a_long_tree, zacpi_write_tables_without_rsdp(&machine, 0x7fe00000, untouched, (size_t)FOUR_GIB, length))
LONG_MACHINE(a_long_size, zacpi_tables_size(&machine, length))

/* ---- AML of more than 2^32 bytes, whose Length would be right but for its upper half ----------------------------- */

static const uint8_t front_of_dsdt[8] = {'D', 'S', 'D', 'T', 64}, front_of_ssdt[8] = {'S', 'S', 'D', 'T', 64};
#define LONG_FRONT(verb, call, front) \
    static zacpi_status verb(size_t *length) \
    { return zacpi_write_##call(ids, 2, front, (size_t)(FOUR_GIB + 64), untouched, (size_t)(FOUR_GIB + 256), length); }
LONG_FRONT(a_long_front_of_dsdt, dsdt, front_of_dsdt)
LONG_FRONT(a_long_front_of_ssdt, ssdt, front_of_ssdt)
static zacpi_status a_long_front_of_a_machine(size_t *length) {
    const struct zacpi_aml_contents dsdt = {front_of_dsdt, (size_t)(FOUR_GIB + 64), 2};
    const struct zacpi_machine machine = {makers, {0}, NULL, 0, &dsdt, 1, NULL, 0};
    return zacpi_tables_size(&machine, length);
}

/* ---- Lists of 2^32 items ----------------------------------------------------------------------------------------- */

/* Each item of such a list would be looked at, so the first one is at fault; or 2^32 items of more than a byte have no
 * room in 2^32 + 64, which comes before that the table is too long. For that items are counted, and none is
 * looked at. */
static const struct zacpi_processor of_all[] = {{0xffffffff, 1, ZACPI_PROCESSOR_RUNNING, 0, 0, 0}};
static const struct zacpi_gic_cpu_interface no_mode[] = {{0, 0, 0, 0, 0, 0, 1, 2, 0, 0, 0, 0, 0, 0, 0, 2, 1, 0}};
static const struct zacpi_platform_timer no_kind[] = {{2, {0}, 0, NULL, 0, NO_WATCHDOG}};
static const struct zacpi_gt_frame no_frame[] = {{0, 0, 0, 0, 0, 0, 2, 1, 1, 1, 0, 0}};
#define OF_2_32(verb, call, type, base, list, items) \
    static zacpi_status verb(size_t *length) { \
        struct type contents = base; \
        contents.list = (const void *)(items), contents.list##_length = (size_t)FOUR_GIB; \
        return zacpi_write_##call(ids, &contents, untouched, (size_t)(FOUR_GIB + 64), length); \
    }
OF_2_32(all_processors, madt, zacpi_madt_contents, small_madt, processors, of_all)
OF_2_32(all_io_apics, madt, zacpi_madt_contents, small_madt, io_apics, untouched)
OF_2_32(all_overrides, madt, zacpi_madt_contents, small_madt, overrides, no_isa)
OF_2_32(all_sources, madt, zacpi_madt_contents, small_madt, nmi_sources, no_source_polarity)
OF_2_32(all_nmi_lines, madt, zacpi_madt_contents, small_madt, nmi_lines, no_lint)
OF_2_32(all_interfaces, gic_madt, zacpi_gic_contents, small_gic, cpu_interfaces, no_mode)
OF_2_32(all_redistributors, gic_madt, zacpi_gic_contents, small_gic, redistributors, long_redistributors + 1)
OF_2_32(all_services, gic_madt, zacpi_gic_contents, small_gic, translation_services, untouched)
OF_2_32(all_msi_frames, gic_madt, zacpi_gic_contents, small_gic, msi_frames, untouched)
OF_2_32(all_rintcs, riscv_madt, zacpi_riscv_contents, harts_alone, rintcs, untouched)
OF_2_32(all_imsics, riscv_madt, zacpi_riscv_contents, harts_alone, imsics, untouched)
OF_2_32(all_aplics, riscv_madt, zacpi_riscv_contents, harts_alone, aplics, untouched)
OF_2_32(all_plics, riscv_madt, zacpi_riscv_contents, harts_alone, plics, untouched)
OF_2_32(all_harts, rhct, zacpi_rhct_contents, rhct_without_isa, harts, untouched)
OF_2_32(all_isas, rhct, zacpi_rhct_contents, rhct_without_isa, isa, untouched)
OF_2_32(all_apics, srat, zacpi_srat_contents, empty_srat, apics, domain_of_all_ids + 1)
OF_2_32(all_giccs, srat, zacpi_srat_contents, empty_srat, giccs, domain_of_all_uids + 1)
OF_2_32(all_memory, srat, zacpi_srat_contents, empty_srat, ranges, untouched)
OF_2_32(all_platform_timers, gtdt, zacpi_gtdt_contents, all_timers, platform_timers, no_kind)
LONG(all_of_an_rsdt, rsdt, (const uint32_t *)(const void *)untouched, (size_t)FOUR_GIB)
LONG(all_of_an_xsdt, xsdt, (const uint64_t *)(const void *)untouched, (size_t)FOUR_GIB)
LONG(all_of_a_dsdt, dsdt, 2, untouched, (size_t)FOUR_GIB)
LONG(all_of_an_ssdt, ssdt, 2, untouched, (size_t)FOUR_GIB)
LONG(all_of_a_table, table, tpm2, 4, untouched, (size_t)FOUR_GIB)
LONG(all_of_an_mcfg, mcfg, (const struct zacpi_pci_region *)(const void *)untouched, (size_t)FOUR_GIB)
LONG(no_matrix, slit, 0, untouched, (size_t)FOUR_GIB)
static zacpi_status all_frames(size_t *length) {
    const struct zacpi_platform_timer block = {0, {0}, 0, no_frame, (size_t)FOUR_GIB, NO_WATCHDOG};
    struct zacpi_gtdt_contents contents = all_timers;
    contents.platform_timers = &block, contents.platform_timers_length = 1;
    return zacpi_write_gtdt(ids, &contents, untouched, (size_t)(FOUR_GIB + 64), length);
}
static zacpi_status all_listed(size_t *length) {
    static const struct zacpi_listed_table unsummed = {unsummed_bytes, 36};
    const struct zacpi_machine machine = {makers, {0}, &unsummed, (size_t)FOUR_GIB, NULL, 0, NULL, 0};
    return zacpi_tables_size(&machine, length);
}
/* A table of 36 bytes, as which so many more are listed. */
#define LONG_LISTED(verb, answer) \
    static zacpi_status verb(size_t *length) { \
        static const struct zacpi_listed_table listed = {oem_bytes, (zacpi_size)(FOUR_GIB + 36)}; \
        const struct zacpi_machine machine = {makers, {0}, &listed, 1, NULL, 0, NULL, 0}; \
        return answer; \
    }
LONG_LISTED(a_long_listed_machine, zacpi_write_tables(&machine, 0x7fe00000, untouched, (size_t)FOUR_GIB, length))
LONG_LISTED(a_long_listed_tree,
            zacpi_write_tables_without_rsdp(&machine, 0x7fe00000, untouched, (size_t)FOUR_GIB, length))
LONG_LISTED(a_long_listed_size, zacpi_tables_size(&machine, length))

static void check_long(const char *name, int which, zacpi_status (*run)(size_t *length), zacpi_status status) {
    size_t *length = paint_size(&out_count);
    const zacpi_status got = run(length);
    result(got == status && *length == UNCOUNTED, name, which, 0, got);
}
static void check_all_of(void) {
    static const struct { zacpi_status (*run)(size_t *length); zacpi_status status; } all[] = {
        {all_processors, ZACPI_ID_OF_ALL}, {all_io_apics, ZACPI_NO_ROOM}, {all_overrides, ZACPI_UNKNOWN_CODE},
        {all_sources, ZACPI_UNKNOWN_CODE}, {all_nmi_lines, ZACPI_UNKNOWN_CODE}, {all_interfaces, ZACPI_UNKNOWN_CODE},
        {all_redistributors, ZACPI_BAD_RANGE}, {all_services, ZACPI_NO_ROOM}, {all_msi_frames, ZACPI_NO_ROOM},
        {all_rintcs, ZACPI_NO_ROOM}, {all_imsics, ZACPI_NO_ROOM}, {all_aplics, ZACPI_NO_ROOM},
        {all_plics, ZACPI_NO_ROOM}, {all_harts, ZACPI_TOO_LONG}, {all_isas, ZACPI_TOO_LONG},
        {all_apics, ZACPI_ID_OF_ALL}, {all_giccs, ZACPI_ID_OF_ALL}, {all_memory, ZACPI_BAD_RANGE},
        {all_platform_timers, ZACPI_UNKNOWN_CODE}, {all_of_an_rsdt, ZACPI_NO_ROOM}, {all_of_an_xsdt, ZACPI_NO_ROOM},
        {all_of_a_dsdt, ZACPI_TOO_LONG}, {all_of_an_ssdt, ZACPI_TOO_LONG}, {all_of_a_table, ZACPI_TOO_LONG},
        {all_of_an_mcfg, ZACPI_NO_ROOM}, {no_matrix, ZACPI_BAD_MATRIX}, {all_frames, ZACPI_UNKNOWN_CODE},
        {all_listed, ZACPI_BAD_TABLE}, {a_long_listed_machine, ZACPI_BAD_TABLE}, {a_long_listed_tree, ZACPI_BAD_TABLE},
        {a_long_listed_size, ZACPI_BAD_TABLE}, {a_long_front_of_dsdt, ZACPI_TOO_LONG},
        {a_long_front_of_ssdt, ZACPI_TOO_LONG}, {a_long_front_of_a_machine, ZACPI_TOO_LONG}};
    size_t i;
    for (i = 0; i < sizeof all / sizeof *all; i++)
        check_long("2^32 items", (int)i, all[i].run, all[i].status);
}

/* ---- A capacity of 2^32 bytes: as any that is enough, with the bytes after the table as they were ---------------- */

static void check_written_to_all(const struct written_row *rows_of, size_t count) {
    static const uint8_t more[] = {0, 1, 36, 48, 60, 96, 128, 144, 224};
    size_t i;
    for (i = 0; i < count * sizeof more; i++) {
        const struct written_row *row = rows_of + i / sizeof more;
        size_t *length = paint_size(&out_count);
        uint8_t *to = (uint8_t *)paint(&out, row->length + 16);
        const zacpi_status got = row->run(to, (size_t)(FOUR_GIB + more[i % sizeof more]), length);
        result(got == row->status && *length == (got ? UNCOUNTED : row->length)
               && (got || !memcmp(to, row->bytes, row->length)) && is_left_but(&out, got ? 0 : row->length), row->name,
               (int)i, (size_t)FOUR_GIB, got);
    }
}

/* A machine of more than 2^32 bytes, of which no table has as many: the RSDP and the XSDT have 48, the DSDT 2^32 - 1,
 * filled up, and the FACS 128. */
static void check_large_machine(void) {
    const struct zacpi_aml_contents dsdt = {untouched, (size_t)(FOUR_GIB - 37), 2};
    const struct zacpi_machine machine = {makers, {0}, NULL, 0, &dsdt, 1, &facs, 1};
    size_t *length = paint_size(&out_count);
    const zacpi_status got = zacpi_tables_size(&machine, length);
    result(!got && *length == (size_t)(FOUR_GIB + 48 + 48 + 128), "a large machine", 0, 0, got);
}

/* Of many DSDTs and FACSs the first of each counts, also of 2^56, a count that has no bit below its highest byte. The
 * RSDP, the XSDT and the DSDT have 48 bytes each. */
static void check_first_of_many(void) {
    static const unsigned shifts[] = {1, 8, 16, 24, 32, 40, 48, 56};
    const struct zacpi_aml_contents dsdt = {tpm2_body, 0, 2};
    size_t i;
    for (i = 0; i < sizeof shifts / sizeof *shifts; i++) {
        const zacpi_size many = (zacpi_size)1 << shifts[i];
        const struct zacpi_machine machine = {makers, {0}, NULL, 0, &dsdt, many, &facs, many};
        size_t *length = paint_size(&out_count);
        const zacpi_status got = zacpi_tables_size(&machine, length);
        result(!got && *length == 48 + 48 + 48 + 128, "many DSDTs and FACSs", (int)shifts[i], 0, got);
    }
}

static void check_too_long(void) {
    static const struct { const char *name; zacpi_status (*run)(size_t *length); } all[] = {
        {"table", a_long_table}, {"dsdt", a_long_dsdt}, {"ssdt", a_long_ssdt}, {"rsdt", a_long_rsdt},
        {"xsdt", a_long_xsdt}, {"slit", a_long_slit}, {"madt", a_long_madt}, {"gic_madt", a_long_gic},
        {"gic_madt", an_exact_gic}, {"riscv_madt", a_long_riscv_madt}, {"rhct", a_long_rhct},
        {"rhct", an_exact_rhct}, {"mcfg", a_long_mcfg},
        {"tables", a_long_machine}, {"tables_without_rsdp", a_long_tree}, {"tables_size", a_long_size}};
    const size_t size = (size_t)(FOUR_GIB + EDGE_PAGE);
    void *at;
    size_t i;
    check_first_of_many();
    if (size < EDGE_PAGE + 1) return; /* an address has 32 bits */
    at = mmap(NULL, size, PROT_READ, MAP_PRIVATE | MAP_ANONYMOUS | MAP_NORESERVE, -1, 0);
    if (at == MAP_FAILED) return;
    untouched = at;
    for (i = 0; i < sizeof all / sizeof *all; i++) check_long(all[i].name, (int)i, all[i].run, ZACPI_TOO_LONG);
    check_all_of();
    check_large_machine();
}
#endif
