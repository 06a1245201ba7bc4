/* Each byte of a table's header (section 5.2.6), by each call that looks the table up: with another Signature, a
 * Length past what is mapped, a wrong Checksum, or an OEMID or an OEM Table ID that isn't a text, the table isn't
 * there; by what is accepted it is, as if nothing were wrong; and other bytes change nothing. For rows_written.h, after
 * rows_walks.h. */
#ifndef ROWS_HEADERS_H
#define ROWS_HEADERS_H

static const uint8_t
    headed_dmar[64] = {'D', 'M', 'A', 'R', 64, 0, 0, 0, 1, [50] = 16, 0, 1, 0, 2, 0, 0, 0, 0xd9, 0xfe},
    headed_ivrs[72] = {'I', 'V', 'R', 'S', 72, 0, 0, 0, 2, [48] = 0x10, 1, 24, 0, 2, 0, 0x40, 0, 0, 0, 0xb8, 0xfe};
static const struct headed {
    const struct call *call;
    const uint8_t *bytes;
    size_t length;
} all_headed[] = {
#define HEADED(call, bytes) {&call_##call, bytes, sizeof bytes}
    HEADED(get_interrupt_model, madt_bytes), HEADED(get_local_apic, madt_bytes), HEADED(list_io_apics, madt_bytes),
    HEADED(list_overrides, madt_bytes), HEADED(list_nmi_sources, madt_bytes), HEADED(list_nmi_lines, madt_bytes),
    HEADED(list_processors, madt_bytes), HEADED(list_processors_from, madt_bytes),
    HEADED(list_madt_faults, madt_bytes), HEADED(get_mailbox_address, madt_bytes),
    HEADED(get_io_apic_pin, madt_bytes), HEADED(get_gic_distributor, gic_bytes),
    HEADED(list_gic_cpu_interfaces, gic_bytes), HEADED(list_gic_redistributors, gic_bytes),
    HEADED(list_gic_translation_services, gic_bytes), HEADED(list_gic_msi_frames, gic_bytes),
    HEADED(list_rintcs, riscv_bytes), HEADED(list_imsics, riscv_bytes), HEADED(list_aplics, riscv_bytes),
    HEADED(list_plics, riscv_bytes), HEADED(list_memory_affinities, srat_bytes),
    HEADED(list_processor_affinities, srat_bytes), HEADED(list_generic_initiators, srat_bytes),
    HEADED(list_its_affinities, srat_bytes), HEADED(list_srat_faults, srat_bytes),
    HEADED(domain_of_address, srat_bytes),
    HEADED(domain_of_apic, srat_bytes), HEADED(domain_of_processor, srat_bytes), HEADED(get_localities, slit_bytes),
    HEADED(distance, slit_bytes), HEADED(get_arm_timers, platform_gtdt_bytes),
    HEADED(list_gt_frames, platform_gtdt_bytes), HEADED(list_watchdogs, platform_gtdt_bytes),
    HEADED(list_gtdt_faults, platform_gtdt_bytes), HEADED(get_fixed_hardware, fadt_bytes),
    HEADED(get_pm_timer, fadt_bytes), HEADED(get_reset_plan, fadt_bytes), HEADED(get_enable_plan, fadt_bytes),
    HEADED(get_hpet, hpet_bytes), HEADED(get_console, pc_spcr_bytes), HEADED(get_boot_graphic, bgrt_bytes),
    HEADED(list_pci_regions, mcfg_bytes), HEADED(list_ecam_ranges, mcfg_bytes), HEADED(pci_ecam_address, mcfg_bytes),
    HEADED(get_dmar_flags, headed_dmar), HEADED(list_dmar_units, headed_dmar), HEADED(list_dmar_regions, headed_dmar),
    HEADED(list_dmar_root_ports, headed_dmar), HEADED(list_dmar_affinities, headed_dmar),
    HEADED(list_dmar_scopes, headed_dmar), HEADED(list_dmar_structure_scopes, headed_dmar),
    HEADED(list_dmar_faults, headed_dmar), HEADED(list_dmar_reserved, headed_dmar), HEADED(get_dmar_unit, headed_dmar),
    HEADED(get_dmar_io_apic, headed_dmar), HEADED(get_dmar_hpet, headed_dmar), HEADED(list_ivrs_units, headed_ivrs),
    HEADED(list_ivrs_regions, headed_ivrs), HEADED(list_ivrs_entries, headed_ivrs),
    HEADED(list_ivrs_memory, headed_ivrs), HEADED(list_ivrs_faults, headed_ivrs), HEADED(get_ivrs_unit, headed_ivrs)};

/* What a call returns of a table whose byte at a place is another, by what is accepted. */
static struct returned returned_of(const struct headed *of, size_t at, uint8_t value, uint32_t accepted) {
    static struct walk walk;
    struct returned got;
    memcpy(walk.bytes, of->bytes, of->length), walk.length = of->length;
    memset(walk.bytes + 10, 'A', 14), sum_up(walk.bytes, walk.length);
    walk.bytes[at] = value;
    if (at != 9) sum_up(walk.bytes, walk.length);
    accept = accepted;
    returned_by(of->call, walk.bytes, walk.length, &got);
    accept = 0;
    return got;
}
static void check_headed(const struct headed *of) {
    const int is_madt = !memcmp(of->bytes, "APIC", 4);
    const struct returned valid = returned_of(of, 36, of->bytes[36], 0), missing = returned_of(of, 0, '?', 0);
    size_t at;
    result(!valid.status || of->call != &call_get_hpet, of->call->name, 0, 0, valid.status);
    result((missing.status == ZACPI_TABLE_MISSING && !memcmp(missing.named.letters, of->bytes, 4))
           || (is_madt && of->call == &call_get_interrupt_model), of->call->name, 0, 1, missing.status);
    for (at = 0; at < 36; at++) {
        const int is_id = at >= 10 && at < 24, is_sum = at == 9, is_wrong = at < 8 || is_id || is_sum;
        const uint8_t value = (uint8_t)(is_id ? 0xff : of->bytes[at] + 1);
        struct returned got;
        if (at == 8) continue; /* Revision */
        got = returned_of(of, at, value, 0);
        result(returns_same(of->call, &got, is_wrong ? &missing : &valid), of->call->name, (int)at, value, got.status);
        got = returned_of(of, at, value, ZACPI_ACCEPT_SUMS);
        result(returns_same(of->call, &got, is_wrong && !is_sum ? &missing : &valid), of->call->name, (int)at, value,
               got.status);
        got = returned_of(of, at, value, ZACPI_ACCEPT_IDS);
        result(returns_same(of->call, &got, is_wrong && !is_id ? &missing : &valid), of->call->name, (int)at, value,
               got.status);
    }
}
/* The same of a table that has to be valid, with the error's own name: the root table, and the DSDT. */
static zacpi_status header_error(size_t at) {
    return at < 4   ? ZACPI_SDT_INVALID_SIGNATURE
           : at < 8 ? ZACPI_MAP_FAILED
           : at == 9 ? ZACPI_SDT_INVALID_CHECKSUM
           : at >= 10 && at < 16 ? ZACPI_SDT_INVALID_OEM_ID
           : at >= 16 && at < 24 ? ZACPI_SDT_INVALID_TABLE_ID : (zacpi_status)ZACPI_OK;
}
/* The tables are those of rows_codes.h: the RSDT at 0x1000, the DSDT at 0x3000, which has S5. */
static void check_needed(const struct call *call, size_t region, const char *name) {
    const struct row asked = {call, 0, NULL, {5, 0, 0, 0}, ZACPI_OK, NULL, 0, NULL, 0};
    uint8_t *bytes = (uint8_t *)(uintptr_t)coded_regions[region].bytes;
    const size_t length = (size_t)coded_regions[region].length;
    size_t at;
    for (at = 0; at < 36; at++) {
        const uint8_t was = bytes[at], sum = bytes[9];
        struct zacpi_signature named = {{'?', '?', '?', '?'}};
        const zacpi_status expects = header_error(at);
        const int is_named = expects && expects != (zacpi_status)ZACPI_MAP_FAILED;
        zacpi_status got;
        bytes[at] = (uint8_t)(at >= 10 && at < 24 ? 0xff : was + 1);
        if (at != 9) sum_up(bytes, length);
        got = call->run(&asked, &coded, paint(&out, call->size), 1, paint_size(&out_count), &named);
        result(got == expects && (!expects || is_left_but(&out, 0)), call->name, (int)at, region, got);
        if (expects) result(!memcmp(named.letters, is_named ? name : "????", 4), call->name, (int)at, region, got);
        bytes[at] = was, bytes[9] = sum;
    }
}
/* An HPET by the calls that list tables or look one up by its signature, and an SSDT. */
static void check_listed(const uint8_t *table, size_t length, size_t at, zacpi_status expects) {
    uint8_t xsdt[44] = {'X', 'S', 'D', 'T', 44, [8] = 1, [37] = 0x20};
    const struct zacpi_region regions[] = {{0x1000, xsdt, 44}, {0x2000, table, length}};
    struct zacpi_source source = {NULL, 2, 0x1000, ZACPI_START_XSDT, 0};
    const int is_there_now = !expects, is_ssdt = *table == 'S';
    const char *letters = is_ssdt ? "SSDT" : "HPET";
    const struct row asked = {NULL, 0, letters, {0, 0, 0, 0}, ZACPI_OK, NULL, 0, NULL, 0};
    const struct { const struct call *call; size_t count; zacpi_status status; } all[] = {
        {&call_list_tables, is_there_now, ZACPI_OK}, {&call_list_ranges, 1u + is_there_now, ZACPI_OK},
        {&call_list_members, 1, ZACPI_OK}, {&call_list_faults, 1u - is_there_now, ZACPI_OK},
        {is_ssdt ? &call_list_ssdts : &call_list_hpets, is_there_now, ZACPI_OK},
        {&call_find_table, UNCOUNTED, is_there_now ? ZACPI_OK : (zacpi_status)ZACPI_TABLE_MISSING},
        {&call_find_nth_table, UNCOUNTED, is_there_now ? ZACPI_OK : (zacpi_status)ZACPI_TABLE_MISSING}};
    size_t i;
    sum_up(xsdt, 44), source.regions = again_all_at_edge(regions, 2);
    for (i = 0; i < sizeof all / sizeof *all; i++) {
        struct zacpi_signature named = {{'?', '?', '?', '?'}};
        size_t *count = paint_size(&out_count);
        void *to = paint(&out, 4 * all[i].call->size);
        const zacpi_status got = all[i].call->run(&asked, &source, to, 4, count, &named);
        result(got == all[i].status && *count == all[i].count, all[i].call->name, (int)at, i, got);
        if (all[i].call == &call_list_members)
            result(((const member *)(const void *)out.at)->status == expects, "a member's status", (int)at, i, got);
        if (all[i].call == &call_list_faults && expects)
            result(((const fault *)(const void *)out.at)->status == expects, "a fault's status", (int)at, i, got);
    }
}
static void check_all_listed(const uint8_t *table, size_t length) {
    uint8_t bytes[sizeof hpet_bytes];
    size_t at;
    for (at = 4; at < 36; at++) {
        memcpy(bytes, table, length);
        if (at == 8) continue; /* Revision */
        bytes[at] = (uint8_t)(at >= 10 && at < 24 ? 0xff : bytes[at] + 1);
        if (at != 9) sum_up(bytes, length);
        check_listed(bytes, length, at, header_error(at));
    }
}
static void check_headers(void) {
    size_t i;
    for (i = 0; i < sizeof all_headed / sizeof *all_headed; i++)
        if (is_there(all_headed[i].call->name)) check_headed(all_headed + i);
    if (is_there("list_tables") && is_there("list_faults") && is_there("find_nth_table") && is_there("list_hpets")
        && is_there("list_members") && is_there("list_ranges") && is_there("list_ssdts") && is_there("find_table"))
        check_all_listed(hpet_bytes, sizeof hpet_bytes), check_all_listed(ssdt_bytes, sizeof ssdt_bytes);
    lay_coded();
    check_needed(&call_open, 0, "RSDT");
    if (is_there("get_dsdt")) check_needed(&call_get_dsdt, 2, "DSDT");
    if (is_there("get_sleep_types")) check_needed(&call_get_sleep_types, 2, "DSDT");
    if (is_there("get_power_off_plan")) check_needed(&call_get_power_off_plan, 2, "DSDT");
    if (is_there("get_sleep_plan")) check_needed(&call_get_sleep_plan, 2, "DSDT");
}
#endif
