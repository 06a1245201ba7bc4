/* Walks over entries: of each Type one of its least Length is skipped by the calls that list another, and ends every
 * list if it has a byte less; and nothing depends on what comes after a table, wherever it ends in an entry. The least
 * Lengths are those of sections 5.2.12, 5.2.16 and 5.2.24.1, of the VT-d specification, sections 8.3 to 8.9, and of the
 * AMD I/O Virtualization Technology Specification, section 5.2. For rows_written.h, after rows_many.h. */
#ifndef ROWS_WALKS_H
#define ROWS_WALKS_H

/* A table that is walked: where its entries begin; where an entry has its Type and its Length, and how wide these are;
 * and which Types are tried. */
struct walked {
    const char *signature;
    unsigned revision, first, type_width, length_at, length_width, types;
};
static const struct walked walked_madt = {"APIC", 6, 44, 1, 1, 1, 0x1c}, walked_srat = {"SRAT", 3, 48, 1, 1, 1, 8},
                           walked_dmar = {"DMAR", 1, 48, 2, 2, 2, 8}, walked_ivrs = {"IVRS", 2, 48, 1, 2, 2, 0x42},
                           walked_gtdt = {"GTDT", 3, 104, 1, 1, 2, 3};
static unsigned least_of(const struct walked *of, unsigned type) {
    static const uint8_t madt[] = {8, 12, 10, 8, 6, 12, 16, 16, 16, 16, 12, 76, 24, 24, 16, 20, 16},
                         srat[] = {16, 40, 24, 18, 12, 32, 32}, dmar[] = {16, 24, 8, 20, 8, 8, 8}, gtdt[] = {20, 28};
    if (of == &walked_madt) return type < sizeof madt ? madt[type] : 2;
    if (of == &walked_srat) return type < sizeof srat ? srat[type] : 2;
    if (of == &walked_dmar) return type < sizeof dmar ? dmar[type] : 4;
    if (of == &walked_gtdt) return type < sizeof gtdt ? gtdt[type] : 4;
    return type == 0x10 ? 24 : type == 0x11 || type == 0x40 ? 40 : type >= 0x20 && type <= 0x22 ? 32 : 4;
}

/* A call, the entry that it lists, and the Types that it looks at. */
static const uint8_t initiator_entry[32] = {5, 32, 0, 1, 2, [24] = 1}, its_entry[12] = {4, 12, 2, 0, 0, 0, 0, 0, 3},
    drhd_entry[16] = {0, 0, 16, 0, 1, 0, 2, 0, 0, 0, 0xd9, 0xfe}, rhsa_entry[20] = {3, 0, 20, [8] = 1, [16] = 2},
    rmrr_entry[24] = {1, 0, 24, 0, 0, 0, 1, 0, 0, 0x10, 0, 0, 0, 0, 0, 0, 0xff, 0x1f},
    atsr_entry[8] = {2, 0, 8, 0, 1, 0, 3}, ivmd_entry[32] = {0x20, 8, 32, [16] = 1, [24] = 2},
    ivhd_entry[24] = {0x10, 1, 24, 0, 2, 0, 0x40, 0, 0, 0, 0xb8, 0xfe},
    ivhd_11_entry[40] = {0x11, 1, 40, 0, 2, 0, 0x40, 0, 0, 0, 0xb8, 0xfe},
    frame_entry[60] = {0, 60, 0, 0, 0, 1, 0, 0, 0, 0, 0, 0, 1, 0, 0, 0, 20, [40] = 7, [44] = 1};
static const struct walker {
    const struct call *call;
    const struct walked *of;
    const uint8_t *entry;
    size_t length;
    unsigned types[3];
} walkers[] = {
#define WALKER(call, of, entry, ...) {&call_##call, &walked_##of, LISTED(entry), {__VA_ARGS__}}
    WALKER(list_io_apics, madt, many_io_apic_entry, 1, 1, 1), WALKER(list_overrides, madt, override_entry, 2, 2, 2),
    WALKER(list_nmi_sources, madt, source_entry, 3, 3, 3), WALKER(list_nmi_lines, madt, line_entry, 4, 10, 10),
    WALKER(list_nmi_lines, madt, x2_line_entry, 4, 10, 10), WALKER(list_processors, madt, small_one_entry, 0, 9, 9),
    WALKER(list_processors, madt, x2_one_entry, 0, 9, 9),
    WALKER(list_gic_cpu_interfaces, madt, gicc_entry, 0xb, 0xb, 0xb),
    WALKER(list_gic_redistributors, madt, redistributor_entry, 0xe, 0xe, 0xe),
    WALKER(list_gic_translation_services, madt, service_entry, 0xf, 0xf, 0xf),
    WALKER(list_gic_msi_frames, madt, msi_entry, 0xd, 0xd, 0xd),
    WALKER(list_rintcs, madt, rintc_entry, 0x18, 0x18, 0x18), WALKER(list_imsics, madt, imsic_entry, 0x19, 0x19, 0x19),
    WALKER(list_aplics, madt, aplic_entry, 0x1a, 0x1a, 0x1a), WALKER(list_plics, madt, plic_entry, 0x1b, 0x1b, 0x1b),
    WALKER(list_memory_affinities, srat, memory_entry, 1, 1, 1),
    WALKER(list_processor_affinities, srat, apic_entry, 0, 2, 3),
    WALKER(list_processor_affinities, srat, x2_apic_entry, 0, 2, 3),
    WALKER(list_processor_affinities, srat, giccs_entry, 0, 2, 3),
    WALKER(list_generic_initiators, srat, initiator_entry, 5, 5, 5),
    WALKER(list_its_affinities, srat, its_entry, 4, 4, 4), WALKER(list_dmar_units, dmar, drhd_entry, 0, 0, 0),
    WALKER(list_dmar_regions, dmar, rmrr_entry, 1, 1, 1), WALKER(list_dmar_root_ports, dmar, atsr_entry, 2, 2, 2),
    WALKER(list_dmar_affinities, dmar, rhsa_entry, 3, 3, 3),
    WALKER(list_ivrs_units, ivrs, ivhd_entry, 0x10, 0x11, 0x40),
    WALKER(list_ivrs_units, ivrs, ivhd_11_entry, 0x10, 0x11, 0x40),
    WALKER(list_ivrs_regions, ivrs, ivmd_entry, 0x20, 0x21, 0x22), WALKER(list_gt_frames, gtdt, frame_entry, 0, 0, 0),
    WALKER(list_watchdogs, gtdt, watchdog_entry, 1, 1, 1)};

/* An XSDT and a table of these entries, and after it bytes that aren't its. */
enum { WALKED_BYTES = 0x400 };
struct walk {
    uint8_t bytes[WALKED_BYTES];
    size_t length;
};
static int has_gicd = 1; /* a MADT begins with a distributor, as the lists of a GIC want it */
static void begin_walk(struct walk *walk, const struct walked *of) {
    static const uint8_t gicd[] = {GICD_ENTRY};
    memset(walk->bytes, 0, of->first);
    memcpy(walk->bytes, of->signature, 4), walk->bytes[8] = (uint8_t)of->revision;
    walk->length = of->first;
    if (of == &walked_gtdt) put(walk->bytes + 88, 4, 0x10001), put(walk->bytes + 92, 4, 104); /* Count and Offset */
    if (of != &walked_madt || !has_gicd) return;
    memcpy(walk->bytes + walk->length, gicd, sizeof gicd), walk->length += sizeof gicd;
}
static void add_entry(struct walk *walk, const uint8_t *bytes, size_t length) {
    memcpy(walk->bytes + walk->length, bytes, length), walk->length += length;
}
static void add_empty(struct walk *walk, const struct walked *of, unsigned type, size_t length, uint8_t filled) {
    uint8_t *entry = walk->bytes + walk->length;
    memset(entry, filled, length < 4 ? 4 : length);
    put(entry, of->type_width, type);
    put(entry + of->length_at, of->length_width, length);
    walk->length += length;
}
static uint64_t walk_argument; /* the first of the call's; where a device is asked for, it is 01.2 on bus 0 */
/* What a call returns of them: status, how many items, and all that it wrote. */
struct returned {
    zacpi_status status;
    size_t count;
    struct zacpi_signature named;
    uint8_t bytes[OUTPUT];
};
enum { ROOM = 8 };
/* The table is above 4 GiB or below, and a region after it, whose address has a small lower half. */
static uint64_t walked_at = 0x2000;
static void returned_by(const struct call *call, const uint8_t *table, size_t length, struct returned *to) {
    uint8_t xsdt[44] = {'X', 'S', 'D', 'T', 44, [8] = 1};
    const struct row asked = {call, 0, NULL, {walk_argument, 0, 1, 0x201}, ZACPI_OK, NULL, 0, NULL, 0};
    const struct zacpi_region regions[] = {{0x1000, xsdt, 44}, {walked_at, table, length}, {0xf00000000, top, 16}};
    struct zacpi_source source = {NULL, 3, 0x1000, ZACPI_START_XSDT, accept};
    size_t *count = paint_size(&out_count);
    put(xsdt + 36, 8, walked_at), sum_up(xsdt, 44);
    source.regions = again_all_at_edge(regions, 3);
    memset(&to->named, '?', sizeof to->named);
    to->status = call->run(&asked, &source, paint(&out, ROOM * call->size), ROOM, count, &to->named);
    to->count = *count, memcpy(to->bytes, out.at, ROOM * call->size);
}
static void walk_over(struct walk *walk, const struct call *call, size_t more, struct returned *to) {
    put(walk->bytes + 4, 4, walk->length), sum_up(walk->bytes, walk->length);
    memset(walk->bytes + walk->length, 0xff, more);
    returned_by(call, walk->bytes, walk->length + more, to);
}
/* Whether a call returns the same of two, but for the addresses of faults; the first one's after it doesn't matter. */
static int returns_same(const struct call *call, const struct returned *one, const struct returned *other) {
    return one->status == other->status && one->count == other->count
           && !memcmp(one->named.letters, other->named.letters, 4)
           && !memcmp(one->bytes, other->bytes, ROOM * call->size);
}

static void check_walker(const struct walker *walker) {
    static struct walk walk;
    static struct returned one, two, got;
    const struct walked *of = walker->of;
    unsigned type;
    has_gicd = walker->types[0] >= 0xb && walker->types[0] <= 0xf;
    begin_walk(&walk, of), add_entry(&walk, walker->entry, walker->length);
    walk_over(&walk, walker->call, 0, &one);
    add_entry(&walk, walker->entry, walker->length);
    walk_over(&walk, walker->call, 0, &two);
    result(!one.status && one.count == 1 && !two.status && two.count == 2, walker->call->name, 0, 2, two.status);
    walked_at = 0x900002000;
    walk_over(&walk, walker->call, 0, &got);
    result(returns_same(walker->call, &got, &two), walker->call->name, 0, 0, got.status);
    walked_at = 0x2000;
    for (type = of == &walked_ivrs ? 0x0f : 0; type <= of->types; type++) {
        const unsigned *types = walker->types, least = least_of(of, type);
        const size_t shortest = of->length_at + of->length_width;
        size_t length;
        for (length = least > shortest ? least - 1 : least; length <= least + 1; length++) {
            const int is_own = type == types[0] || type == types[1] || type == types[2];
            const int ends = length < least;
            if (is_own && !ends) continue;
            begin_walk(&walk, of), add_entry(&walk, walker->entry, walker->length);
            add_empty(&walk, of, type, length, 0), add_entry(&walk, walker->entry, walker->length);
            walk_over(&walk, walker->call, 0, &got);
            result(returns_same(walker->call, &got, ends ? &one : &two), walker->call->name, (int)type, length,
                   got.status);
            if (ends) continue;
            begin_walk(&walk, of), add_empty(&walk, of, type, length, 0);
            add_entry(&walk, walker->entry, walker->length), walk_over(&walk, walker->call, 0, &got);
            result(returns_same(walker->call, &got, &one), walker->call->name, (int)type, length, got.status);
        }
    }
    has_gicd = 1;
}

/* Calls that look for something: what is found after an entry of another Type of its least Length, is found; after one
 * that has a byte less nothing depends on what is there. */
static const uint8_t override_address[12] = {5, 12, 0, 0, 1, 2, 3, 4, 5, 6, 7, 8},
    mailbox_entry[16] = {16, 16, [9] = 0x70}, small_apic_entry[16] = {0, 16, 1, 9, 1},
    uid_entry[18] = {3, 18, 1, 0, 0, 0, 9, [10] = 1},
    memory_of_0[40] = {1, 40, 1, [16] = 0x80, [28] = 1},
    unit_of_all[16] = {0, 0, 16, 0, 1, 0, 0, 0, 0, 0, 0xd9, 0xfe},
    unit_of_io_apic[24] = {0, 0, 24, 0, 0, 0, 0, 0, 0, 0, 0xd9, 0xfe, [16] = 3, 8, 0, 0, 9, 0, 1, 2},
    unit_of_hpet[24] = {0, 0, 24, 0, 0, 0, 0, 0, 0, 0, 0xd9, 0xfe, [16] = 4, 8, 0, 0, 9, 0, 1, 2},
    range_of_all[32] = {1, 0, 32, [9] = 0x10, [16] = 0xff, 0x1f, [24] = 1, 8, 0, 0, 0, 0, 1, 2},
    block_10_of_all[28] = {0x10, 0, 28, 0, 2, [8] = 1, [24] = 1, 0, 0, 7},
    block_11_of_all[44] = {0x11, 0, 44, 0, 2, [8] = 1, [40] = 1, 0, 0, 7},
    block_40_of_all[44] = {0x40, 0, 44, 0, 2, [8] = 1, [40] = 1, 0, 0, 7},
    memory_of_every[32] = {0x20, 8, 32, [17] = 0x10, [25] = 0x10};
static const struct finder {
    struct walker walker;
    uint64_t argument;
} finders[] = {
#define FINDER(call, of, entry, argument, ...) {WALKER(call, of, entry, __VA_ARGS__), argument}
    FINDER(get_local_apic, madt, override_address, 0, 5, 5, 5),
    FINDER(get_mailbox_address, madt, mailbox_entry, 0, 16, 16, 16),
    FINDER(get_io_apic_pin, madt, many_io_apic_entry, 9, 1, 1, 1),
    FINDER(get_isa_interrupt, madt, override_entry, 9, 2, 2, 2),
    FINDER(domain_of_apic, srat, small_apic_entry, 9, 0, 2, 2),
    FINDER(domain_of_processor, srat, uid_entry, 9, 3, 3, 3), FINDER(domain_of_address, srat, memory_of_0, 9, 1, 1, 1),
    FINDER(get_dmar_unit, dmar, unit_of_all, 0, 0, 0, 0), FINDER(get_dmar_io_apic, dmar, unit_of_io_apic, 9, 0, 0, 0),
    FINDER(get_dmar_hpet, dmar, unit_of_hpet, 9, 0, 0, 0), FINDER(list_dmar_scopes, dmar, unit_of_io_apic, 0, 0, 0, 0),
    FINDER(list_dmar_structure_scopes, dmar, range_of_all, 1, 1, 1, 1),
    FINDER(list_dmar_reserved, dmar, range_of_all, 0, 1, 1, 1),
    FINDER(get_ivrs_unit, ivrs, block_10_of_all, 0, 0x10, 0x11, 0x40),
    FINDER(get_ivrs_unit, ivrs, block_11_of_all, 0, 0x10, 0x11, 0x40),
    FINDER(get_ivrs_unit, ivrs, block_40_of_all, 0, 0x11, 0x40, 0x40),
    FINDER(get_ivrs_unit, ivrs, block_40_of_all, 0, 0x10, 0x40, 0x40),
    FINDER(list_ivrs_entries, ivrs, block_10_of_all, 0, 0x10, 0x11, 0x40),
    FINDER(list_ivrs_entries, ivrs, block_11_of_all, 0, 0x10, 0x11, 0x40),
    FINDER(list_ivrs_memory, ivrs, memory_of_every, 0, 0x20, 0x21, 0x22)};
static void check_finder(const struct finder *finder) {
    static struct walk walk;
    static struct returned found, got, other;
    const struct walker *walker = &finder->walker;
    const struct walked *of = walker->of;
    const size_t shortest = of->length_at + of->length_width;
    unsigned type;
    walk_argument = finder->argument;
    begin_walk(&walk, of), add_entry(&walk, walker->entry, walker->length);
    walk_over(&walk, walker->call, 0, &found);
    result(!found.status, walker->call->name, 0, 1, found.status);
    for (type = of == &walked_ivrs ? 0x0f : 0; type <= of->types; type++) {
        const unsigned *types = walker->types, least = least_of(of, type);
        if (type != types[0] && type != types[1] && type != types[2]) {
            begin_walk(&walk, of), add_empty(&walk, of, type, least, 0);
            add_entry(&walk, walker->entry, walker->length);
            walk_over(&walk, walker->call, 0, &got);
            result(returns_same(walker->call, &got, &found), walker->call->name, (int)type, least, got.status);
        }
        if (least <= shortest) continue;
        begin_walk(&walk, of), add_empty(&walk, of, type, least - 1, 0);
        add_entry(&walk, walker->entry, walker->length);
        walk_over(&walk, walker->call, 0, &got);
        begin_walk(&walk, of), add_empty(&walk, of, type, least - 1, 0), add_empty(&walk, of, 0, walker->length, 0xff);
        walk_over(&walk, walker->call, 0, &other);
        result(returns_same(walker->call, &got, &other), walker->call->name, (int)type, least - 1, got.status);
    }
    walk_argument = 0;
}

/* Device entries for device 0 of which the last bytes are missing: one, one with an alias, one with extended settings,
 * and one by its ACPI HID (section 5.2 of the AMD specification). */
static void check_cut_devices(void) {
    static const uint8_t entries[][24] = {{2}, {0x42, [5] = 9}, {0x46, [4] = 1},
                                          {0xf0, [4] = 'A', 'B', 'C', '0', '0', '0', '0', '1', [20] = 1, 2, 7}};
    static const uint8_t sizes[] = {4, 8, 8, 24};
    static struct walk walk;
    static struct returned got;
    size_t i, k;
    for (i = 0; i < sizeof sizes; i++)
        for (k = 0; k <= sizes[i]; k++) {
            const zacpi_status cut_short = k ? ZACPI_IOMMU_INVALID_STRUCTURE_LENGTH : ZACPI_NO_IOMMU;
            begin_walk(&walk, &walked_ivrs), add_empty(&walk, &walked_ivrs, 0x10, 24, 0);
            put(walk.bytes + 48 + 2, 2, 24 + k), add_entry(&walk, entries[i], k);
            walk_over(&walk, &call_get_ivrs_unit, 0, &got);
            result(got.status == (k < sizes[i] ? cut_short : (zacpi_status)ZACPI_OK), "a cut entry", (int)i, k,
                   got.status);
        }
}

/* Of one entry that ends where the table does, or a little before or after it, with bytes in it that may be entries:
 * what is after the table is anything. */
static const struct { const struct call *call; const struct walked *of; } enders[] = {
#define ENDER(call, of) {&call_##call, &walked_##of}
    ENDER(get_interrupt_model, madt), ENDER(get_local_apic, madt), ENDER(list_io_apics, madt),
    ENDER(list_overrides, madt), ENDER(list_nmi_sources, madt), ENDER(list_nmi_lines, madt),
    ENDER(list_processors, madt), ENDER(list_madt_faults, madt), ENDER(get_mailbox_address, madt),
    ENDER(get_io_apic_pin, madt), ENDER(get_gic_distributor, madt), ENDER(list_gic_cpu_interfaces, madt),
    ENDER(list_gic_redistributors, madt), ENDER(list_gic_translation_services, madt), ENDER(list_gic_msi_frames, madt),
    ENDER(list_rintcs, madt), ENDER(list_imsics, madt), ENDER(list_aplics, madt), ENDER(list_plics, madt),
    ENDER(list_memory_affinities, srat), ENDER(list_processor_affinities, srat), ENDER(list_generic_initiators, srat),
    ENDER(list_its_affinities, srat), ENDER(list_srat_faults, srat), ENDER(domain_of_address, srat),
    ENDER(domain_of_apic, srat), ENDER(domain_of_processor, srat), ENDER(list_dmar_units, dmar),
    ENDER(list_dmar_regions, dmar), ENDER(list_dmar_root_ports, dmar), ENDER(list_dmar_affinities, dmar),
    ENDER(list_dmar_scopes, dmar), ENDER(list_dmar_structure_scopes, dmar), ENDER(list_dmar_faults, dmar),
    ENDER(list_dmar_reserved, dmar), ENDER(get_dmar_unit, dmar), ENDER(get_dmar_io_apic, dmar),
    ENDER(get_dmar_hpet, dmar), ENDER(get_dmar_flags, dmar), ENDER(list_ivrs_units, ivrs),
    ENDER(list_ivrs_regions, ivrs), ENDER(list_ivrs_entries, ivrs), ENDER(list_ivrs_memory, ivrs),
    ENDER(list_ivrs_faults, ivrs), ENDER(get_ivrs_unit, ivrs), ENDER(list_gt_frames, gtdt),
    ENDER(list_watchdogs, gtdt), ENDER(list_gtdt_faults, gtdt), ENDER(get_arm_timers, gtdt)};
/* Scopes of 8 bytes, IVRS entries of 4 bytes and of 8, an ACPI HID device's, or ones. */
static uint8_t filling(unsigned kind, size_t at) {
    switch (kind) {
    case 0: return at % 8 == 0 ? 1 : at % 8 == 1 ? 8 : at % 8 == 2 ? 0 : 3;
    case 1: return at % 4 == 0 ? 2 : 1;
    case 2: return at % 8 == 0 ? 0x48 : at % 8 == 7 ? 1 : 0;
    case 5: return at % 8 == 0 ? 0x42 : at % 8 == 5 ? 7 : 0;
    case 6: return at % 8 == 0 ? 0x43 : 0;
    case 7: return at % 8 == 0 ? 0x46 : 0;
    case 8: return at % 8 == 0 ? 0x47 : at == 36 || at == 52 ? 4 : 0;
    case 3: return at == 24 || at == 40 ? 0xf0 : at == 44 || at == 60 ? 1 : at == 45 || at == 61 ? 2 : 'A';
    default: return 0xff;
    }
}
static void check_ender(const struct call *call, const struct walked *of, unsigned type, size_t length, int more) {
    static struct walk walk;
    static struct returned got, again;
    unsigned kind = of == &walked_madt || of == &walked_srat ? 4 : 0; /* which have nothing in their entries */
    const unsigned kinds = of == &walked_ivrs ? 9 : 5;
    for (; kind < kinds; kind++) {
        size_t i;
        begin_walk(&walk, of), add_empty(&walk, of, type, length, 0);
        for (i = of->length_at + of->length_width; i < length; i++)
            walk.bytes[walk.length - length + i] = filling(kind, i);
        if (of == &walked_gtdt && kind < 2 && length > 20) {
            uint8_t *entry = walk.bytes + walk.length - length;
            put(entry + 12, 4, kind + 1), put(entry + 16, 4, 20); /* Timer Count, and Offset */
        }
        walk.length += (size_t)more;
        walk_over(&walk, call, 0, &got);
        walk_over(&walk, call, 64, &again);
        result(returns_same(call, &got, &again), call->name, (int)type, length, got.status);
    }
}

static void check_walks(void) {
    size_t i, length;
    for (i = 0; i < sizeof walkers / sizeof *walkers; i++)
        if (is_there(walkers[i].call->name)) check_walker(walkers + i);
    for (i = 0; i < sizeof finders / sizeof *finders; i++)
        for (has_gicd = 0; has_gicd < 2; has_gicd++)
            if (is_there(finders[i].walker.call->name)) check_finder(finders + i);
    has_gicd = 1;
    if (is_there("get_ivrs_unit")) check_cut_devices();
    for (i = 0; i < sizeof enders / sizeof *enders; i++) {
        const struct walked *of = enders[i].of;
        unsigned type;
        if (!is_there(enders[i].call->name)) continue;
        for (type = of == &walked_ivrs ? 0x0f : 0; type <= of->types; type++) {
            const int is_riscv = of == &walked_madt && type >= 0x18 && type <= 0x1b;
            const unsigned least = is_riscv ? 20 : least_of(of, type);
            if (least < 5 && type % 4) continue; /* of the many others some are enough */
            for (length = least < 6 ? least : least - 1; length <= least + 17u; length++) {
                check_ender(enders[i].call, of, type, length, 0);
                check_ender(enders[i].call, of, type, length, length % 2 ? 1 : -1);
            }
        }
    }
}
#endif
