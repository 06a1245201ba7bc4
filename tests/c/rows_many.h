/* Tables of many items: each list with as many as are beside what loops count by, what a byte counts, and what 16 bits
 * do, for its number of items and for its table's Length. Each item has its number in a field, and each byte is worked
 * out from the layouts. For rows_written.h. */
#ifndef ROWS_MANY_H
#define ROWS_MANY_H

/* A list: what writes it; its item, where that has its number, and how wide; the table without it; the entry that an
 * item becomes, where the number is in it, and where and how wide the number of items is in the table, which counts so
 * many more. */
struct many {
    const char *name;
    zacpi_status (*write)(const void *items, size_t count, uint8_t *to, size_t capacity, size_t *length);
    const void *item;
    size_t item_size, field, width;
    uint64_t first; /* the first one's number */
    const uint8_t *front;
    size_t front_length;
    const uint8_t *entry;
    size_t entry_length, at, counted_at, counted_width, more;
};

#define MANY_OF(verb, call, type, base, list) \
    static zacpi_status verb(const void *items, size_t count, uint8_t *to, size_t capacity, size_t *length) { \
        struct type contents = base; \
        contents.list = items, contents.list##_length = count; \
        return zacpi_write_##call(ids, &contents, to, capacity, length); \
    }
#define MANY_ALONE(verb, call, ...) \
    static zacpi_status verb(const void *items, size_t count, uint8_t *to, size_t capacity, size_t *length) { \
        return zacpi_write_##call(ids, __VA_ARGS__ items, count, to, capacity, length); \
    }
MANY_OF(many_processors, madt, zacpi_madt_contents, small_madt, processors)
MANY_OF(many_io_apics, madt, zacpi_madt_contents, small_madt, io_apics)
MANY_OF(many_overrides, madt, zacpi_madt_contents, small_madt, overrides)
MANY_OF(many_nmi_sources, madt, zacpi_madt_contents, small_madt, nmi_sources)
MANY_OF(many_nmi_lines, madt, zacpi_madt_contents, small_madt, nmi_lines)
MANY_OF(many_interfaces, gic_madt, zacpi_gic_contents, small_gic, cpu_interfaces)
MANY_OF(many_redistributors, gic_madt, zacpi_gic_contents, small_gic, redistributors)
MANY_OF(many_services, gic_madt, zacpi_gic_contents, small_gic, translation_services)
MANY_OF(many_msi_frames, gic_madt, zacpi_gic_contents, small_gic, msi_frames)
MANY_OF(many_rintcs, riscv_madt, zacpi_riscv_contents, harts_alone, rintcs)
MANY_OF(many_imsics, riscv_madt, zacpi_riscv_contents, harts_alone, imsics)
MANY_OF(many_aplics, riscv_madt, zacpi_riscv_contents, harts_alone, aplics)
MANY_OF(many_plics, riscv_madt, zacpi_riscv_contents, harts_alone, plics)
MANY_OF(many_harts, rhct, zacpi_rhct_contents, rhct_without_isa, harts)
MANY_OF(many_apic_domains, srat, zacpi_srat_contents, empty_srat, apics)
MANY_OF(many_gicc_domains, srat, zacpi_srat_contents, empty_srat, giccs)
MANY_OF(many_ranges, srat, zacpi_srat_contents, empty_srat, ranges)
MANY_OF(many_timers, gtdt, zacpi_gtdt_contents, all_timers, platform_timers)
MANY_ALONE(many_regions_of_pci, mcfg, )
MANY_ALONE(many_addresses_32, rsdt, )
MANY_ALONE(many_addresses_64, xsdt, )
MANY_ALONE(many_bytes_of_dsdt, dsdt, 2, )
MANY_ALONE(many_bytes_of_ssdt, ssdt, 1, )
MANY_ALONE(many_bytes_of_a_table, table, tpm2, 4, )

/* Two processors, of which the second isn't a Processor Local APIC; an I/O APIC; an override; NMIs of a source, of one
 * processor, and of one whose uid isn't a byte. */
static const struct zacpi_processor small_one = {7, 2, ZACPI_PROCESSOR_RUNNING, 0, 0, 0},
                                    x2_one = {0, 0x01020304, ZACPI_PROCESSOR_DISABLED, 0, 1, 1};
static const struct zacpi_nmi_line one_line = {0, 0, 1, ZACPI_POLARITY_LOW, ZACPI_TRIGGER_BUS},
                                   x2_line = {0, 0, 1, ZACPI_POLARITY_HIGH, ZACPI_TRIGGER_LEVEL};
static const struct zacpi_platform_timer many_watchdogs = {1, {0}, 9, gt_frames, 2, {0x2a450000, 0x12a440000, 0,
                                                                                     EDGE_LOW, 1}};
static const struct zacpi_platform_timer many_blocks = {0, {0}, 0, gt_frames, 0, NO_WATCHDOG};
static const struct zacpi_memory_affinity memory_of_2 = {0x0102030405060708, 0x1112131415161718, 0, 1, 1};
static const struct zacpi_pci_region one_region = {0, 0x0102, 16, 31};
static const uint8_t small_one_entry[] = {0, 8, 0, 2, 1, 0, 0, 0},
    many_io_apic_entry[] = {1, 12, 3, 0, 0, 0, 0xc0, 0xfe, 0, 0, 0, 0},
    x2_one_entry[] = {9, 16, 0, 0, 4, 3, 2, 1, 2, 0, 0, 0, 0, 0, 0, 0},
    override_entry[] = {2, 10, 0, 9, 0, 0, 0, 0, 15, 0},
    source_entry[] = {3, 8, 5, 0, 0, 0, 0, 0}, line_entry[] = {4, 6, 0, 3, 0, 1},
    x2_line_entry[] = {10, 12, 13, 0, 0, 0, 0, 0, 1, 0, 0, 0}, gicc_entry[] = {SHORT_GICC},
    redistributor_entry[] = {14, 16, 0, 0, 0, 0, 0, 0, 0, 0, 0, 0, 255, 255, 255, 255},
    service_entry[] = {15, 20, 0, 0, 0, 0, 0, 0, 0, 0, 8, 8, 0, 0, 0, 0, 0, 0, 0, 0},
    msi_entry[] = {13, 24, 0, 0, 0, 0, 0, 0, 0, 0, 2, 8, 0, 0, 0, 0, 1, 0, 0, 0, 64, 0, 80, 1},
    rintc_entry[] = {HART_9}, imsic_entry[] = {0x19, 16, 1, 0, 0, 0, 0, 0, 5, 6, 7, 8, 9, 10, 11, 12},
    aplic_entry[] = {0x1a, 36, 1, 2, 0x41, 0x42, 0x43, 0x44, 0x31, 0x32, 0x33, 0x34, 0x35, 0x36, 0x37, 0x38,
                     1, 2, 3, 4, 0x60, 0, 0, 0, 0, 0, 0, 0, 0, 0, 0, 0, 0, 0x80, 0, 0},
    plic_entry[] = {0x1b, 36, 1, 3, 0x31, 0x32, 0x33, 0x34, 0x35, 0x36, 0x37, 0x38, 1, 2, 7, 0, 0x41, 0x42, 0x43, 0x44,
                    0, 0, 0x60, 0, 0, 0, 0, 0, 0, 0, 0, 0, 0x20, 0, 0, 0},
    hart_entry[] = {HART_NODE(0, 0, 0, 0)}, apic_entry[] = {0, 16, 1, 254, 1, 0, 0, 0, 0, 2, 3, 4, 0, 0, 0, 0},
    x2_apic_entry[] = {2, 24, 0, 0, 1, 0, 0, 0, 0, 0, 0, 0, 1, 0, 0, 0, 0, 0, 0, 0, 0, 0, 0, 0},
    giccs_entry[] = {3, 18, 4, 3, 2, 1, 0, 0, 0, 0, 1, 0, 0, 0, 0, 0, 0, 0},
    memory_entry[] = {1, 40, 0, 0, 0, 0, 0, 0, 8, 7, 6, 5, 4, 3, 2, 1, 0x18, 0x17, 0x16, 0x15, 0x14, 0x13, 0x12, 0x11,
                      0, 0, 0, 0, 7, 0, 0, 0, 0, 0, 0, 0, 0, 0, 0, 0},
    region_entry[] = {0, 0, 0, 0, 0, 0, 0, 0, 2, 1, 16, 31, 0, 0, 0, 0}, zeros_of_8[8],
    watchdog_entry[28] = {1, 28, 0, 0, 0, 0, 0x45, 0x2a, 0, 0, 0, 0, 0, 0, 0x44, 0x2a, 1, [24] = 7},
    block_entry[] = {0, 20, 0, 0, 0, 0, 0, 0, 0, 0, 0, 0, 0, 0, 0, 0, 20, 0, 0, 0};
static const struct zacpi_nmi_source one_source = {0, ZACPI_POLARITY_HIGH, ZACPI_TRIGGER_EDGE};
static const struct zacpi_gic_msi_frame one_frame = {0x08020000, 0, 0x150, 64, 1};
static const struct zacpi_apic_domain small_domain = {254, 0x04030200}, x2_domain = {0, 1};
static const struct zacpi_gicc_domain one_gicc = {0, 0x01020304};
static const uint64_t none_of_8 = 0;

static const struct many many_of[] = {
#define ITEMS(verb, item, type, field, width, first, front, front_length, entry, at, ...) \
    {#verb, verb, item, sizeof(type), offsetof(type, field), width, first, front, front_length, LISTED(entry), at, \
     __VA_ARGS__}
#define IN_MADT(verb, item, type, field, width, first, entry, at) \
    ITEMS(verb, item, struct type, field, width, first, small_madt_bytes, sizeof small_madt_bytes, entry, at, 0, 0, 0)
#define IN_GIC(verb, item, type, field, width, entry, at) \
    ITEMS(verb, item, struct type, field, width, 0, small_gic_bytes, sizeof small_gic_bytes, entry, at, 0, 0, 0)
#define IN_RISCV(verb, item, type, field, width, entry, at) \
    ITEMS(verb, item, struct type, field, width, 0, harts_alone_bytes, sizeof harts_alone_bytes, entry, at, 0, 0, 0)
#define IN_SRAT(verb, item, type, field, width, first, entry, at) \
    ITEMS(verb, item, struct type, field, width, first, empty_srat_bytes, sizeof empty_srat_bytes, entry, at, 0, 0, 0)
#define BYTES(verb, front) {#verb, verb, &none_of_8, 1, 0, 1, 0, front, 36, zeros_of_8, 1, 0, 0, 0, 0}
    ITEMS(many_processors, &small_one, struct zacpi_processor, uid, 1, 0, small_madt_bytes, 44, small_one_entry, 2, 0,
          0, 0),
    ITEMS(many_processors, &x2_one, struct zacpi_processor, uid, 4, 0, small_madt_bytes, 44, x2_one_entry, 12, 0, 0, 0),
    IN_MADT(many_io_apics, controllers, zacpi_io_apic, global_system_interrupt_base, 4, 0, many_io_apic_entry, 8),
    IN_MADT(many_overrides, wirings, zacpi_interrupt_source_override, global_system_interrupt, 4, 0, override_entry, 4),
    IN_MADT(many_nmi_sources, &one_source, zacpi_nmi_source, global_system_interrupt, 4, 0, source_entry, 4),
    IN_MADT(many_nmi_lines, &one_line, zacpi_nmi_line, processor_uid, 1, 0, line_entry, 2),
    IN_MADT(many_nmi_lines, &x2_line, zacpi_nmi_line, processor_uid, 4, 255, x2_line_entry, 4),
    ITEMS(many_interfaces, interfaces + 1, struct zacpi_gic_cpu_interface, processor_uid, 4, 0, small_gic_bytes, 68,
          gicc_entry, 8, 0, 0, 0),
    IN_GIC(many_redistributors, redistributors, zacpi_range, address, 8, redistributor_entry, 4),
    IN_GIC(many_services, services, zacpi_gic_translation_service, id, 4, service_entry, 4),
    IN_GIC(many_msi_frames, &one_frame, zacpi_gic_msi_frame, id, 4, msi_entry, 4),
    ITEMS(many_rintcs, rintcs + 1, struct zacpi_rintc, hart_id, 8, 0, harts_alone_bytes, 44, rintc_entry, 8, 0, 0, 0),
    IN_RISCV(many_imsics, imsics, zacpi_imsic, flags, 4, imsic_entry, 4),
    IN_RISCV(many_aplics, aplics, zacpi_aplic, address, 8, aplic_entry, 24),
    IN_RISCV(many_plics, plics, zacpi_plic, address, 8, plic_entry, 24),
    {"many_harts", many_harts, &none_of_8, 4, 0, 4, 0, rhct_of_no_isa_bytes, 66, LISTED(hart_entry), 8, 48, 4, 1},
    IN_SRAT(many_apic_domains, &small_domain, zacpi_apic_domain, domain, 1, 0, apic_entry, 2),
    IN_SRAT(many_apic_domains, &x2_domain, zacpi_apic_domain, local_apic_id, 4, 255, x2_apic_entry, 8),
    IN_SRAT(many_gicc_domains, &one_gicc, zacpi_gicc_domain, processor_uid, 4, 0, giccs_entry, 6),
    IN_SRAT(many_ranges, &memory_of_2, zacpi_memory_affinity, domain, 4, 0, memory_entry, 2),
    ITEMS(many_timers, &many_watchdogs, struct zacpi_platform_timer, watchdog.interrupt, 4, 0, gtdt_bytes,
          sizeof gtdt_bytes, watchdog_entry, 20, 88, 4, 0),
    ITEMS(many_timers, &many_blocks, struct zacpi_platform_timer, block_address, 8, 0, gtdt_bytes, sizeof gtdt_bytes,
          block_entry, 4, 88, 4, 0),
    ITEMS(many_regions_of_pci, &one_region, struct zacpi_pci_region, base_address, 8, 0, no_region_bytes, 44,
          region_entry, 0, 0, 0, 0),
    {"many_addresses_32", many_addresses_32, &none_of_8, 4, 0, 4, 0, empty_rsdt_bytes, 36, zeros_of_8, 4, 0, 0, 0, 0},
    {"many_addresses_64", many_addresses_64, &none_of_8, 8, 0, 8, 0, xsdt_bytes, 36, zeros_of_8, 8, 0, 0, 0, 0},
    BYTES(many_bytes_of_dsdt, dsdt_bytes), BYTES(many_bytes_of_ssdt, ssdt_bytes),
    BYTES(many_bytes_of_a_table, tpm2_bytes)};

/* A number of so many bytes; one of a byte goes from 0 to 250, so that no UID stands for all. */
static void put_number(uint8_t *to, size_t width, uint64_t first, size_t i) {
    put(to, width, width > 1 ? first + i : i % 251);
}

/* Where the items are, and the bytes that a table has to have. */
static struct again items_at, bytes_at;
enum { MOST_BYTES = 0x22000 };

/* Written where just enough may be written, and a byte less. */
static void check_written_items(const struct many *list, const void *items, size_t count, const uint8_t *bytes,
                             size_t length) {
    size_t capacity;
    for (capacity = length - 1; capacity <= length; capacity++) {
        const zacpi_status expects = capacity < length ? ZACPI_NO_ROOM : ZACPI_OK;
        uint8_t *to = (uint8_t *)painted_again(0, capacity);
        size_t i, *counted = paint_size(&out_count);
        const zacpi_status got = list->write(items, count, to, capacity, counted);
        for (i = 0; expects && i < capacity && to[i] == PAINT; i++) continue;
        result(got == expects && *counted == (expects ? UNCOUNTED : length)
               && (expects ? i == capacity : !memcmp(to, bytes, length)), list->name, (int)count, capacity, got);
    }
}
static void check_many_items(const struct many *list, size_t count) {
    const size_t length = list->front_length + count * list->entry_length;
    uint8_t *items = again_at_edge(&items_at, count * list->item_size), *bytes = again_at_edge(&bytes_at, MOST_BYTES);
    size_t i;
    memcpy(bytes, list->front, list->front_length);
    for (i = 0; i < count; i++) {
        uint8_t *item = items + i * list->item_size, *entry = bytes + list->front_length + i * list->entry_length;
        memcpy(item, list->item, list->item_size), memcpy(entry, list->entry, list->entry_length);
        put_number(item + list->field, list->width, list->first, i);
        put_number(entry + list->at, list->width, list->first, i);
    }
    if (list->counted_width) put(bytes + list->counted_at, list->counted_width, count + list->more);
    put(bytes + 4, 4, length), sum_up(bytes, length);
    check_written_items(list, items, count, bytes, length);
}

/* ---- What isn't a list of entries ------------------------------------------------------------------------------ */

/* The matrix of a SLIT, whose Number of System Localities is at 36. */
static zacpi_status a_matrix(const void *items, size_t count, uint8_t *to, size_t capacity, size_t *length) {
    uint64_t localities = 0;
    while (localities * localities < count) localities++;
    return zacpi_write_slit(ids, localities, items, count, to, capacity, length);
}
/* The ISA string of a hart, and its node at 56: Length at 2, of 8 bytes and the string, which one or two zeros make
 * even; ISA Length at 6, with one zero. A Hart Info Node comes after it (ACPI 6.6). */
static zacpi_status an_isa(const void *items, size_t count, uint8_t *to, size_t capacity, size_t *length) {
    const struct zacpi_rhct_contents contents = {items, count, LISTED(hart_0), 1, 0};
    return zacpi_write_rhct(ids, &contents, to, capacity, length);
}
/* The frames of a GT Block after a watchdog: Length at 1, Timer Count at 12; of each CntBaseX at 4, interrupts at 20
 * and 28 (section 5.2.24.1.1). */
static zacpi_status a_block(const void *items, size_t count, uint8_t *to, size_t capacity, size_t *length) {
    const struct zacpi_platform_timer both[] = {many_watchdogs, {0, {0}, 0x100, items, count, NO_WATCHDOG}};
    struct zacpi_gtdt_contents contents = all_timers;
    contents.platform_timers = both, contents.platform_timers_length = 2;
    return zacpi_write_gtdt(ids, &contents, to, capacity, length);
}
/* Tables of a machine, 48 bytes each, after an XSDT that lists them. */
static zacpi_status a_tree_of(const void *items, size_t count, uint8_t *to, size_t capacity, size_t *length) {
    const struct zacpi_machine machine = {makers, {0}, items, count, NULL, 0, NULL, 0};
    return zacpi_write_tables_without_rsdp(&machine, 0x1234567890, to, capacity, length);
}

/* The bytes of a table that so many items make. */
static size_t lay_matrix(uint8_t *to, size_t count) {
    size_t i, localities = 0;
    while (localities * localities < count) localities++;
    memcpy(to, slit_bytes, 44), put(to + 36, 8, localities);
    for (i = 0; i < count; i++) to[44 + i] = (uint8_t)(i % 251);
    return 44 + count;
}
static size_t lay_isa(uint8_t *to, size_t count) {
    const size_t node = 8 + (count + 2) / 2 * 2;
    size_t i;
    memset(to, 0, 56 + node), memcpy(to, rhct_of_no_isa_bytes, 64);
    put(to + 58, 2, node), put(to + 62, 2, count + 1);
    for (i = 0; i < count; i++) to[64 + i] = (uint8_t)(i % 251);
    memcpy(to + 56 + node, hart_entry, 16);
    return 56 + node + 16;
}
static size_t lay_block(uint8_t *to, size_t count) {
    size_t i;
    memcpy(to, gtdt_bytes, 104), put(to + 88, 4, 2);
    memcpy(to + 104, watchdog_entry, 28), memcpy(to + 132, block_entry, 20);
    put(to + 133, 2, 20 + 40 * count), put(to + 136, 8, 0x100), put(to + 144, 4, count);
    for (i = 0; i < count; i++) {
        uint8_t *frame = to + 152 + 40 * i;
        memcpy(frame, platform_gtdt_bytes + 152, 40);
        put(frame + 4, 8, i), put(frame + 20, 4, 0x81020304 + i), put(frame + 28, 4, 0x91121314 + i);
    }
    return 152 + 40 * count;
}
static size_t lay_machine_of(uint8_t *to, size_t count) {
    const size_t xsdt = (36 + 8 * count + 15) / 16 * 16;
    size_t i;
    memset(to, 0, xsdt + 48 * count), memcpy(to, xsdt_bytes, 36);
    put(to + 4, 4, 36 + 8 * count);
    for (i = 0; i < count; i++) {
        put(to + 36 + 8 * i, 8, 0x1234567890 + xsdt + 48 * i);
        memcpy(to + xsdt + 48 * i, oem_bytes, 36);
    }
    sum_up(to, 36 + 8 * count);
    return xsdt + 48 * count;
}
static void check_laid(zacpi_status (*write)(const void *items, size_t count, uint8_t *to, size_t capacity,
                                             size_t *length),
                       size_t (*lay_items)(uint8_t *to, size_t count), const char *name, const void *item,
                       size_t item_size, size_t count) {
    const struct many list = {name, write, NULL, 0, 0, 0, 0, NULL, 0, NULL, 0, 0, 0, 0, 0};
    uint8_t *items = again_at_edge(&items_at, count * item_size), *bytes = again_at_edge(&bytes_at, MOST_BYTES);
    const size_t length = lay_items(bytes, count);
    size_t i;
    for (i = 0; i < count; i++) {
        uint8_t *to = items + i * item_size;
        if (item) memcpy(to, item, item_size);
        else *to = (uint8_t)(i % 251);
        if (write != a_block) continue;
        put(to + offsetof(struct zacpi_gt_frame, address), 8, i);
        put(to + offsetof(struct zacpi_gt_frame, physical_interrupt), 4, 0x81020304 + i);
        put(to + offsetof(struct zacpi_gt_frame, virtual_interrupt), 4, 0x91121314 + i);
    }
    if (write != a_tree_of) put(bytes + 4, 4, length), sum_up(bytes, length);
    check_written_items(&list, items, count, bytes, length);
}
static void check_all_laid(void) {
    static const size_t isas[] = {0, 1, 2, 3, 7, 8, 9, 254, 255, 256, 257, 65434, 65435, 65436, 65437, 65524, 65525},
                        frames_of[] = {1, 2, 3, 4, 5, 6, 7, 254, 255, 256, 257, 1631, 1632, 1636, 1637},
                        tables_of[] = {1, 2, 3, 4, 5, 8, 9, 26, 27, 28, 29, 255, 256, 257, 1170, 1171, 1172};
    size_t i;
    for (i = 0; i <= 20; i++) check_laid(a_matrix, lay_matrix, "localities", NULL, 1, i * i);
    for (i = 255; i <= 257; i++) check_laid(a_matrix, lay_matrix, "localities", NULL, 1, i * i);
    for (i = 0; i < sizeof isas / sizeof *isas; i++) check_laid(an_isa, lay_isa, "an ISA", NULL, 1, isas[i]);
    for (i = 0; i < sizeof frames_of / sizeof *frames_of; i++)
        check_laid(a_block, lay_block, "frames", gt_frames, sizeof *gt_frames, frames_of[i]);
    for (i = 0; i < sizeof tables_of / sizeof *tables_of; i++)
        check_laid(a_tree_of, lay_machine_of, "a tree of tables", &oem_table, sizeof oem_table, tables_of[i]);
}

/* An RHCT of so many harts that its Number of RHCT nodes has more than 16 bits. */
static void check_more_harts(void) {
    enum { HARTS = 65536, FRONT = 56 + 10 };
    const size_t length = FRONT + 16 * (size_t)HARTS;
    uint32_t *harts_of = (uint32_t *)(void *)pages(4 * (size_t)HARTS);
    struct zacpi_rhct_contents given = rhct_without_isa;
    uint8_t *to = (uint8_t *)painted_at_edge(length), *bytes = pages(length);
    size_t *counted = paint_size(&out_count), i;
    zacpi_status got;
    memcpy(bytes, rhct_of_no_isa_bytes, FRONT), put(bytes + 4, 4, length), put(bytes + 48, 4, HARTS + 1);
    for (i = 0; i < HARTS; i++) {
        harts_of[i] = (uint32_t)i;
        memcpy(bytes + FRONT + 16 * i, hart_entry, 16), put(bytes + FRONT + 16 * i + 8, 4, i);
    }
    sum_up(bytes, length);
    given.harts = harts_of, given.harts_length = HARTS;
    got = zacpi_write_rhct(ids, &given, to, length, counted);
    result(!got && *counted == length && !memcmp(to, bytes, length), "more harts", 0, length, got);
}

static void check_all_many(void) {
    static const size_t counts[] = {1, 2, 3, 4, 5, 6, 7, 8, 9, 15, 16, 17, 31, 33, 254, 255, 256, 257};
    size_t i, k;
    for (i = 0; i < sizeof many_of / sizeof *many_of; i++) {
        const struct many *list = many_of + i;
        const size_t most = (65535 - list->front_length) / list->entry_length; /* whose Length has 16 bits */
        for (k = 0; k < sizeof counts / sizeof *counts; k++) check_many_items(list, counts[k]);
        for (k = 0; k < 3; k++) check_many_items(list, most + k);
    }
    check_all_laid();
    check_more_harts();
}
#endif
