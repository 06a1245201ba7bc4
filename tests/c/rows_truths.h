/* Fields of what is written that say whether something holds: any number but 0 is written as 1 is, and 0 otherwise. For
 * rows_written.h. */
#ifndef ROWS_TRUTHS_H
#define ROWS_TRUTHS_H

/* Contents that have one item of a list, in which the field is; and contents that have the field. */
#define TRUTH_IN(verb, call, type, base, list, item_type, item, field) \
    static zacpi_status verb(uint8_t value, uint8_t *to, size_t capacity, size_t *length) { \
        struct type contents = base; \
        struct item_type one = item; \
        one.field = value; \
        contents.list = &one, contents.list##_length = 1; \
        return zacpi_write_##call(ids, &contents, to, capacity, length); \
    }
#define TRUTH_OF(verb, call, type, base, field) \
    static zacpi_status verb(uint8_t value, uint8_t *to, size_t capacity, size_t *length) { \
        struct type contents = base; \
        contents.field = value; \
        return zacpi_write_##call(ids, &contents, to, capacity, length); \
    }
TRUTH_OF(also_has_8259, madt, zacpi_madt_contents, small_madt, also_has_8259)
TRUTH_OF(has_mailbox, madt, zacpi_madt_contents, small_madt, has_wakeup_mailbox)
TRUTH_IN(online_capable, madt, zacpi_madt_contents, small_madt, processors, zacpi_processor, listed[4],
         is_online_capable)
TRUTH_IN(an_x2apic, madt, zacpi_madt_contents, small_madt, processors, zacpi_processor, listed[5], is_x2apic)
TRUTH_IN(line_of_any, madt, zacpi_madt_contents, small_madt, nmi_lines, zacpi_nmi_line, lines_of_nmis[2], of_all)
TRUTH_IN(interface_enabled, gic_madt, zacpi_gic_contents, small_gic, cpu_interfaces, zacpi_gic_cpu_interface,
         interfaces[1], is_enabled)
TRUTH_IN(interface_online, gic_madt, zacpi_gic_contents, small_gic, cpu_interfaces, zacpi_gic_cpu_interface,
         interfaces[1], is_online_capable)
TRUTH_IN(frame_of_spis, gic_madt, zacpi_gic_contents, small_gic, msi_frames, zacpi_gic_msi_frame, frames[1], has_spis)
TRUTH_IN(hot_pluggable, srat, zacpi_srat_contents, empty_srat, ranges, zacpi_memory_affinity, domains_of_memory[1],
         is_hot_pluggable)
TRUTH_IN(non_volatile, srat, zacpi_srat_contents, empty_srat, ranges, zacpi_memory_affinity, domains_of_memory[0],
         is_non_volatile)
TRUTH_OF(console_irq, spcr, zacpi_spcr_contents, gic_console, console.has_irq)
TRUTH_OF(console_interrupt, spcr, zacpi_spcr_contents, gic_console, console.has_global_system_interrupt)
TRUTH_OF(console_rate, spcr, zacpi_spcr_contents, gic_console, console.has_baud_rate)
TRUTH_OF(secure_el1_on, gtdt, zacpi_gtdt_contents, all_timers, timers.secure_el1.always_on)
TRUTH_OF(non_secure_el1_on, gtdt, zacpi_gtdt_contents, all_timers, timers.non_secure_el1.always_on)
TRUTH_OF(virtual_el1_on, gtdt, zacpi_gtdt_contents, all_timers, timers.virtual_el1.always_on)
TRUTH_OF(el2_on, gtdt, zacpi_gtdt_contents, all_timers, timers.el2.always_on)
TRUTH_OF(virtual_el2_on, gtdt, zacpi_gtdt_contents, all_timers, timers.virtual_el2.always_on)
TRUTH_OF(virtual_el2_there, gtdt, zacpi_gtdt_contents, all_timers, timers.virtual_el2.present)
TRUTH_IN(secure_watchdog, gtdt, zacpi_gtdt_contents, all_timers, platform_timers, zacpi_platform_timer, many_watchdogs,
         watchdog.is_secure)
TRUTH_OF(displayed, bgrt, zacpi_boot_graphic, image, displayed)
static zacpi_status on_a_frame(const struct zacpi_gt_frame *frame, uint8_t *to, size_t capacity, size_t *length) {
    return a_block(frame, 1, to, capacity, length);
}
static zacpi_status secure_frame(uint8_t value, uint8_t *to, size_t capacity, size_t *length) {
    struct zacpi_gt_frame frame = gt_frames[0];
    frame.is_secure = value;
    return on_a_frame(&frame, to, capacity, length);
}
static zacpi_status frame_always_on(uint8_t value, uint8_t *to, size_t capacity, size_t *length) {
    struct zacpi_gt_frame frame = gt_frames[0];
    frame.is_always_on = value;
    return on_a_frame(&frame, to, capacity, length);
}
static zacpi_status s4bios_facs(uint8_t value, uint8_t *to, size_t capacity, size_t *length) {
    const struct zacpi_facs_contents contents = {0, 0, 0, value, 0};
    return zacpi_write_facs(&contents, to, capacity, length);
}
static zacpi_status wake_facs(uint8_t value, uint8_t *to, size_t capacity, size_t *length) {
    const struct zacpi_facs_contents contents = {0, 0, 0, 0, value};
    return zacpi_write_facs(&contents, to, capacity, length);
}

/* Where the table has what the field says, and the bits that are set there. */
static const struct truth {
    const char *name;
    zacpi_status (*write)(uint8_t value, uint8_t *to, size_t capacity, size_t *length);
    size_t at;
    uint8_t bits;
} truths[] = {
#define TRUTH(verb, at, bits) {#verb, verb, at, bits}
    TRUTH(also_has_8259, 40, 1), TRUTH(has_mailbox, 52, 0x10), TRUTH(online_capable, 48, 2), TRUTH(an_x2apic, 44, 9),
    TRUTH(line_of_any, 54, 1), TRUTH(interface_enabled, 80, 1), TRUTH(interface_online, 80, 8),
    TRUTH(frame_of_spis, 164, 1), TRUTH(hot_pluggable, 76, 2), TRUTH(non_volatile, 76, 4), TRUTH(console_irq, 52, 1),
    TRUTH(console_interrupt, 52, 8), TRUTH(console_rate, 58, 7), TRUTH(secure_el1_on, 52, 4),
    TRUTH(non_secure_el1_on, 60, 4), TRUTH(virtual_el1_on, 68, 4), TRUTH(el2_on, 76, 4), TRUTH(virtual_el2_on, 100, 4),
    TRUTH(virtual_el2_there, 96, 28), TRUTH(secure_watchdog, 128, 4), TRUTH(displayed, 38, 1),
    TRUTH(secure_frame, 188, 1), TRUTH(frame_always_on, 188, 2), TRUTH(s4bios_facs, 20, 1), TRUTH(wake_facs, 20, 2)};

static void check_truths(void) {
    static const uint8_t values[] = {0, 1, 2, 3, 4, 0x10, 0x40, 0x80, 255};
    const struct truth *truth;
    for (truth = truths; truth < truths + sizeof truths / sizeof *truths; truth++) {
        uint8_t so[400];
        size_t k, length_so = 0;
        for (k = 0; k < sizeof values; k++) {
            size_t *length = paint_size(&out_count);
            const zacpi_status got = truth->write(values[k], (uint8_t *)paint(&out, 400), 400, length);
            const int holds = (out.at[truth->at] & truth->bits) == (values[k] ? truth->bits : 0);
            if (k == 1) memcpy(so, out.at, 400), length_so = *length;
            result(!got && holds && (k < 2 || (*length == length_so && !memcmp(out.at, so, *length))), truth->name,
                   0, values[k], got);
        }
    }
}
#endif
