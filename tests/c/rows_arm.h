/* Rows of the calls that write the tables of an Arm machine, with each byte worked out by hand from the layouts. For
 * rows_written.h. */
#ifndef ROWS_ARM_H
#define ROWS_ARM_H

/* ---- The GTDT (section 5.2.24) --------------------------------------------------------------------------- */

/* `present` is looked at of virtual_el2 alone, and platform_timers_malformed isn't. */
#define EL1_TIMERS {29, ZACPI_POLARITY_LOW, ZACPI_TRIGGER_LEVEL, 0, 0}, \
    {30, ZACPI_POLARITY_HIGH, ZACPI_TRIGGER_EDGE, 1, 1}, \
    {0x04030201, ZACPI_POLARITY_LOW, ZACPI_TRIGGER_EDGE, 255, 7}
#define EDGE_LOW ZACPI_POLARITY_LOW, ZACPI_TRIGGER_EDGE
#define EDGE_HIGH ZACPI_POLARITY_HIGH, ZACPI_TRIGGER_EDGE
#define LEVEL_LOW ZACPI_POLARITY_LOW, ZACPI_TRIGGER_LEVEL
#define LEVEL_HIGH ZACPI_POLARITY_HIGH, ZACPI_TRIGGER_LEVEL
/* A frame of secure software, which EL0 doesn't see; no block has 1638. */
static const struct zacpi_gt_frame gt_frames[] = {
    {9, 0x2a830000, 0x2a840000, 313, 570, 1, EDGE_HIGH, LEVEL_LOW, 0, 255},
    {9, 0x12a850000, 0xffffffffffffffff, 315, 572, 2, EDGE_LOW, LEVEL_HIGH, 1, 0}};
static const struct zacpi_gt_frame many_frames[1638];
/* Of a block the watchdog isn't looked at, and of a watchdog the block isn't. */
#define NO_WATCHDOG {9, 9, 9, 9, 9, 9}
#define WATCHDOG_OF(polarity, trigger) {0x2a450000, 0x12a440000, 829, polarity, trigger, 255}
static const struct zacpi_platform_timer platform_timers[] = {
    {1, {0}, 9, many_frames, 1638, WATCHDOG_OF(ZACPI_POLARITY_LOW, ZACPI_TRIGGER_LEVEL)},
    {0, {0}, 0x2a810000, gt_frames, 2, NO_WATCHDOG}, {0, {0}, 0x100, gt_frames, 0, NO_WATCHDOG}};
#define EL2(...) {26, LEVEL_HIGH, 0, 1}, __VA_ARGS__
static const struct zacpi_gtdt_contents all_timers = {
    {0x0102030405060708, 0xf1f2f3f4f5f6f7f8, EL1_TIMERS, EL2({28, LEVEL_LOW, 1, 255}), 9}, platform_timers, 0};
static const struct zacpi_gtdt_contents with_platform_timers = {
    {0x0102030405060708, 0xf1f2f3f4f5f6f7f8, EL1_TIMERS, EL2({28, LEVEL_LOW, 1, 255}), 9}, LISTED(platform_timers)};
static const struct zacpi_gtdt_contents no_virtual_el2 = {
    {0xffffffffffffffff, 0xffffffffffffffff, EL1_TIMERS, EL2({9, EDGE_LOW, 1, 0}), 0}, platform_timers, 0};
static const struct zacpi_gtdt_contents virtual_el2_of_zeros = {
    {0xffffffffffffffff, 0xffffffffffffffff, EL1_TIMERS, EL2({0, 0, 0, 0, 0}), 0}, platform_timers, 0};
static const struct zacpi_gtdt_contents virtual_el2_of_no_codes = {
    {0xffffffffffffffff, 0xffffffffffffffff, EL1_TIMERS, EL2({9, 2, 4, 1, 0}), 0}, platform_timers, 0};
static const struct zacpi_gtdt_contents timers_as_bus = {{0, 0, EL1_TIMERS,
    {26, ZACPI_POLARITY_BUS, ZACPI_TRIGGER_LEVEL, 0, 1}, {9, EDGE_LOW, 1, 1}, 0}, platform_timers, 0};

/* Secure EL1 Timer: active low, level. Non-Secure EL1 Timer: active high, edge, always on. Virtual EL1 Timer: active
 * low, edge, always on. EL2 Timer: active high, level. */
#define TIMERS 29, 0, 0, 0, 2, 0, 0, 0, 30, 0, 0, 0, 5, 0, 0, 0, 1, 2, 3, 4, 7, 0, 0, 0, 26, 0, 0, 0, 0, 0, 0, 0
#define NO_ADDRESS 255, 255, 255, 255, 255, 255, 255, 255
static const uint8_t gtdt_bytes[] = {HEAD('G', 'T', 'D', 'T', 104, 3, 0x72),
    8, 7, 6, 5, 4, 3, 2, 1, 0, 0, 0, 0, TIMERS,                           /* CntControlBase, Reserved */
    0xf8, 0xf7, 0xf6, 0xf5, 0xf4, 0xf3, 0xf2, 0xf1,                       /* CntReadBase */
    0, 0, 0, 0, 104, 0, 0, 0,                                             /* Platform Timer Count and Offset */
    28, 0, 0, 0, 6, 0, 0, 0};                                             /* Virtual EL2 Timer: low, level, always on */
static const uint8_t platform_gtdt_bytes[] = {HEAD('G', 'T', 'D', 'T', 252, 3, 0x4d),
    8, 7, 6, 5, 4, 3, 2, 1, 0, 0, 0, 0, TIMERS, 0xf8, 0xf7, 0xf6, 0xf5, 0xf4, 0xf3, 0xf2, 0xf1,
    3, 0, 0, 0, 104, 0, 0, 0, 28, 0, 0, 0, 6, 0, 0, 0,
    1, 28, 0, 0, 0, 0, 0x45, 0x2a, 0, 0, 0, 0, 0, 0, 0x44, 0x2a, 1, 0, 0, 0, /* Watchdog: its two frames */
    61, 3, 0, 0, 6, 0, 0, 0,                                              /* GSIV, Flags: low, level, secure */
    0, 100, 0, 0, 0, 0, 0x81, 0x2a, 0, 0, 0, 0, 2, 0, 0, 0, 20, 0, 0, 0,  /* GT Block: address, Timer Count, Offset */
    1, 0, 0, 0, 0, 0, 0x83, 0x2a, 0, 0, 0, 0, 0, 0, 0x84, 0x2a, 0, 0, 0, 0, /* GTx: Number, CntBaseX, CntEL0BaseX */
    57, 1, 0, 0, 1, 0, 0, 0, 58, 2, 0, 0, 2, 0, 0, 0, 2, 0, 0, 0,         /* physical, virtual: GSIV, Flags; Common */
    2, 0, 0, 0, 0, 0, 0x85, 0x2a, 1, 0, 0, 0, NO_ADDRESS,
    59, 1, 0, 0, 3, 0, 0, 0, 60, 2, 0, 0, 0, 0, 0, 0, 1, 0, 0, 0,
    0, 20, 0, 0, 0, 1, 0, 0, 0, 0, 0, 0, 0, 0, 0, 0, 20, 0, 0, 0};
static const uint8_t gtdt_without_virtual_el2[] = {HEAD('G', 'T', 'D', 'T', 104, 3, 0x6c),
    NO_ADDRESS, 0, 0, 0, 0, TIMERS, NO_ADDRESS, 0, 0, 0, 0, 104, 0, 0, 0, 0, 0, 0, 0, 0, 0, 0, 0};

/* ---- The MADT of a GIC (sections 5.2.12.14 to 5.2.12.18) ------------------------------------------------- */

static const struct zacpi_gic_cpu_interface interfaces[] = {
    {0x1112131415161718, 0x0102030405060708, 0x08010000, 0x08040000, 0x08030000, 0x080a0000, 1, 2, 23, 25, 3, 21, 0x117,
     1, 255, ZACPI_TRIGGER_EDGE, ZACPI_TRIGGER_LEVEL, 5},
    {0, 0, 0, 0, 0, 0, 0x01020304, 0xffffffff, 0, 0, 0, 0, 0, 0, 0, ZACPI_TRIGGER_LEVEL, ZACPI_TRIGGER_EDGE, 0}};
static const struct zacpi_range redistributors[] = {{0x1080a0000, 0xffffffff}};
static const struct zacpi_range long_redistributors[] = {{0, 0}, {0, 0x100000000}};
static const struct zacpi_gic_translation_service services[] = {{0x08080000, 7}};
/* The second one's SPIs aren't looked at. */
static const struct zacpi_gic_msi_frame frames[] = {{0x08020000, 1, 0x150, 64, 255}, {0x08030000, 2, 9, 9, 0}};
#define GICD {0x108000000, 0x01020304, 9, 3}
static const struct zacpi_gic_contents whole_gic = {
    GICD, LISTED(interfaces), LISTED(redistributors), LISTED(services), LISTED(frames)};
static const struct zacpi_gic_contents small_gic = {
    GICD, interfaces + 1, 1, NONE(redistributors), NONE(services), NONE(frames)};
static const struct zacpi_gic_contents gic_without_processor = {
    GICD, NONE(interfaces), LISTED(redistributors), NONE(services), NONE(frames)};
static const struct zacpi_gic_contents gic_of_long_range = {
    GICD, NONE(interfaces), LISTED(long_redistributors), NONE(services), NONE(frames)};

#define GICD_ENTRY 12, 24, 0, 0, 4, 3, 2, 1, 0, 0, 0, 8, 1, 0, 0, 0, 9, 0, 0, 0, 3, 0, 0, 0
/* The 80 bytes of the second GICC, without TRBE Interrupt: not enabled; of Flags VGIC Maintenance Interrupt Mode. */
#define SHORT_GICC 11, 80, 0, 0, 4, 3, 2, 1, 255, 255, 255, 255, 4, 0, 0, 0, \
    ZEROS_12, ZEROS_12, ZEROS_12, ZEROS_12, ZEROS_12, 0, 0, 0, 0
static const uint8_t gic_bytes[] = {LONG_HEAD('A', 'P', 'I', 'C', 58, 1, 6, 0xa4), 0, 0, 0, 0, 0, 0, 0, 0, GICD_ENTRY,
    11, 82, 0, 0, 1, 0, 0, 0, 2, 0, 0, 0, 0x0b, 0, 0, 0, 3, 0, 0, 0, 23, 0, 0, 0, /* GICC: Number, UID, Flags, .. */
    8, 7, 6, 5, 4, 3, 2, 1, 0, 0, 1, 8, 0, 0, 0, 0,  /* Parked Address, Physical Base Address */
    0, 0, 4, 8, 0, 0, 0, 0, 0, 0, 3, 8, 0, 0, 0, 0,  /* GICV, GICH */
    25, 0, 0, 0, 0, 0, 0x0a, 8, 0, 0, 0, 0,          /* VGIC Maintenance interrupt, GICR Base Address */
    0x18, 0x17, 0x16, 0x15, 0x14, 0x13, 0x12, 0x11,  /* MPIDR */
    5, 0, 21, 0, 0x17, 1,                            /* Efficiency Class, SPE overflow Interrupt, TRBE Interrupt */
    SHORT_GICC,
    14, 16, 0, 0, 0, 0, 0x0a, 8, 1, 0, 0, 0, 255, 255, 255, 255,               /* GICR */
    15, 20, 0, 0, 7, 0, 0, 0, 0, 0, 8, 8, 0, 0, 0, 0, 0, 0, 0, 0,              /* GIC ITS */
    13, 24, 0, 0, 1, 0, 0, 0, 0, 0, 2, 8, 0, 0, 0, 0, 1, 0, 0, 0, 64, 0, 80, 1, /* GIC MSI Frame: SPI Count, Base */
    13, 24, 0, 0, 2, 0, 0, 0, 0, 0, 3, 8, 0, 0, 0, 0, 0, 0, 0, 0, 0, 0, 0, 0};
static const uint8_t small_gic_bytes[] = {HEAD('A', 'P', 'I', 'C', 148, 6, 0x70), 0, 0, 0, 0, 0, 0, 0, 0, GICD_ENTRY,
    SHORT_GICC};

/* ---- A machine ------------------------------------------------------------------------------------------- */

/* The RSDP at 0x7fe00000, the XSDT 0x30 on, the GTDT 0x70 on, and the MADT 0xe0 on; there is no DSDT. */
static uint8_t arm_machine_bytes[0x220];
static const uint8_t arm_machine_xsdt[] = {HEAD('X', 'S', 'D', 'T', 52, 1, 0x49), LISTED_AT(0x70, 0),
    LISTED_AT(0xe0, 0)};

static void lay_arm_machine(void) {
    uint8_t *to = lay(arm_machine_bytes, machine_rsdp, sizeof machine_rsdp);
    to = lay(to, arm_machine_xsdt, sizeof arm_machine_xsdt);
    to = lay(to, gtdt_bytes, sizeof gtdt_bytes);
    lay(to, gic_bytes, sizeof gic_bytes);
}
MACHINE(an_arm_machine, on_two(LISTED(gtdt_bytes), LISTED(gic_bytes), to, room, length))

/* Whether these timers are refused. */
static void check_timers(int row, const struct zacpi_gtdt_contents *timers, zacpi_status status) {
    size_t *length = paint_size(&out_count);
    zacpi_status got = zacpi_write_gtdt(ids, timers, (uint8_t *)paint(&out, OUTPUT), OUTPUT, length);
    result(got == status && *length == UNCOUNTED && is_left_but(&out, 0), "a GTDT of bad codes", row, 0, got);
}
/* Whether the MADT of this GIC is. */
static void check_gic(int row, const struct zacpi_gic_contents *gic, zacpi_status status) {
    size_t *length = paint_size(&out_count);
    zacpi_status got = zacpi_write_gic_madt(ids, gic, (uint8_t *)paint(&out, OUTPUT), OUTPUT, length);
    result(got == status && *length == UNCOUNTED && is_left_but(&out, 0), "a GIC of bad codes", row, 0, got);
}
/* Each trigger of a processor as the bus has it, and of a number that is no code, which comes before a range that is too
 * long, and this before a trigger as the bus has it. */
static void check_gic_codes(void) {
    int i;
    for (i = 0; i < 4; i++) {
        struct zacpi_gic_cpu_interface two[] = {interfaces[0], interfaces[1]};
        struct zacpi_gic_contents gic = whole_gic;
        uint8_t *at = i % 2 ? &two[i / 2].performance_trigger : &two[i / 2].maintenance_trigger;
        gic.cpu_interfaces = two;
        *at = 0;
        check_gic(i, &gic, ZACPI_SAME_AS_BUS);
        gic.redistributors = long_redistributors;
        gic.redistributors_length = sizeof long_redistributors / sizeof *long_redistributors;
        check_gic(i, &gic, ZACPI_BAD_RANGE);
        *at = i < 2 ? 2 : 4;
        check_gic(i, &gic, ZACPI_UNKNOWN_CODE);
    }
}
/* Each polarity and trigger with a number that is no code, and with that of the bus, of processors, of the second frame
 * of the second timer, and of a watchdog after it. A number that is none comes before an earlier timer that is as the
 * bus has it. The last are a kind that is none, and a block of too many frames. */
static void check_arm_codes(void) {
    int i;
    for (i = 0; i < 18; i++) {
        struct zacpi_gtdt_contents gtdt = with_platform_timers;
        struct zacpi_arm_timers *t = &gtdt.timers;
        struct zacpi_gt_frame two[] = {gt_frames[0], gt_frames[1]};
        struct zacpi_platform_timer of[] = {platform_timers[0], platform_timers[1], platform_timers[0]};
        uint8_t *codes[] = {&t->secure_el1.trigger, &t->secure_el1.polarity, &t->non_secure_el1.trigger,
            &t->non_secure_el1.polarity, &t->virtual_el1.trigger, &t->virtual_el1.polarity, &t->el2.trigger,
            &t->el2.polarity, &t->virtual_el2.trigger, &t->virtual_el2.polarity, &two[1].physical_trigger,
            &two[1].physical_polarity, &two[1].virtual_trigger, &two[1].virtual_polarity, &of[2].watchdog.trigger,
            &of[2].watchdog.polarity, 0, 0};
        of[1].frames = two, gtdt.platform_timers = of, gtdt.platform_timers_length = 3;
        if (i < 16) {
            *codes[i] = 0;
            check_timers(i, &gtdt, ZACPI_SAME_AS_BUS);
            *codes[i] = i < 5 ? 2 : 4;
        } else if (i == 16) {
            of[2].kind = 2;
        } else {
            of[1].frames = many_frames, of[1].frames_length = 1638;
            check_timers(i, &gtdt, ZACPI_TOO_MANY_FRAMES);
            continue;
        }
        check_timers(i, &gtdt, ZACPI_UNKNOWN_CODE);
        if (i > 1) t->secure_el1.polarity = 0;
        check_timers(i, &gtdt, ZACPI_UNKNOWN_CODE);
    }
}
#endif
