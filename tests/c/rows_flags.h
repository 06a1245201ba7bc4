/* Each flag of a GTDT's timers, and each length of a RINTC, worked out from the tables' layouts. For rows_written.h. */
#ifndef ROWS_FLAGS_H
#define ROWS_FLAGS_H

/* Of platform_gtdt_bytes: where a byte of flags is, which call shows it, and where each of its bits is in what that
 * returns. Interrupts have a trigger in bit 0 and a polarity in bit 1 (section 5.2.24). */
typedef struct { gt_frame frames[2]; } two_frames;
enum flag_reader { READS_TIMERS, READS_FRAMES, READS_WATCHDOG };
static const struct flags {
    size_t at;
    enum flag_reader reader;
    size_t trigger, polarity, other[2];
    int bit; /* of the first of the others */
} all_flags[] = {
#define TIMER_FLAGS(at, name) {at, READS_TIMERS, offsetof(timers, name.trigger), offsetof(timers, name.polarity), \
                               {offsetof(timers, name.always_on), 0}, 2}
#define FRAME_FLAGS(at, n, name) {at, READS_FRAMES, offsetof(two_frames, frames[n].name##_trigger), \
                                  offsetof(two_frames, frames[n].name##_polarity), {0, 0}, 0}
#define COMMON_FLAGS(at, n) {at, READS_FRAMES, 0, 0, {offsetof(two_frames, frames[n].is_secure), \
                                                      offsetof(two_frames, frames[n].is_always_on)}, 0}
    TIMER_FLAGS(52, secure_el1), TIMER_FLAGS(60, non_secure_el1), TIMER_FLAGS(68, virtual_el1), TIMER_FLAGS(76, el2),
    TIMER_FLAGS(100, virtual_el2),
    {128, READS_WATCHDOG, offsetof(watchdog, trigger), offsetof(watchdog, polarity),
     {offsetof(watchdog, is_secure), 0}, 2},
    FRAME_FLAGS(176, 0, physical), FRAME_FLAGS(184, 0, virtual), COMMON_FLAGS(188, 0),
    FRAME_FLAGS(216, 1, physical), FRAME_FLAGS(224, 1, virtual), COMMON_FLAGS(228, 1)};

static size_t read_flags(enum flag_reader reader, const struct zacpi_source *source) {
    struct zacpi_signature named;
    const size_t size = reader == READS_TIMERS ? sizeof(timers) : reader == READS_FRAMES ? sizeof(two_frames)
                                                                                          : sizeof(watchdog);
    void *to = paint(&out, size);
    size_t *count = paint_size(&out_count);
    const zacpi_status got = reader == READS_TIMERS ? zacpi_get_arm_timers(source, (timers *)to, &named)
                             : reader == READS_FRAMES ? zacpi_list_gt_frames(source, (gt_frame *)to, 2, count, &named)
                                                      : zacpi_list_watchdogs(source, (watchdog *)to, 1, count, &named);
    result(!got && is_left_but(&out, size), "flags", (int)reader, size, got);
    return size;
}

static void check_flags(void) {
    static uint8_t rsdt[40] = {'R', 'S', 'D', 'T', 40, [8] = 1, [37] = 0x20}, gtdt_of_flags[sizeof platform_gtdt_bytes];
    static const struct zacpi_region regions[] = {{0x1000, rsdt, 40}, {0x2000, gtdt_of_flags, sizeof gtdt_of_flags}};
    struct zacpi_source source = {NULL, 2, 0x1000, ZACPI_START_RSDT, 0};
    const struct flags *flags;
    unsigned value;
    uint8_t *bytes;
    memcpy(gtdt_of_flags, platform_gtdt_bytes, sizeof gtdt_of_flags);
    sum_up(rsdt, 40);
    source.regions = all_at_edge(regions, 2), bytes = (uint8_t *)(uintptr_t)source.regions[1].bytes;
    for (flags = all_flags; flags < all_flags + sizeof all_flags / sizeof *all_flags; flags++) {
        const uint8_t was = bytes[flags->at];
        for (value = 0; value < 16; value++) { /* bit 3 is reserved */
            uint8_t shown[sizeof(two_frames)];
            size_t i, size;
            bytes[flags->at] = was, sum_up(bytes, sizeof gtdt_of_flags);
            size = read_flags(flags->reader, &source);
            memcpy(shown, out.at, size);
            if (flags->polarity) {
                shown[flags->trigger] = value & 1 ? ZACPI_TRIGGER_EDGE : ZACPI_TRIGGER_LEVEL;
                shown[flags->polarity] = value & 2 ? ZACPI_POLARITY_LOW : ZACPI_POLARITY_HIGH;
            }
            for (i = 0; i < 2; i++)
                if (flags->other[i]) shown[flags->other[i]] = value >> (flags->bit + i) & 1;
            bytes[flags->at] = (uint8_t)value, sum_up(bytes, sizeof gtdt_of_flags);
            read_flags(flags->reader, &source);
            result(!memcmp(out.at, shown, size), "flags", (int)flags->at, value, 0);
        }
        bytes[flags->at] = was;
    }
}

/* A number of which so many bytes are there, and the others are read as 0. */
static uint64_t front_of(uint64_t number, size_t from, size_t length) {
    return length <= from ? 0 : length - from >= 8 ? number : number & (((uint64_t)1 << 8 * (length - from)) - 1);
}
/* A RINTC has 20 bytes at least, else it is none, and the bytes past its end are read as 0: External Interrupt
 * Controller ID is at 20, IMSIC Base Address at 24, IMSIC Size at 32 (ACPI 6.6, section 5.2.12). */
static void check_rintc_lengths(void) {
    static uint8_t rsdt[40] = {'R', 'S', 'D', 'T', 40, [8] = 1, [37] = 0x20};
    static uint8_t madt_bytes_of[44 + 44] = {'A', 'P', 'I', 'C', [8] = 6, [44] = 0x18, 0, 1, 0, 1, 0, 0, 0,
        8, 7, 6, 5, 4, 3, 2, 1, 0x14, 0x13, 0x12, 0x11, 0x24, 0x23, 0x22, 0x21,
        0x38, 0x37, 0x36, 0x35, 0x34, 0x33, 0x32, 0x31, 0x44, 0x43, 0x42, 0x41, 0x54, 0x53, 0x52, 0x51};
    size_t length;
    sum_up(rsdt, 40);
    for (length = 18; length <= 44; length++) {
        const size_t whole = 44 + length, count = length < 20 ? 0 : 1;
        const struct zacpi_region regions[] = {{0x1000, rsdt, 40}, {0x2000, madt_bytes_of, whole}};
        struct zacpi_source source = {NULL, 2, 0x1000, ZACPI_START_RSDT, 0};
        struct zacpi_signature named = {{'?', '?', '?', '?'}};
        const uint64_t values[] = {0x0102030405060708, front_of(0x3132333435363738, 24, length), 1, 0x11121314,
                                   front_of(0x21222324, 20, length), front_of(0x41424344, 32, length), 1};
        size_t *counted;
        zacpi_status got;
        put(madt_bytes_of + 4, 4, whole), madt_bytes_of[45] = (uint8_t)length;
        sum_up(madt_bytes_of, whole);
        source.regions = all_at_edge(regions, 2);
        counted = paint_size(&out_count);
        got = zacpi_list_rintcs(&source, (rintc *)paint(&out, sizeof(rintc)), 1, counted, &named);
        result(count ? !got && *counted == 1 && is_written(&call_list_rintcs, values, 1)
                     : got == ZACPI_NO_RISCV && *counted == UNCOUNTED && is_left_but(&out, 0),
               "a RINTC", (int)length, 1, got);
    }
}
#endif
