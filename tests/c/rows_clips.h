/* Rows of zacpi_clip_ranges, worked out by hand. For rows.c. */
#ifndef ROWS_CLIPS_H
#define ROWS_CLIPS_H

static const struct clip {
    struct clip_lists given;
    size_t ranges_length, without_length;
    struct zacpi_range window;
    zacpi_status status;
    size_t count;
    uint64_t values[12];    /* address and length of each */
    struct clip_lists left; /* what the lists are afterwards */
} clips[] = {
    /* One that touches, two that overlap, and one of no bytes. */
    {{{{0x3000, 0x1000}, {0x1000, 0x1800}, {0x2000, 0x1000}, {0x8000, 0}}, {{0, 0}}}, 4, 0, {0, ONES}, ZACPI_OK,
     1, {0x1000, 0x3000},
     {{{0x1000, 0x1800}, {0x2800, 0x800}, {0x3000, 0x1000}, {0x8000, 0}}, {{0, 0}}}},
    /* The window cuts both ends off, and two that overlap are left out of the middle. */
    {{{{0x20000, 0x1000}, {0x1000, 0x9000}}, {{0x3800, 0x1000}, {0x3000, 0x1000}}}, 2, 2, {0x2000, 0x7000}, ZACPI_OK,
     2, {0x2000, 0x1000, 0x4800, 0x4800},
     {{{0x1000, 0x9000}, {0x20000, 0x1000}}, {{0x3000, 0x1000}, {0x4000, 0x800}}}},
    /* A gap of one byte is kept. */
    {{{{0x5001, 1}, {0x4000, 0x1000}, {0x9000, 1}}, {{0, 0}}}, 3, 0, {0, 0x9001}, ZACPI_OK,
     3, {0x4000, 0x1000, 0x5001, 1, 0x9000, 1},
     {{{0x4000, 0x1000}, {0x5001, 1}, {0x9000, 1}}, {{0, 0}}}},
    {{{{0x1000, 0x1000}}, {{0x800, 0x2000}}}, 1, 1, {0, ONES}, ZACPI_OK, 0, {0},
     {{{0x1000, 0x1000}}, {{0x800, 0x2000}}}},
    {{{{0, 0}}, {{0, 0}}}, 0, 0, {0, ONES}, ZACPI_OK, 0, {0}, {{{0, 0}}, {{0, 0}}}},
    /* In falling order. */
    {{{{0x6000, 0x1000}, {0x5000, 0x1000}, {0x4000, 0x800}, {0x3000, 0x1000}, {0x2000, 0x1000}, {0x1000, 0x1000}},
      {{0x5800, 0x100}, {0x1000, 0x100}}}, 6, 2, {0, ONES}, ZACPI_OK,
     3, {0x1100, 0x3700, 0x5000, 0x800, 0x5900, 0x1700},
     {{{0x1000, 0x1000}, {0x2000, 0x1000}, {0x3000, 0x1000}, {0x4000, 0x800}, {0x5000, 0x1000}, {0x6000, 0x1000}},
      {{0x1000, 0x100}, {0x5800, 0x100}}}},
    /* One inside of another becomes empty, at the end of that; one that overlaps this end begins there. */
    {{{{0x4800, 0x1000}, {0x2000, 0x100}, {0x9000, 0}, {0x1000, 0x4000}}, {{0, 0}}}, 4, 0, {0, ONES}, ZACPI_OK,
     1, {0x1000, 0x4800},
     {{{0x1000, 0x4000}, {0x5000, 0}, {0x5000, 0x800}, {0x9000, 0}}, {{0, 0}}}},
    /* In order as they are: they touch, or have no bytes. */
    {{{{0x1000, 0x1000}, {0x2000, 0}, {0x2000, 0x1000}, {0x9000, 1}}, {{0, 0}, {0x1800, 0x800}}}, 4, 2, {0, ONES},
     ZACPI_OK, 3, {0x1000, 0x800, 0x2000, 0x1000, 0x9000, 1},
     {{{0x1000, 0x1000}, {0x2000, 0}, {0x2000, 0x1000}, {0x9000, 1}}, {{0, 0}, {0x1800, 0x800}}}},
    /* Five are left out of one. */
    {{{{0x1000, 0x9000}}, {{0x2000, 0x800}, {0x3000, 0x800}, {0x4000, 0x800}, {0x5000, 0x800}, {0x6000, 0x800}}}, 1, 5,
     {0, ONES}, ZACPI_OK, 6,
     {0x1000, 0x1000, 0x2800, 0x800, 0x3800, 0x800, 0x4800, 0x800, 0x5800, 0x800, 0x6800, 0x3800},
     {{{0x1000, 0x9000}}, {{0x2000, 0x800}, {0x3000, 0x800}, {0x4000, 0x800}, {0x5000, 0x800}, {0x6000, 0x800}}}},
    /* None has a byte. */
    {{{{0x3000, 0}, {0x1000, 0}, {0x1000, 0}}, {{0x2000, 0}, {0x1000, 0}}}, 3, 2, {0, ONES}, ZACPI_OK, 0, {0},
     {{{0x1000, 0}, {0x1000, 0}, {0x3000, 0}}, {{0x1000, 0}, {0x2000, 0}}}},
    /* As high as a range can end; one that ends at 2^64 is refused, also if it is left out or the window. */
    {{{{ONES - 1, 1}, {ONES - 0xfff, 0xfff}}, {{0, 0}}}, 2, 0, {0, ONES}, ZACPI_OK, 1, {ONES - 0xfff, 0xfff},
     {{{ONES - 0xfff, 0xfff}, {ONES, 0}}, {{0, 0}}}},
    {{{{0x2000, 0x1000}, {0x1000, 0x1000}, {ONES - 0xfff, 0x1000}}, {{0, 0}}}, 3, 0, {0, ONES}, ZACPI_RANGE_TOO_HIGH,
     0, {0}, {{{0x2000, 0x1000}, {0x1000, 0x1000}, {ONES - 0xfff, 0x1000}}, {{0, 0}}}},
    {{{{0x2000, 0x1000}, {0x1000, 0x1000}}, {{ONES - 0xfff, 0x1000}, {0, 1}}}, 2, 2, {0, ONES}, ZACPI_RANGE_TOO_HIGH,
     0, {0}, {{{0x2000, 0x1000}, {0x1000, 0x1000}}, {{ONES - 0xfff, 0x1000}, {0, 1}}}},
    {{{{0x2000, 0x1000}, {0x1000, 0x1000}}, {{0, 0}}}, 2, 0, {1, ONES}, ZACPI_RANGE_TOO_HIGH, 0, {0},
     {{{0x2000, 0x1000}, {0x1000, 0x1000}}, {{0, 0}}}}};

static void check_clip(const struct clip *clip, size_t room) {
    static const struct call as_list = {"clip_ranges", NULL, of_range, sizeof(range), 1};
    const size_t items = clip->status ? 0 : room < clip->count ? room : clip->count;
    size_t *count = paint_size(&out_count);
    struct clip_lists lists = clip->given;
    zacpi_status got;
    got = zacpi_clip_ranges(lists.ranges, clip->ranges_length, lists.without, clip->without_length, &clip->window,
                            (range *)paint(&out, room * sizeof(range)), room, count);
    result(got == clip->status && *count == (got ? UNCOUNTED : clip->count) && is_written(&as_list, clip->values, items)
           && !memcmp(&lists, &clip->left, sizeof lists), "clip_ranges", (int)(clip - clips), room, got);
}
#endif
