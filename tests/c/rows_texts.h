/* Which bytes are a text: each kind of well-formed sequence (Unicode 15.0, table 3-7), and what is beside it, as the
 * OEMID of a table that is read and of one that is written. For rows_written.h. */
#ifndef ROWS_TEXTS_H
#define ROWS_TEXTS_H

/* First bytes, how many bytes follow each, and between which the second one is; others are from 0x80 to 0xbf. */
static const struct { uint8_t first, last, more, low, high; } sequences[] = {
    {0x00, 0x7f, 0, 0, 0}, {0xc2, 0xdf, 1, 0x80, 0xbf}, {0xe0, 0xe0, 2, 0xa0, 0xbf}, {0xe1, 0xec, 2, 0x80, 0xbf},
    {0xed, 0xed, 2, 0x80, 0x9f}, {0xee, 0xef, 2, 0x80, 0xbf}, {0xf0, 0xf0, 3, 0x90, 0xbf}, {0xf1, 0xf3, 3, 0x80, 0xbf},
    {0xf4, 0xf4, 3, 0x80, 0x8f}};
enum { SEQUENCES = sizeof sequences / sizeof *sequences };
static int is_text(const uint8_t *bytes, size_t length) {
    while (length) {
        size_t i = 0, k;
        while (i < SEQUENCES && (*bytes < sequences[i].first || *bytes > sequences[i].last)) i++;
        if (i == SEQUENCES || sequences[i].more >= length) return 0;
        for (k = 1; k <= sequences[i].more; k++)
            if (bytes[k] < (k > 1 ? 0x80 : sequences[i].low) || bytes[k] > (k > 1 ? 0xbf : sequences[i].high)) return 0;
        bytes += k, length -= k;
    }
    return 1;
}

static void check_text(const uint8_t *letters, uint8_t *root, const struct zacpi_source *source) {
    struct zacpi_table_ids named_so = makers;
    struct zacpi_signature named = {{'?', '?', '?', '?'}};
    struct zacpi_root opened;
    size_t length;
    const int holds = is_text(letters, 6);
    zacpi_status got;
    memcpy(root + 10, letters, 6), sum_up(root, 36);
    got = zacpi_open(source, &opened, &named);
    result(got == (holds ? ZACPI_OK : (zacpi_status)ZACPI_SDT_INVALID_OEM_ID)
           && !memcmp(named.letters, holds ? "????" : "RSDT", 4), "a text that is read", letters[0] << 8 | letters[1],
           letters[2], got);
    memcpy(named_so.oem_id, letters, 6);
    got = zacpi_write_ssdt(&named_so, 1, NONE(code), NULL, 0, &length);
    result(got == (zacpi_status)(holds ? ZACPI_NO_ROOM : ZACPI_BAD_NAME), "a text that is written",
           letters[0] << 8 | letters[1], letters[2], got);
}

/* Each sequence of bytes beside which others begin, at the front, at the end, and cut short by it. */
static void check_texts(void) {
    static const uint8_t firsts[] = {0x7f, 0x80, 0xbf, 0xc0, 0xc1, 0xc2, 0xdf, 0xe0, 0xe1, 0xec, 0xed, 0xee, 0xef, 0xf0,
                                     0xf1, 0xf3, 0xf4, 0xf5, 0xff};
    static const uint8_t seconds[] = {'A', 0x7f, 0x80, 0x8f, 0x90, 0x9f, 0xa0, 0xbf, 0xc0};
    static const uint8_t others[] = {0x7f, 0x80, 0xbf, 0xc0};
    static uint8_t rsdt[36] = {'R', 'S', 'D', 'T', 36, [8] = 1};
    static const struct zacpi_region regions[] = {{0x1000, rsdt, 36}};
    struct zacpi_source source = {NULL, 1, 0x1000, ZACPI_START_RSDT, 0};
    size_t i, k, m, n, at;
    uint8_t *root;
    source.regions = all_at_edge(regions, 1), root = (uint8_t *)(uintptr_t)source.regions[0].bytes;
    for (i = 0; i < sizeof firsts; i++)
        for (k = 0; k < sizeof seconds; k++)
            for (m = 0; m < sizeof others; m++)
                for (n = 0; n < sizeof others; n++)
                    for (at = 0; at < 6; at += m == n ? 1 : 2) {
                        const uint8_t bytes[4] = {firsts[i], seconds[k], others[m], others[n]};
                        uint8_t letters[6] = {'A', 'B', 'C', 'D', 'E', 'F'};
                        memcpy(letters + at, bytes, at < 2 ? 4 : 6 - at);
                        check_text(letters, root, &source);
                    }
}
#endif
