/* The regions of each source that rows.c passes, and which source is a machine's. For rows.c. */
#ifndef ROWS_SOURCES_H
#define ROWS_SOURCES_H

/* The last region ends at 2^64 - 1, as high as one can. */
#define MEMORY {BASE, memory, SIZE}
static const struct zacpi_region usual[] = {MEMORY, {CUT(0), cut[0], CUT_SIZE}, {CUT(1), cut[1], CUT_SIZE},
                                           {CUT(2), cut[2], CUT_SIZE}, {LAST_MADT, last_madt_bytes, LAST_MADT_SIZE},
                                           {LAST_IVRS, last_ivrs_bytes, LAST_IVRS_SIZE},
                                           {PART_HPET, cut[3], CUT_SIZE}, {PART_MADT, cut[4], CUT_SIZE},
                                           {ONES - 16, top, 16}};
static const struct zacpi_region not_ascending[] = {MEMORY, {BASE + SIZE - 1, top, 1}};
/* A region of no bytes: inside the one before it, and at its end. */
static const struct zacpi_region empty_inside[] = {MEMORY, {BASE + 1, top, 0}};
static const struct zacpi_region empty_after[] = {MEMORY, {BASE + SIZE, top, 0}};
static const struct zacpi_region too_high[] = {MEMORY, {ONES - 15, top, 16}};
/* What a search for the RSDP asks for: the word, the first area, and the second. */
static const struct zacpi_region no_bios[] = {{0x40e, word, 2}};
static const struct zacpi_region no_ebda[] = {{0x40e, word, 2}, {BIOS, zeros, BIOS_SIZE}};
static const struct zacpi_region no_low[] = {{0x40e, zeros, 2}, {BIOS, zeros, BIOS_SIZE}};
static const struct zacpi_region no_rsdp[] = {{0x40e, word, 2}, {EBDA, zeros, EBDA_SIZE}, {BIOS, zeros, BIOS_SIZE}};
static const struct zacpi_region no_root[] = {{0x40e, word, 2}, {EBDA, ebda, EBDA_SIZE}, {BIOS, zeros, BIOS_SIZE}};
static const struct zacpi_region found[] = {{0x40e, word, 2}, {BIOS, bios, BIOS_SIZE}};
/* RSDPs that are too long: with no second area, with one, and with one whose RSDP leads to the table EMPTY. */
static const struct zacpi_region long_alone[] = {{0x40e, word, 2}, {BIOS, long_bios, BIOS_SIZE}};
static const struct zacpi_region long_and_ebda[] = {{0x40e, word, 2}, {EBDA, ebda, EBDA_SIZE},
                                                    {BIOS, long_bios, BIOS_SIZE}};
static const struct zacpi_region long_and_tables[] = {{0x40e, word, 2}, {EBDA, ebda, EBDA_SIZE},
                                                      {BIOS, long_bios, BIOS_SIZE}, {0x200000, memory, 36}};
/* Parts of the areas: the EBDA, and the other area without it; the last 20 bytes, or 36, from its RSDP on; the last 64
 * bytes of the EBDA with those RSDPs. */
static const struct zacpi_region lent_no_root[] = {{0x40e, word, 2}, {EBDA, ebda, 0x400}, {BIOS, bios, 0x20000}};
static const struct zacpi_region lent_bios[] = {{BIOS, bios, BIOS_SIZE}};
static const struct zacpi_region lent_20_bytes[] = {{BIOS + 0x10000, bios + 0x10000, 0x10000}};
static const struct zacpi_region lent_36_bytes[] = {{BIOS + 0x10000, bios + 0x10000, 0x10004}};
static const struct zacpi_region lent_long[] = {{BIOS, long_bios, 0x20}, {BIOS + 0x20, long_bios + 0x20, 0x1fff0}};
static const struct zacpi_region lent_long_ebda[] = {{0x40e, word, 2}, {EBDA + 0x3c0, ebda + 0x3c0, 0x50},
                                                     {BIOS, bios, BIOS_SIZE}};

/* Of the word at 0x40e one byte is lent; its EBDA ends at 640 KiB, or would begin there; the EBDA isn't lent as a
 * whole; and regions between those that are looked for. */
static const struct zacpi_region half_word[] = {{0x40e, word, 1}, {BIOS, bios, BIOS_SIZE}};
static const struct zacpi_region high_words[] = {{0x40e, high_word, 2}, {BIOS, zeros, BIOS_SIZE}};
static const struct zacpi_region high_lent[] = {{0x40e, high_word, 2}, {HIGH_EBDA, high_ebda, HIGH_EBDA_SIZE},
                                                {0x200000, memory, 36}};
static const struct zacpi_region too_high_words[] = {{0x40e, too_high_word, 2}, {BIOS, zeros, BIOS_SIZE}};
static const struct zacpi_region short_ebda[] = {{0x40e, word, 2}, {EBDA, zeros, 0x3ff}, {BIOS, zeros, BIOS_SIZE}};
static const struct zacpi_region many[] = {{0x100, top, 1}, {0x200, top, 1}, {0x300, top, 1}, {0x40e, word, 2},
                                           {0x410, top, 1}, {0x500, top, 1}, {0x600, top, 1}, {0x700, top, 1},
                                           {EBDA, zeros, EBDA_SIZE}, {BIOS, bios, BIOS_SIZE}, {0x200000, memory, 36},
                                           {0x300000, top, 16}};
static const struct zacpi_region zero_word[] = {{0x40e, zeros, 2}, {BIOS, bios, BIOS_SIZE}};
static const struct zacpi_region many_failed[] = {{0x100, top, 1}, {0x200, top, 1}, {0x40e, word, 2},
                                                  {BIOS, zeros, BIOS_SIZE}, {0x200000, memory, 36}, {0x300000, top, 1},
                                                  {0x400000, top, 1}, {0x500000, top, 1}};

/* The memory with the tables alone; and with a few bytes after it, so that at the end of a page no table is aligned: as
 * the last of four regions, of which the first begins at 0 and the second touches it, and before one that touches it
 * and two whose addresses have a lower half that is below its. */
static const struct zacpi_region alone[] = {MEMORY};
static const struct zacpi_region at_last[] = {{0, top, 1}, {1, top, 2}, {0x3000, top, 16},
                                              {BASE, memory, SIZE + 9}};
static const struct zacpi_region before_high[] = {{BASE, memory, SIZE + 5}, {BASE + SIZE + 5, top, 1},
                                                  {0x100000000, top, 16}, {0x200000010, top, 16}};
static const struct zacpi_region only_high[] = {{0x100000000, top, 16}};

static const struct zacpi_source *own_source; /* in place of a machine's */
static struct zacpi_source source_of(int machine) {
#define SOURCE(regions, address, start) {regions, sizeof(regions) / sizeof *(regions), address, start, 0}
    static const struct zacpi_source sources[] = {
        SOURCE(usual, 0x200000, ZACPI_START_RSDP), SOURCE(usual, 0, ZACPI_START_BIOS_SEARCH),
        SOURCE(not_ascending, AT(EMPTY), ZACPI_START_RSDT), SOURCE(too_high, AT(EMPTY), ZACPI_START_RSDT),
        SOURCE(usual, AT(EMPTY), 5), SOURCE(no_bios, 0, ZACPI_START_BIOS_SEARCH),
        SOURCE(no_ebda, 0, ZACPI_START_BIOS_SEARCH), SOURCE(no_low, 0, ZACPI_START_BIOS_SEARCH),
        SOURCE(no_rsdp, 0, ZACPI_START_BIOS_SEARCH), SOURCE(no_root, 0, ZACPI_START_BIOS_SEARCH),
        SOURCE(found, 0, ZACPI_START_BIOS_SEARCH), SOURCE(empty_inside, AT(EMPTY), ZACPI_START_RSDT),
        SOURCE(empty_after, AT(EMPTY), ZACPI_START_RSDT), SOURCE(long_alone, 0, ZACPI_START_BIOS_SEARCH),
        SOURCE(long_and_ebda, 0, ZACPI_START_BIOS_SEARCH), SOURCE(long_and_tables, 0, ZACPI_START_BIOS_SEARCH),
        SOURCE(usual, 0, ZACPI_START_SEARCH), SOURCE(lent_no_root, 0, ZACPI_START_SEARCH),
        SOURCE(lent_bios, 0, ZACPI_START_SEARCH), SOURCE(lent_20_bytes, 0, ZACPI_START_SEARCH),
        SOURCE(lent_36_bytes, 0, ZACPI_START_SEARCH), SOURCE(lent_long, 0, ZACPI_START_SEARCH),
        SOURCE(lent_long_ebda, 0, ZACPI_START_SEARCH), SOURCE(long_and_tables, 0, ZACPI_START_SEARCH),
        {NULL, 0, AT(EMPTY), ZACPI_START_RSDT, 0}, SOURCE(usual, AT(PC), ZACPI_START_RSDT),
        SOURCE(usual, AT(EMPTY), ZACPI_START_XSDT), SOURCE(usual, AT(EMPTY), 0x10000),
        SOURCE(usual, 0x500, ZACPI_START_RSDT), SOURCE(usual, BASE + SIZE - 35, ZACPI_START_RSDT),
        SOURCE(half_word, 0, ZACPI_START_BIOS_SEARCH), SOURCE(half_word, 0, ZACPI_START_SEARCH),
        SOURCE(high_words, 0, ZACPI_START_BIOS_SEARCH), SOURCE(high_lent, 0, ZACPI_START_SEARCH),
        SOURCE(too_high_words, 0, ZACPI_START_BIOS_SEARCH), SOURCE(too_high_words, 0, ZACPI_START_SEARCH),
        SOURCE(short_ebda, 0, ZACPI_START_BIOS_SEARCH), SOURCE(many, 0, ZACPI_START_SEARCH),
        SOURCE(many, 0, ZACPI_START_BIOS_SEARCH), {NULL, 0, 0, ZACPI_START_BIOS_SEARCH, 0},
        {NULL, 0, 0, ZACPI_START_SEARCH, 0}, SOURCE(zero_word, 0, ZACPI_START_SEARCH),
        SOURCE(many_failed, 0, ZACPI_START_BIOS_SEARCH), SOURCE(only_high, 0, ZACPI_START_BIOS_SEARCH),
        SOURCE(only_high, 0, ZACPI_START_SEARCH)};
    struct zacpi_source source = SOURCE(usual, AT((unsigned)machine), ZACPI_START_RSDT);
    if (own_source) return *own_source;
    if (machine >= START_RSDP) return sources[machine - START_RSDP];
    if (machine >= RSDP_0) source.start = ZACPI_START_RSDP;
    else if (*tables[machine].signature == 'X') source.start = ZACPI_START_XSDT;
    return source;
}

/* A source with its regions at the edge. Their bytes stay as they are, so of each list there is one copy. */
static struct zacpi_source source_at_edge(struct zacpi_source source) {
    static struct { const struct zacpi_region *given, *copied; } all[128];
    size_t i = 0;
    if (!source.regions) return source;
    while (all[i].given && all[i].given != source.regions) i++;
    if (!all[i].given) {
        all[i].given = source.regions;
        all[i].copied = all_at_edge(source.regions, source.regions_length);
    }
    source.regions = all[i].copied;
    return source;
}
#endif
