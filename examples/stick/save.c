/* SPDX-License-Identifier: MIT */
#include "stick.h"

/* The text is counted first. Then it goes to the file in blocks; after an error nothing more does. */
static uint8_t block[BLOCK] __attribute__((aligned(16)));
static size_t used, counted;
static int is_counted;
static const char *why;

static void to_file(void *to, const char *bytes, size_t length) {
    (void)to;
    if (!is_counted) {
        counted += length;
        return;
    }
    for (; length--; bytes++) {
        block[used++] = (uint8_t)*bytes;
        if (used < BLOCK) continue;
        if (!why) why = write_block(block, used);
        used = 0;
    }
}
static const struct printer file = {to_file, 0};

/* Lines of the screen. They begin with '#', so that they are none of acpidump's. */
static void end_line(const char *line, size_t length) {
    say(&file, length ? "# " : "#");
    to_file(0, line, length);
    say(&file, "\n");
}
static void begin_page(void) { end_line("", 0); }
static struct sheet sheet = {end_line, begin_page, 0, ""};
static const struct printer comments = {to_sheet, &sheet};

/* A row of up to 16 bytes of a table: its offset, the bytes, and their characters. */
static void print_row(const struct entry *entry, uint32_t offset) {
    static const char *const digits = "0123456789ABCDEF";
    int wide = 4;
    uint32_t i;
    while (wide < 8 && offset >> 4 * wide) wide++;
    to_file(0, "    ", (size_t)(8 - wide)), say_digits(&file, offset, wide, digits), say(&file, ": ");
    for (i = offset; i < offset + 16; i++) {
        if (i < entry->here) say_digits(&file, entry->bytes[i], 2, digits), say(&file, " ");
        else say(&file, "   ");
    }
    say(&file, " ");
    for (i = offset; i < offset + 16 && i < entry->here; i++)
        to_file(0, entry->bytes[i] >= ' ' && entry->bytes[i] <= '~' ? (const char *)entry->bytes + i : ".", 1);
    say(&file, "\n");
}

/* A byte of a signature that isn't of a name is two digits, so that nothing is read as a row or as a second heading. */
static void print_table(const struct entry *entry) {
    for (int i = 0; i < 4; i++) {
        const char c = (char)entry->letters[i];
        if ((c >= '0' && c <= '9') || (c >= 'A' && c <= 'Z') || (c >= 'a' && c <= 'z') || c == '_') to_file(0, &c, 1);
        else say_digits(&file, entry->letters[i], 2, "0123456789abcdef");
    }
    say(&file, " @ 0x"), say_digits(&file, entry->address, 16, "0123456789ABCDEF"), say(&file, "\n");
    for (uint32_t offset = 0; offset < entry->here && !why; offset += 16) print_row(entry, offset);
    say(&file, "\n");
}

static void print_text(const struct entry *entries, size_t count, void (*print)(const struct printer *p)) {
    print(&comments);
    say(&file, "\n");
    for (size_t i = 0; i < count; i++)
        if (entries[i].here && !is_private(entries + i)) print_table(entries + i);
}

const char *save_tables(const struct entry *entries, size_t count, void (*print)(const struct printer *p)) {
    const char *closed;
    print_text(entries, count, print);
    is_counted = 1;
    why = open_file(counted);
    if (why) return why;
    print_text(entries, count, print);
    if (used && !why) why = write_block(block, used);
    closed = close_file(block);
    return why ? why : closed;
}
