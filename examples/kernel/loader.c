#include "loader.h"
#include "machine.h"

/* A range of the memory map: address and length of 8 bytes each, and a type of 4 right after them, in all three. */
static void add_range(const volatile uint8_t *entry, const struct printer *p, struct loaded *out) {
    struct zacpi_range range = {low(entry, 8), low(entry + 8, 8)};
    say(p, "map "), say_address(p, range.address), say(p, " "), say_address(p, range.length);
    say(p, " type "), say_number(p, low(entry + 16, 4)), say(p, "\n");
    if (out->memory_length < sizeof out->memory / sizeof *out->memory) out->memory[out->memory_length++] = range;
}

/* Multiboot 1, section 3.3: flags at 0, by bit 2 of which cmdline is there, at 16, and bit 6 that mmap_length
 * is, at 44, and mmap_addr, at 48. An entry's size, at 0, doesn't count itself; its range is at 4. */
static void read_multiboot(const volatile uint8_t *info, const struct printer *p, struct loaded *out) {
    const uint64_t flags = low(info, 4);
    out->by = "multiboot";
    if (flags & 1 << 2) out->words = at(low(info + 16, 4));
    if (!(flags & 1 << 6)) return;
    const volatile uint8_t *entry = at(low(info + 48, 4)), *end = entry + low(info + 44, 4);
    for (; entry < end; entry += 4 + low(entry, 4)) add_range(entry + 4, p, out);
}

/* Multiboot 2, section 3.6: tags from 8 on, each with its type at 0, its size at 4, and at a multiple of 8. Type 1 has
 * the command line at 8; 6, the memory map, the size of an entry at 8 and entries from 16 on; 14 and 15, copies of the
 * RSDP of ACPI 1.0 and of later, the copy at 8. The copy is in memory too, so it has an address of its own. */
static void read_multiboot2(const volatile uint8_t *info, uint64_t address, const struct printer *p,
                            struct loaded *out) {
    const uint64_t length = low(info, 4);
    out->by = "multiboot2";
    for (uint64_t tag = 8; tag + 8 <= length; tag += (low(info + tag + 4, 4) + 7) / 8 * 8) {
        const uint64_t type = low(info + tag, 4), size = low(info + tag + 4, 4);
        if (!type || size < 8) break;
        if (type == 1) out->words = info + tag + 8;
        if (type == 15 || (type == 14 && !out->rsdp)) out->rsdp = address + tag + 8;
        if (type != 6 || size < 16) continue;
        const uint64_t each = low(info + tag + 8, 4);
        for (uint64_t entry = 16; each >= 20 && entry + 20 <= size; entry += each)
            add_range(info + tag + entry, p, out);
    }
}

/* PVH (hvm_start_info, version 1): cmdline_paddr at 24, rsdp_paddr at 32, memmap_paddr at 40 and memmap_entries at 48;
 * an entry has 24 bytes. */
static void read_pvh(const volatile uint8_t *info, const struct printer *p, struct loaded *out) {
    const volatile uint8_t *entry = at(low(info + 40, 8));
    out->by = "PVH";
    out->rsdp = low(info + 32, 8);
    if (low(info + 24, 8)) out->words = at(low(info + 24, 8));
    if (low(info + 4, 4) < 1) return;
    for (uint64_t left = low(info + 48, 4); left; left--, entry += 24) add_range(entry, p, out);
}

void ask_loader(uint32_t magic, uint32_t information, const struct printer *p, struct loaded *out) {
    const volatile uint8_t *info = at(information);
    out->by = 0, out->memory_length = 0, out->rsdp = 0;
    out->words = (const volatile uint8_t *)"";
    if (magic == 0x2badb002) read_multiboot(info, p, out);
    if (magic == 0x36d76289) read_multiboot2(info, information, p, out);
    if (magic == 0x336ec578) read_pvh(info, p, out);
}

/* The kernel's path may be the first word, so a name inside a word doesn't count. */
const volatile uint8_t *word_after(const struct loaded *loaded, const char *name) {
    const volatile uint8_t *p = loaded->words;
    for (uint8_t before = ' '; *p; before = *p++) {
        int i = 0;
        while (name[i] && p[i] == (uint8_t)name[i]) i++;
        if (before == ' ' && !name[i]) return p + i;
    }
    return 0;
}
