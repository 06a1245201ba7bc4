/* SPDX-License-Identifier: MIT */
#include "stick.h"

/* The bytes of a table that are mapped: all, or else those of a header. */
static void find_bytes(const struct zacpi_source *source, struct entry *entry) {
    const uint32_t tries[2] = {entry->length, 36};
    struct zacpi_place place;
    for (int i = 0; i < 2; i++) {
        if (!tries[i] || zacpi_locate(source->regions, source->regions_length, entry->address, tries[i], &place))
            continue;
        entry->bytes = source->regions[place.region].bytes + place.offset, entry->here = tries[i];
        return;
    }
}

/* The list that is made, and how many entries it has. */
struct list {
    const struct zacpi_source *source;
    struct entry *entries;
    size_t capacity, count;
};

/* Adds what is at an address, unless it is there already. */
static struct entry *add(struct list *list, uint64_t address, const char *letters, uint32_t length) {
    struct entry *const entry = list->entries + list->count;
    for (size_t i = 0; i < list->count; i++)
        if (list->entries[i].address == address) return 0;
    if (!address || list->count == list->capacity) return 0;
    *entry = (struct entry){address, 0, 0, length, ZACPI_OK, {0, 0, 0, 0}};
    for (int i = 0; i < 4; i++) entry->letters[i] = (uint8_t)letters[i];
    list->count++;
    return entry;
}

/* Adds the table at an address, with its first error. */
static struct entry *add_table(struct list *list, uint64_t address, const char *letters) {
    struct entry *const entry = add(list, address, letters, 36);
    struct zacpi_source strict = *list->source;
    struct zacpi_table table;
    if (!entry) return 0;
    strict.accept = 0;
    entry->status = zacpi_get_table(&strict, address, &table, 0);
    find_bytes(list->source, entry);
    if (!entry->bytes) return entry;
    for (int i = 0; i < 4; i++) entry->letters[i] = entry->bytes[i];
    entry->length = 0;
    for (int i = 8; i-- > 4;) entry->length = entry->length << 8 | entry->bytes[i];
    find_bytes(list->source, entry);
    return entry;
}

/* Adds the DSDT and the FACS of the FADT. A FACS has neither a header nor a sum. */
static void add_of_fadt(struct list *list) {
    struct zacpi_fixed_hardware fixed;
    struct zacpi_facs facs;
    struct entry *entry;
    if (zacpi_get_fixed_hardware(list->source, &fixed, 0)) return;
    add_table(list, fixed.dsdt_address, "DSDT");
    entry = add_table(list, fixed.facs_address, "FACS");
    if (entry) entry->status = zacpi_get_facs(list->source, &facs, 0);
}

/* Adds the RSDP, and the root table that is read: also if that can't be opened. */
static void add_root(struct list *list) {
    struct zacpi_rsdp rsdp;
    struct entry *entry;
    if (zacpi_get_rsdp(list->source, &rsdp, 0)) return;
    entry = add(list, rsdp.address, "RSDP", rsdp.length);
    if (entry) find_bytes(list->source, entry);
    if (rsdp.xsdt_address) add_table(list, rsdp.xsdt_address, "XSDT");
    else add_table(list, rsdp.rsdt_address, "RSDT");
}

zacpi_status list_all(const struct zacpi_source *source, struct entry *out, size_t capacity, size_t *count,
                      struct zacpi_signature *named) {
    static struct zacpi_member members[MOST_TABLES];
    struct list list = {source, out, capacity, *count};
    size_t length = 0;
    const zacpi_status status = zacpi_list_members(source, members, MOST_TABLES, &length, named);
    if (source->start == ZACPI_START_RSDT) add_table(&list, source->address, "RSDT");
    else add_root(&list);
    if (!status) {
        for (size_t i = 0; i < length && i < MOST_TABLES; i++) add_table(&list, members[i].table.address, "----");
        add_of_fadt(&list);
    }
    *count = list.count;
    return status;
}

int is_private(const struct entry *entry) {
    return entry->letters[0] == 'M' && entry->letters[1] == 'S' && entry->letters[2] == 'D' && entry->letters[3] == 'M';
}

void say_digits(const struct printer *p, uint64_t number, int digits, const char *letters) {
    while (digits--) p->write(p->to, letters + (number >> 4 * digits & 15), 1);
}

void print_entries(const struct entry *entries, size_t count, const struct printer *p) {
    static const char *const digits = "0123456789abcdef";
    say(p, "\fSIG  ADDRESS          LENGTH   STATUS\n");
    for (size_t i = 0; i < count; i++) {
        p->write(p->to, (const char *)entries[i].letters, 4), say(p, " ");
        say_digits(p, entries[i].address, 16, digits), say(p, " ");
        say_digits(p, entries[i].length, 8, digits), say(p, " ");
        if (entries[i].status) say_error(p, entries[i].status);
        else say(p, "ok");
        say(p, is_private(entries + i) ? ", not saved: it has Windows' product key\n" : "\n");
    }
}
