/* SPDX-License-Identifier: MIT */
#include "stick.h"
#include "zacpi_map.h"

/* How long a page stays if nobody presses a key, and if somebody has pressed one before. */
enum { SECONDS = 20, SECONDS_OF_READER = 600 };

static struct zacpi_range raw[1024], kept[512], missing[512];
static struct zacpi_region regions[2 * MOST_TABLES], regions_of_rsdt[2 * MOST_TABLES];
static struct entry entries[MOST_TABLES];
static size_t kept_length, count;
static struct zacpi_source source;
static zacpi_status status;
static struct zacpi_signature named;

/* Pages ----------------------------------------------------------------------------------------- */

static uint32_t row, has_reader;

static void turn_page(void) {
    static const char next[] = "-- a key shows the next page; without one it comes in 20 seconds --";
    static const char reader[] = "-- a key shows the next page --";
    if (has_reader) show_text(reader, sizeof reader - 1);
    else show_text(next, sizeof next - 1);
    has_reader |= wait_for_key(has_reader ? SECONDS_OF_READER : SECONDS) != 0;
    show_text("\n", 1);
    clear_screen();
    row = 0;
}
static void end_line(const char *line, size_t length) {
    if (row + 2 > rows_of_screen()) turn_page();
    show_text(line, length), show_text("\n", 1);
    row++;
}
static void begin_page(void) {
    if (row) turn_page();
}
static struct sheet sheet = {end_line, begin_page, 0, ""};
static const struct printer screen = {to_sheet, &sheet};

/* Memory: it is where the firmware has it, and only what it keeps is looked at. ------------------- */

static const void *map(void *context, uint64_t address, uint64_t length) {
    (void)context;
    for (size_t i = 0; i < kept_length; i++)
        if (address >= kept[i].address && length <= kept[i].length &&
            address - kept[i].address <= kept[i].length - length)
            return (const void *)(uintptr_t)address;
    return 0;
}
static void unmap(void *context, const void *at, uint64_t address, uint64_t length) {
    (void)context, (void)at, (void)address, (void)length;
}

static zacpi_status map_tables(struct zacpi_source *from, struct zacpi_region *to) {
    static const struct zacpi_mapper mapper = {0, map, unmap, 1};
    return zacpi_map_tables(&mapper, from, to, 2 * MOST_TABLES, missing, sizeof missing / sizeof *missing);
}
/* An RSDT that is there beside the XSDT, with what it alone lists. */
static void add_rsdt(void) {
    struct zacpi_source other = source;
    struct zacpi_rsdp rsdp;
    if (zacpi_get_rsdp(&source, &rsdp, 0) || !rsdp.xsdt_address || !rsdp.rsdt_address) return;
    other.start = ZACPI_START_RSDT, other.address = rsdp.rsdt_address, other.regions_length = 0;
    (void)map_tables(&other, regions_of_rsdt);
    (void)list_all(&other, entries, MOST_TABLES, &count, &named);
}
/* Finds the tables. Null pointers and the interrupt table of a BIOS are below 0x400. */
static void find_tables(uint32_t start, uint64_t address) {
    const struct zacpi_range window = {0x400, UINTPTR_MAX - 0x400};
    const size_t length = firmware_memory(raw, sizeof raw / sizeof *raw);
    source = (struct zacpi_source){regions, 0, address, start, ZACPI_ACCEPT_SUMS | ZACPI_ACCEPT_IDS};
    status = zacpi_clip_ranges(raw, length, 0, 0, &window, kept, sizeof kept / sizeof *kept, &kept_length);
    if (kept_length > sizeof kept / sizeof *kept) kept_length = sizeof kept / sizeof *kept;
    if (!status) status = map_tables(&source, regions);
    if (!status) status = list_all(&source, entries, MOST_TABLES, &count, &named);
    if (!status) add_rsdt();
}

/* What is shown and saved ------------------------------------------------------------------------ */

static void print_all(const struct printer *p) {
    say(p, "zacpi " ZACPI_VERSION ", "), say(p, firmware_name()), say(p, ": this machine's ACPI tables\n");
    if (status) say_refused(p, "The tables can't be opened", status, &named);
    print_entries(entries, count, p);
    if (status) return;
    print_machine(&source, p);
    print_power(&source, p);
    print_faults(&source, entries, count, p);
}

/* Where the file is found, or why it isn't written: what is in it then may be another machine's. */
static void say_saved(const char *why) {
    say(&screen, file_name());
    if (why) say(&screen, " isn't written, so don't send it: "), say(&screen, why), say(&screen, "\n");
    else say(&screen, " on the stick has these pages, and the bytes of the tables.\n");
}

/* Saves first, so that nobody has to wait for that. */
void stick(uint32_t start, uint64_t address) {
    const char *why;
    clear_screen();
    find_tables(start, address);
    why = save_tables(entries, count, print_all);
    say_saved(why);
    print_all(&screen);
    say(&screen, "\fThe end. "), say_saved(why);
    say(&screen, "README.TXT on the stick has what to send.\n"
                 "Now the machine powers itself off. If it doesn't, switch it off.\n");
    turn_page();
    power_off(&source);
    say(&screen, "It is still on: switch it off.\n");
}
