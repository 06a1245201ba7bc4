#include "lines.h"

#define MOST 1024 /* items of a list that are printed; more are counted, and reported as left out */

/* Lists are filled one at a time, so one block of memory does for all of them. */
static union {
    struct zacpi_table tables[MOST];
    struct zacpi_aml_table streams[MOST];
    struct zacpi_fault faults[MOST];
    struct zacpi_io_apic io_apics[MOST];
    struct zacpi_interrupt_source_override overrides[MOST];
    struct zacpi_nmi_source nmi_sources[MOST];
    struct zacpi_nmi_line nmi_lines[MOST];
    struct zacpi_processor processors[MOST];
    struct zacpi_pci_region pci_regions[MOST];
} list;

static void newline(const struct printer *p) { p->write(p->to, "\n", 1); }

void say(const struct printer *p, const char *text) {
    size_t n = 0;
    while (text[n]) n++;
    p->write(p->to, text, n);
}

/* Divides by 10 in pieces of 16 bits, since a kernel of 32 bits may have no function that divides 64. */
void say_number(const struct printer *p, uint64_t number) {
    uint32_t pieces[4] = {(uint32_t)(number >> 48), number >> 32 & 0xffff, number >> 16 & 0xffff, number & 0xffff};
    char digits[20];
    size_t at = sizeof digits, i;
    do {
        uint32_t rest = 0;
        for (i = 0; i < 4; i++) {
            rest = rest << 16 | pieces[i];
            pieces[i] = rest / 10;
            rest %= 10;
        }
        digits[--at] = (char)('0' + rest);
    } while (pieces[0] | pieces[1] | pieces[2] | pieces[3]);
    p->write(p->to, digits + at, sizeof digits - at);
}

static void say_hex(const struct printer *p, uint64_t number, int least) {
    char digits[16];
    size_t at = sizeof digits;
    do digits[--at] = "0123456789abcdef"[number & 15];
    while ((number >>= 4) || sizeof digits - at < (size_t)least);
    p->write(p->to, digits + at, sizeof digits - at);
}

void say_address(const struct printer *p, uint64_t address) {
    say(p, "0x");
    say_hex(p, address, 1);
}

/* How many bytes the character has that these begin with in UTF-8; 0 if they begin with none. */
static int character(const uint8_t *bytes, int length) {
    const uint8_t first = bytes[0];
    int n = first < 0x80 ? 1 : first < 0xc2 ? 0 : first < 0xe0 ? 2 : first < 0xf0 ? 3 : first < 0xf5 ? 4 : 0, i;
    if (n > length) return 0;
    for (i = 1; i < n; i++)
        if ((bytes[i] & 0xc0) != 0x80) return 0;
    if ((first == 0xe0 && bytes[1] < 0xa0) || (first == 0xf0 && bytes[1] < 0x90)) return 0; /* too long a form */
    if ((first == 0xed && bytes[1] > 0x9f) || (first == 0xf4 && bytes[1] > 0x8f)) return 0; /* no character */
    return n;
}

/* A signature: as text if its bytes are valid UTF-8, else as eight hexadecimal digits. */
void say_signature(const struct printer *p, const uint8_t letters[4]) {
    int i = 0, is_text = 1;
    while (is_text && i < 4) {
        int n = character(letters + i, 4 - i);
        is_text = n > 0;
        i += n;
    }
    if (is_text) p->write(p->to, (const char *)letters, 4);
    else
        for (i = 0; i < 4; i++) say_hex(p, letters[i], 2);
}

static int begins_with(const char *text, const char *front) {
    while (*front && *text == *front) text++, front++;
    return !*front;
}

/* The words after ZACPI_ with a capital each; of the errors of a table's entries, after what says whose they are. */
void say_error(const struct printer *p, zacpi_status status) {
    const char *name = zacpi_status_name(status);
    int is_first = 1;
    if (begins_with(name, "ZACPI_")) name += 6;
    else is_first = 0; /* Unknown */
    if (begins_with(name, "MADT_")) say(p, "InvalidMadt "), name += 5;
    if (begins_with(name, "NUMA_")) say(p, "InvalidSrat "), name += 5;
    if (begins_with(name, "IOMMU_")) say(p, "InvalidIommu "), name += 6;
    for (; *name; name++) {
        const char letter = is_first || *name < 'A' || *name > 'Z' ? *name : (char)(*name - 'A' + 'a');
        if (letter != '_') p->write(p->to, &letter, 1);
        is_first = letter == '_';
    }
}

static void say_status(const struct printer *p, zacpi_status status, const uint8_t letters[4]) {
    say_error(p, status);
    if ((status >= ZACPI_SDT_INVALID_SIGNATURE && status <= ZACPI_TABLE_MISSING) || status == ZACPI_AML_INVALID) {
        say(p, " ");
        say_signature(p, letters);
    }
}

void say_refused(const struct printer *p, const char *what, zacpi_status status, const struct zacpi_signature *named) {
    say(p, what);
    say(p, ": ");
    say_status(p, status, named->letters);
    newline(p);
}

/* How many items of a list are there to be printed. */
static size_t shown(const struct printer *p, size_t count) {
    if (count <= MOST) return count;
    say(p, "left out ");
    say_number(p, count - MOST);
    newline(p);
    return MOST;
}

static void stream(const struct printer *p, const char *what, const struct zacpi_aml_table *aml) {
    say(p, what);
    say_address(p, aml->address);
    say(p, " length ");
    say_number(p, aml->length);
    newline(p);
}

static void tables(const struct zacpi_source *source, const struct printer *p) {
    struct zacpi_signature named = {{0}};
    struct zacpi_aml_table dsdt = {0};
    size_t i, count = 0;
    zacpi_status refused = zacpi_list_tables(source, list.tables, MOST, &count, &named);
    count = refused ? 0 : shown(p, count);
    for (i = 0; i < count; i++) {
        say(p, "table ");
        say_signature(p, list.tables[i].signature.letters);
        say(p, " length ");
        say_number(p, list.tables[i].length);
        say(p, " revision ");
        say_number(p, list.tables[i].revision);
        newline(p);
    }
    refused = zacpi_get_dsdt(source, &dsdt, &named);
    if (refused) say_refused(p, "dsdt", refused, &named);
    else stream(p, "dsdt ", &dsdt);
    count = 0;
    refused = zacpi_list_ssdts(source, list.streams, MOST, &count, &named);
    count = refused ? 0 : shown(p, count);
    for (i = 0; i < count; i++) stream(p, "ssdt ", list.streams + i);
}

static const char *polarity(uint8_t code) {
    static const char *const names[] = {" bus", " high", " reserved", " low"};
    return names[code % 4];
}
static const char *trigger(uint8_t code) {
    static const char *const names[] = {" bus", " edge", " reserved", " level"};
    return names[code % 4];
}

static void interrupts(const struct zacpi_source *source, const struct printer *p) {
    struct zacpi_signature named = {{0}};
    size_t i, count = 0;
    count = zacpi_list_io_apics(source, list.io_apics, MOST, &count, &named) ? 0 : shown(p, count);
    for (i = 0; i < count; i++) {
        say(p, "ioapic ");
        say_number(p, list.io_apics[i].id);
        say(p, " ");
        say_address(p, list.io_apics[i].address);
        say(p, " ");
        say_number(p, list.io_apics[i].global_system_interrupt_base);
        newline(p);
    }
    count = zacpi_list_overrides(source, list.overrides, MOST, &count, &named) ? 0 : shown(p, count);
    for (i = 0; i < count; i++) {
        say(p, "override ");
        say_number(p, list.overrides[i].isa_source);
        say(p, " ");
        say_number(p, list.overrides[i].global_system_interrupt);
        say(p, polarity(list.overrides[i].polarity));
        say(p, trigger(list.overrides[i].trigger));
        newline(p);
    }
    count = zacpi_list_nmi_sources(source, list.nmi_sources, MOST, &count, &named) ? 0 : shown(p, count);
    for (i = 0; i < count; i++) {
        say(p, "nmi ");
        say_number(p, list.nmi_sources[i].global_system_interrupt);
        say(p, polarity(list.nmi_sources[i].polarity));
        say(p, trigger(list.nmi_sources[i].trigger));
        newline(p);
    }
    count = zacpi_list_nmi_lines(source, list.nmi_lines, MOST, &count, &named) ? 0 : shown(p, count);
    for (i = 0; i < count; i++) {
        say(p, "line ");
        if (list.nmi_lines[i].of_all) say(p, "all");
        else say_number(p, list.nmi_lines[i].processor_uid);
        say(p, " lint");
        say_number(p, list.nmi_lines[i].lint);
        newline(p);
    }
}

static void processors(const struct zacpi_source *source, const struct printer *p) {
    static const char *const states[] = {" disabled", " waiting", " running"};
    struct zacpi_signature named = {{0}};
    size_t i, count = 0;
    count = zacpi_list_processors(source, list.processors, MOST, &count, &named) ? 0 : shown(p, count);
    for (i = 0; i < count; i++) {
        say(p, "processor ");
        say_number(p, list.processors[i].uid);
        say(p, " ");
        say_number(p, list.processors[i].local_apic_id);
        say(p, states[list.processors[i].state % 3]);
        newline(p);
    }
}

static void platform(const struct zacpi_source *source, const struct printer *p) {
    struct zacpi_signature named = {{0}};
    struct zacpi_interrupt_model model = {0};
    struct zacpi_pm_timer timer = {0};
    struct zacpi_fixed_hardware fixed = {0};
    zacpi_status refused = zacpi_get_interrupt_model(source, &model, &named);
    if (!refused) refused = zacpi_get_pm_timer(source, &timer, &named);
    if (!refused) refused = zacpi_get_fixed_hardware(source, &fixed, &named);
    if (refused) {
        say_refused(p, "platform", refused, &named);
        return;
    }
    say(p, "platform profile ");
    say_number(p, fixed.power_profile);
    newline(p);
    if (model.known) {
        say(p, "model apic ");
        say_address(p, model.local_apic_address);
        say(p, model.also_has_8259 ? " pics yes\n" : " pics no\n");
        interrupts(source, p);
    } else {
        say(p, "model unknown\n");
    }
    processors(source, p);
    if (!timer.present) {
        say(p, "timer none\n");
    } else {
        say(p, "timer ");
        say_address(p, timer.base.address);
        say(p, timer.is_32_bit ? " bits 32\n" : " bits 24\n");
    }
}

static void devices(const struct zacpi_source *source, const struct printer *p) {
    struct zacpi_signature named = {{0}};
    struct zacpi_hpet_info hpet = {0};
    struct zacpi_boot_graphic graphic = {0};
    size_t i, count = 0;
    zacpi_status refused = zacpi_get_hpet(source, &hpet, &named);
    if (refused) {
        say_refused(p, "hpet", refused, &named);
    } else {
        say(p, "hpet ");
        say_address(p, hpet.base_address);
        say(p, " number ");
        say_number(p, hpet.number);
        say(p, " tick ");
        say_number(p, hpet.clock_tick_unit);
        newline(p);
    }
    refused = zacpi_list_pci_regions(source, list.pci_regions, MOST, &count, &named);
    if (refused) say_refused(p, "pci", refused, &named);
    count = refused ? 0 : shown(p, count);
    for (i = 0; i < count; i++) {
        say(p, "pci ");
        say_number(p, list.pci_regions[i].segment_group);
        say(p, " ");
        say_number(p, list.pci_regions[i].first_bus);
        say(p, " ");
        say_number(p, list.pci_regions[i].last_bus);
        say(p, " ");
        say_address(p, list.pci_regions[i].base_address);
        newline(p);
    }
    refused = zacpi_get_boot_graphic(source, &graphic, &named);
    if (refused) {
        say_refused(p, "bgrt", refused, &named);
    } else {
        say(p, graphic.displayed ? "bgrt displayed yes angle " : "bgrt displayed no angle ");
        say_number(p, graphic.orientation);
        say(p, " offset ");
        say_number(p, graphic.x);
        say(p, " ");
        say_number(p, graphic.y);
        newline(p);
    }
}

static void setting(const struct printer *p, const char *name, int is_there, uint32_t number) {
    say(p, name);
    if (is_there) say_number(p, number);
    else say(p, "none");
}

static void console(const struct zacpi_source *source, const struct printer *p) {
    struct zacpi_signature named = {{0}};
    struct zacpi_console c = {0};
    zacpi_status refused = zacpi_get_console(source, &c, &named);
    if (refused) {
        say_refused(p, "spcr", refused, &named);
        return;
    }
    say(p, "spcr");
    setting(p, " baud ", c.has_baud_rate, c.baud_rate);
    setting(p, " irq ", c.has_irq, c.irq);
    setting(p, " gsi ", c.has_global_system_interrupt, c.global_system_interrupt);
    newline(p);
}

static void faults(const struct zacpi_source *source, const char *letters, const struct printer *p) {
    struct zacpi_signature named = {{0}}, signature = {{0}};
    size_t i, count = 0;
    for (i = 0; i < 4; i++) signature.letters[i] = (uint8_t)letters[i];
    count = zacpi_list_faults(source, signature, list.faults, MOST, &count, &named) ? 0 : shown(p, count);
    for (i = 0; i < count; i++) {
        say(p, list.faults[i].accepted ? "accepted " : "skipped ");
        say_signature(p, signature.letters);
        say(p, " ");
        say_address(p, list.faults[i].address);
        say(p, ": ");
        say_status(p, list.faults[i].status, signature.letters);
        newline(p);
    }
}

zacpi_status print_lines(const struct zacpi_source *source, const uint8_t *revision, const struct printer *p,
                         const struct printer *skipped, struct zacpi_signature *named) {
    static const char *const looked_up[] = {"FACP", "APIC", "MCFG", "HPET", "BGRT", "SPCR"};
    struct zacpi_root root = {0};
    size_t i;
    zacpi_status refused = zacpi_open(source, &root, named);
    if (refused) return refused;
    say(p, "revision ");
    say_number(p, revision ? *revision : root.revision);
    newline(p);
    tables(source, p);
    platform(source, p);
    devices(source, p);
    console(source, p);
    for (i = 0; skipped && i < sizeof looked_up / sizeof *looked_up; i++) faults(source, looked_up[i], skipped);
    return ZACPI_OK;
}
