/* A kernel that reads the machine's ACPI tables out of physical memory, which it maps on demand through a window,
 * prints them on the serial port, enables ACPI, and powers the machine off. */
#include "loader.h"
#include "machine.h"
#include "power.h"
#include "window.h"

extern uint8_t load_start[], bss_end[]; /* physical addresses, by link.ld */
static const struct printer serial = {to_serial, 0};
static struct loaded loaded;
static struct zacpi_range kept[128], missing[256];
static struct zacpi_region regions[64];
static struct window_memory memory = {kept, 0};
static const struct zacpi_mapper mapper = {&memory, map_window, unmap_window, 4096};
static void line(void) { say(&serial, "\n"); }
static void named_number(const char *name, uint64_t number) { say(&serial, name), say_number(&serial, number); }
static void named_range(const char *name, uint64_t address, uint64_t length) {
    say(&serial, name), say_address(&serial, address), say(&serial, " "), say_address(&serial, length);
}

static void stop(const char *why) {
    say(&serial, why), line();
    leave(LEAVE_REFUSED);
}
/* What boot.s calls at an exception. */
void on_fault(uint64_t number, uint64_t code, uint64_t instruction) {
    named_number("fault ", number), named_number(" code ", code);
    say(&serial, " at "), say_address(&serial, instruction), line();
    leave(LEAVE_FAULT);
}
/* What a search looks at, which the loader's map may leave out: the word at 0x40e, the first KiB of the extended BIOS
 * data area (EBDA), whose segment that is, as far as it is below video memory (section 5.2.5.1), and the BIOS area
 * with the 16 bytes after it, in which an RSDP may end. */
static size_t bios_areas(struct zacpi_range *out) {
    struct zacpi_range ebda = {low(at(0x40e), 2) << 4, 0x400};
    if (ebda.address < 0x400 || ebda.address >= 0xa0000) ebda.length = 0;
    else if (ebda.length > 0xa0000 - ebda.address) ebda.length = 0xa0000 - ebda.address;
    out[0] = (struct zacpi_range){0x400, 0x100}, out[1] = ebda, out[2] = (struct zacpi_range){0xe0000, 0x20010};
    return 3;
}
/* The memory that may be looked at: what the loader's map names, free or not, and what a search looks at, without this
 * kernel itself, whose stack and lists are written while calls run. */
static void make_memory(void) {
    const struct zacpi_range own = {(uint64_t)load_start, (uint64_t)(bss_end - load_start)};
    static struct zacpi_range all[sizeof loaded.memory / sizeof *loaded.memory + 3];
    size_t n = 0;
    for (; n < loaded.memory_length; n++) all[n] = loaded.memory[n];
    n += bios_areas(all + n);
    memory.length = pages_of(all, n, own, kept, sizeof kept / sizeof *kept);
    if (!memory.length) stop("no memory, or too many ranges");
}
static zacpi_status map_tables(struct zacpi_source *source) {
    return zacpi_map_tables(&mapper, source, regions, sizeof regions / sizeof *regions, missing,
                            sizeof missing / sizeof *missing);
}
/* A number that the command line has after a name, in hexadecimal digits. */
static uint64_t number_after(const volatile uint8_t *p) {
    uint64_t number = 0;
    for (; (*p >= '0' && *p <= '9') || (*p >= 'a' && *p <= 'f'); p++)
        number = number << 4 | (uint64_t)(*p <= '9' ? *p - '0' : *p - 'a' + 10);
    return number;
}
/* Maps the tables: from the RSDP that the loader passes, else from one that a search of the BIOS areas finds, else
 * (booted by UEFI) from the address in the command line, `rsdp=0x...`. */
static void find_tables(struct zacpi_source *source) {
    const volatile uint8_t *p = word_after(&loaded, "rsdp=0x");
    struct zacpi_signature named;
    struct zacpi_root root;
    int is_told = loaded.rsdp != 0;
    source->start = is_told ? ZACPI_START_RSDP : ZACPI_START_SEARCH, source->address = loaded.rsdp;
    zacpi_status status = map_tables(source);
    if (!status && p && zacpi_open(source, &root, &named) == ZACPI_NO_VALID_RSDP) {
        zacpi_unmap_tables(&mapper, source);
        source->start = ZACPI_START_RSDP, source->address = number_after(p), is_told = 1;
        status = map_tables(source);
    }
    if (status) stop(zacpi_status_name(status));
    if (is_told) say(&serial, "rsdp "), say_address(&serial, source->address), line();
    for (size_t i = 0; i < source->regions_length; i++)
        named_range("region ", regions[i].address, regions[i].length), line();
    named_number("window ", window_most()), line();
}
static struct zacpi_table tables[256];
static struct zacpi_range ranges[512];
static struct zacpi_processor processors[512];
static struct zacpi_io_apic io_apics[64];

/* Where the listed tables are, and the memory that the tables take. From the root table on the RSDP isn't among it,
 * which isn't to be given away either. */
static void places(const struct zacpi_source *source) {
    struct zacpi_signature named = {{0}};
    size_t count = 0;
    if (!zacpi_list_tables(source, tables, 256, &count, &named))
        for (size_t i = 0; i < count && i < 256; i++) {
            say(&serial, "listed "), say_signature(&serial, tables[i].signature.letters), say(&serial, " ");
            say_address(&serial, tables[i].address), line();
        }
    if (!zacpi_list_ranges(source, ranges, 512, &count, &named))
        for (size_t i = 0; i < count && i < 512; i++)
            named_range("reserved ", ranges[i].address, ranges[i].length), line();
}

/* How the 16 ISA interrupts come to the I/O APICs. */
static void pins(const struct zacpi_source *source) {
    struct zacpi_signature named = {{0}};
    struct zacpi_isa_interrupts isa;
    if (zacpi_get_isa_interrupts(source, &isa, &named)) return;
    for (size_t irq = 0; irq < 16; irq++) {
        const struct zacpi_isa_route *route = isa.routes + irq;
        if (!route->present) continue;
        named_number("isa ", irq), named_number(" gsi ", route->interrupt.global_system_interrupt);
        if (route->has_pin) named_number(" ioapic ", route->pin.io_apic.id), named_number(" pin ", route->pin.pin);
        line();
    }
}
/* Vendor ID of the first PCI function, which is at 0 in its configuration space. */
static void first_function(const struct zacpi_source *source) {
    struct zacpi_signature named = {{0}};
    uint64_t address = 0;
    zacpi_status refused = zacpi_pci_ecam_address(source, 0, 0, 0, 0, &address, &named);
    if (refused) {
        say_refused(&serial, "ecam", refused, &named);
        return;
    }
    say(&serial, "ecam "), say_address(&serial, address);
    const volatile uint16_t *vendor = address >> 32 ? 0 : map_register(address);
    if (!vendor) say(&serial, " not mapped");
    else say(&serial, " vendor "), say_address(&serial, *vendor);
    line();
}
/* The unit that remaps that function, on a machine with a DMAR (its registers, and how many bytes they have) or with an
 * IVRS (its registers, and the id by which it knows the function). */
static void first_unit(const struct zacpi_source *source) {
    const struct zacpi_hop function = {0, 0};
    struct zacpi_signature named = {{0}};
    struct zacpi_dmar_unit unit = {0};
    struct zacpi_ivrs_device device = {0};
    zacpi_status refused = zacpi_get_dmar_unit(source, 0, 0, &function, 1, &unit, &named);
    if (!refused) named_range("unit of 0:00.0 dmar ", unit.register_base, unit.register_bytes), line();
    else if (refused != ZACPI_TABLE_MISSING) say_refused(&serial, "unit of 0:00.0 dmar", refused, &named);
    refused = zacpi_get_ivrs_unit(source, 0, 0, &device, &named);
    if (!refused) named_range("unit of 0:00.0 ivrs ", device.unit.base, device.source_id), line();
    else if (refused != ZACPI_TABLE_MISSING) say_refused(&serial, "unit of 0:00.0 ivrs", refused, &named);
}
/* A call's depth of the stack, and its cycles the first time and at best. */
#define FIGURE(name, ...) \
    do { \
        uint64_t began_, first_ = 0, best_ = UINT64_MAX, from_ = paint(), depth_; \
        for (int i_ = 0; i_ < 9; i_++) { \
            began_ = cycles(); \
            zacpi_status status_ = name(__VA_ARGS__); \
            began_ = cycles() - began_, (void)status_; \
            if (!i_) first_ = began_; \
            if (began_ < best_) best_ = began_; \
        } \
        depth_ = painted_depth(from_); \
        named_number("call " #name " stack ", depth_); \
        named_number(" cycles ", first_), named_number(" ", best_), line(); \
    } while (0)
/* The source from the root table on that this one led to, so that no call looks at the RSDP anew. */
static struct zacpi_source from_root(const struct zacpi_source *source, const struct zacpi_root *root) {
    struct zacpi_source known = *source;
    known.address = root->address, known.start = root->pointer_width == 8 ? ZACPI_START_XSDT : ZACPI_START_RSDT;
    return known;
}
static void figures(const struct zacpi_source *source, struct zacpi_source known) {
    struct zacpi_signature named = {{0}};
    struct zacpi_root root = {0};
    struct zacpi_aml_table dsdt = {0};
    struct zacpi_hpet_info hpet = {0};
    struct zacpi_interrupt_model model = {0};
    uint64_t address = 0;
    size_t count = 0;
    FIGURE(zacpi_open, source, &root, &named);
    FIGURE(zacpi_open, &known, &root, &named);
    FIGURE(zacpi_list_tables, &known, tables, 256, &count, &named);
    FIGURE(zacpi_get_dsdt, &known, &dsdt, &named);
    FIGURE(zacpi_get_hpet, &known, &hpet, &named);
    FIGURE(zacpi_get_interrupt_model, &known, &model, &named);
    FIGURE(zacpi_list_io_apics, &known, io_apics, 64, &count, &named);
    FIGURE(zacpi_list_processors, &known, processors, 512, &count, &named);
    FIGURE(zacpi_pci_ecam_address, &known, 0, 0, 0, 0, &address, &named);
    FIGURE(zacpi_list_ranges, &known, ranges, 512, &count, &named);
}

/* Runs a plan after which there is no machine to go on with. */
__attribute__((noreturn)) static void finish(const char *what, const struct zacpi_plan *plan) {
    say(&serial, what), line();
    if (run_plan(plan, map_register) < plan->count) leave(LEAVE_FAULT);
    halt();
}
/* Powers the machine off, after a reset if there is to be one, and a plan for it: the kernel that starts then knows by
 * a byte that it was reset. Without a plan to power it off the machine is left by QEMU's device. */
__attribute__((noreturn)) static void end_machine(const struct zacpi_source *source) {
    enum { WAS_RESET = 0x52 };
    const int was_reset = kept_byte() == WAS_RESET;
    struct zacpi_plan plan;
    keep_byte(0);
    if (was_reset) {
        say(&serial, "was reset\n");
    } else if (word_after(&loaded, "reset") && !zacpi_get_reset_plan(source, &plan, 0)) {
        keep_byte(WAS_RESET);
        finish("resets", &plan);
    }
    if (zacpi_get_power_off_plan(source, &plan, 0)) leave(LEAVE_GOOD);
    finish("powers off", &plan);
}

void kernel(uint32_t magic, uint32_t information) {
    struct zacpi_source source = {regions, 0, 0, ZACPI_START_SEARCH, 0};
    struct zacpi_source known = source;
    struct zacpi_signature named = {{0}};
    struct zacpi_root root = {0};
    zacpi_status refused;
    open_serial();
    catch_faults();
    ask_loader(magic, information, &serial, &loaded);
    if (!loaded.by || !loaded.memory_length) stop("no memory map of a loader");
    /* As Linux takes them. A kernel in a guest, or in a measured boot, takes none, as this one by the word `strict`. */
    if (!word_after(&loaded, "strict")) source.accept = ZACPI_ACCEPT_SUMS | ZACPI_ACCEPT_IDS;
    say(&serial, "loader "), say(&serial, loaded.by), line();
    make_memory();
    find_tables(&source);
    refused = zacpi_open(&source, &root, &named);
    if (!refused) {
        known = from_root(&source, &root);
        refused = print_lines(&known, &root.revision, &serial, &serial, &named);
    }
    if (refused) {
        say_refused(&serial, "refused", refused, &named);
    } else {
        places(&known);
        pins(&known);
        first_function(&known);
        first_unit(&known);
        figures(&source, known);
        enable_acpi(&known, &serial, map_register);
    }
    say(&serial, "end\n");
    if (word_after(&loaded, "hold")) wait_for_byte(); /* so that memory can be looked at from outside */
    if (refused) leave(LEAVE_REFUSED);
    end_machine(&known);
}
