/* A UEFI application for x86-64 and AArch64 that prints on the serial port what the machine's ACPI tables contain,
 * waits for a byte there, and then powers the machine off, if it has a register for that (Arm's have PSCI). The RSDP is
 * in the firmware's configuration table, and the regions are what its memory map keeps for ACPI. */
#include "efi.h"
#include "lines.h"
#include "machine.h"
#include "power.h"

#define MOST 1024
static const struct printer serial = {to_serial, 0};
static uint8_t map[65536] __attribute__((aligned(8)));
static struct zacpi_range ranges[MOST], kept[MOST];
static struct zacpi_region regions[MOST];
static struct zacpi_gic_cpu_interface interfaces[512];

static void line(void) { say(&serial, "\n"); }
static void named_number(const char *name, uint64_t number) { say(&serial, name), say_number(&serial, number); }
static void named_range(const char *name, uint64_t address, uint64_t length) {
    say(&serial, name), say_address(&serial, address), say(&serial, " "), say_address(&serial, length);
}

/* The regions: the tables are in the two types of memory that are ACPI's (section 2.3). A map's ranges touch, and a
 * table has to be in one, so they are joined. Memory is mapped at its own addresses; returns 0 if there is no map. */
static size_t make_regions(const struct system_table *system) {
    const struct zacpi_range window = {0x1000, UINT64_MAX - 0x1000}; /* so that no pointer is null */
    uint64_t size = sizeof map, key, each;
    uint32_t version;
    size_t n = 0, count = 0;
    if (system->boot->get_memory_map(&size, map, &key, &each, &version)) return 0;
    for (uint64_t at = 0; at + each <= size; at += each) {
        const struct memory_descriptor *m = (const void *)(map + at);
        named_range("map ", m->start, m->pages << 12), named_number(" type ", m->type), line();
        if (n < MOST && (m->type == ACPI_RECLAIM_MEMORY || m->type == ACPI_MEMORY_NVS))
            ranges[n].address = m->start, ranges[n++].length = m->pages << 12;
    }
    if (zacpi_clip_ranges(ranges, n, 0, 0, &window, kept, MOST, &count) || count > MOST) return 0;
    for (size_t i = 0; i < count; i++) {
        regions[i] = (struct zacpi_region){kept[i].address, (const uint8_t *)kept[i].address, kept[i].length};
        named_range("region ", kept[i].address, kept[i].length), line();
    }
    return count;
}

/* The processors of an Arm machine, and where their redistributors are; nothing on another machine. */
static void gic(const struct zacpi_source *source) {
    struct zacpi_signature named = {{0}};
    size_t count = 0;
    if (!zacpi_list_gic_cpu_interfaces(source, interfaces, 512, &count, &named))
        for (size_t i = 0; i < count && i < 512; i++) {
            named_number("gicc uid ", interfaces[i].processor_uid);
            say(&serial, " mpidr "), say_address(&serial, interfaces[i].mpidr);
            say(&serial, interfaces[i].is_enabled ? " enabled\n" : " disabled\n");
        }
    if (!zacpi_list_gic_redistributors(source, ranges, MOST, &count, &named))
        for (size_t i = 0; i < count && i < MOST; i++)
            named_range("gicr ", ranges[i].address, ranges[i].length), line();
}

/* The firmware has devices mapped, at their own addresses. */
static volatile void *map_register(uint64_t address) { return (volatile void *)address; }

static void power_off(const struct zacpi_source *source) {
    struct zacpi_plan plan;
    if (zacpi_get_power_off_plan(source, &plan, 0)) return;
    say(&serial, "powers off\n");
    run_plan(&plan, map_register);
}

uint64_t efi_main(void *image, struct system_table *system);
uint64_t efi_main(void *image, struct system_table *system) {
    struct zacpi_source source = {regions, 0, 0, ZACPI_START_RSDP, ZACPI_ACCEPT_SUMS | ZACPI_ACCEPT_IDS};
    struct zacpi_signature named = {{0}};
    zacpi_status refused;
    (void)image;
    /* Its code may use vector registers, which are forbidden further down. */
    system->console->output_string(system->console, u"On the serial port: what the ACPI tables contain.\r\n"
                                                    u"Then a byte there powers the machine off.\r\n");
    say(&serial, "\nbegin\n");
    source.address = rsdp_of(system);
    say(&serial, "rsdp "), say_address(&serial, source.address), line();
    source.regions_length = make_regions(system);
    forbid_vectors();
    refused = print_lines(&source, 0, &serial, &serial, &named);
    if (refused) say_refused(&serial, "refused", refused, &named);
    else gic(&source), enable_acpi(&source, &serial, map_register);
    say(&serial, "waits for a byte\nend\n");
    wait_for_byte(); /* so that memory can be looked at from outside */
    if (!refused) power_off(&source);
    for (;;) {}
}
