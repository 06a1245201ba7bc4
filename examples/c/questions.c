#include "zacpi.h"
#include <stdio.h>

static void say(const char *question, zacpi_status status) { printf("%s: %s\n", question, zacpi_status_name(status)); }

// Asks one question of each kind.
static void ask(const struct zacpi_source *source) {
    const struct zacpi_signature madt = {{'A', 'P', 'I', 'C'}};
    const struct zacpi_hop bridge = {31, 0};
    struct zacpi_table table;
    struct zacpi_processor processors[64];
    struct zacpi_interrupt interrupt;
    struct zacpi_hpet_info hpet;
    struct zacpi_dmar_unit unit;
    struct zacpi_plan plan;
    struct zacpi_console console;
    struct zacpi_aml_table dsdt;
    uint64_t address;
    uint32_t domain;
    size_t count;
    say("table", zacpi_find_table(source, madt, &table, NULL));
    say("processors", zacpi_list_processors(source, processors, 64, &count, NULL));
    say("interrupt of ISA device 9", zacpi_get_isa_interrupt(source, 9, &interrupt, NULL));
    say("timer", zacpi_get_hpet(source, &hpet, NULL));
    say("PCI, function 00:1f.0", zacpi_pci_ecam_address(source, 0, 0, 31, 0, &address, NULL));
    say("memory near processor 0", zacpi_domain_of_apic(source, 0, &domain, NULL));
    say("IOMMU of 00:1f.0", zacpi_get_dmar_unit(source, 0, 0, &bridge, 1, &unit, NULL));
    say("power off", zacpi_get_power_off_plan(source, &plan, NULL));
    say("console", zacpi_get_console(source, &console, NULL));
    say("AML", zacpi_get_dsdt(source, &dsdt, NULL));
}

// Over the tables in 64 KiB of memory from the RSDP at 0x70000000 on, as first.c.
int main(void) {
    static uint8_t bytes[65536];
    struct zacpi_region region = {0x70000000, bytes, fread(bytes, 1, sizeof bytes, stdin)};
    struct zacpi_source source = {&region, 1, region.address, ZACPI_START_RSDP, 0};
    ask(&source);
    return 0;
}
