/* guest PROCESSORS FILE: writes the ACPI tables of a guest's machine into a file, as a hypervisor writes them into the
 * guest's memory from 0x7000000 on, where the RSDP is: a number of processors and 128 MiB in two domains, an I/O APIC,
 * PCI, an HPET, and the fixed hardware of a q35. */
#include "zacpi.h"
#include <stdio.h>
#include <stdlib.h>

enum { TABLES = 0x7000000, ROOM = 1 << 20, MOST = 4096, HALF = 64 << 20 };
/* The contents of the tables, but for the processors. */
static const struct zacpi_io_apic io_apic = {.address = 0xfec00000};
static const struct zacpi_interrupt_source_override overrides[] = {
    {.isa_source = 0, .global_system_interrupt = 2}, /* the timer */
    {.isa_source = 9, .global_system_interrupt = 9, .polarity = ZACPI_POLARITY_HIGH, .trigger = ZACPI_TRIGGER_LEVEL}};
static const struct zacpi_pci_region pci = {.base_address = 0xb0000000, .last_bus = 255};
static const struct zacpi_hpet_info hpet = {0xfed00000, 0x8086a201, 100, 0, 0};
static const struct zacpi_memory_affinity halves[] = {{.length = HALF}, {.address = HALF, .length = HALF, .domain = 1}};
static const uint8_t distances[] = {10, 20, 20, 10};
static const uint8_t soft_off[] = {0x08, '_', 'S', '5', '_', 0x12, 4, 2, 0, 0}; /* Name (_S5, Package {0, 0}) */
static struct zacpi_processor processors[MOST];
static struct zacpi_apic_domain domains[MOST];
static uint8_t scratch[ROOM], memory[ROOM];

/* The processors, of which the first half is in domain 0. */
static void place(size_t count) {
    for (size_t i = 0; i < count; i++) {
        processors[i].uid = processors[i].local_apic_id = domains[i].local_apic_id = (uint32_t)i;
        processors[i].state = ZACPI_PROCESSOR_WAITING, domains[i].domain = i >= (count + 1) / 2;
    }
}
/* A register of `bits` bits among the I/O ports. */
static struct zacpi_register port(uint64_t address, uint8_t bits) {
    struct zacpi_register answer = {.at = {.address = address, .space = ZACPI_SPACE_SYSTEM_IO, .bit_width = bits},
                                    .present = 1};
    return answer;
}
static struct zacpi_fixed_hardware hardware(void) {
    struct zacpi_fixed_hardware answer = {0};
    answer.power_profile = ZACPI_PROFILE_DESKTOP;
    answer.sci_interrupt = 9;
    answer.pm1a_event = port(0x600, 32), answer.pm1a_control = port(0x604, 16), answer.pm_timer = port(0x608, 32);
    answer.gpe0_block.address = 0x620, answer.gpe0_block.space = ZACPI_SPACE_SYSTEM_IO;
    answer.gpe0_block.byte_length = 16, answer.gpe0_block.present = 1;
    answer.c2_latency = 101, answer.c3_latency = 1001; /* neither C2 nor C3 */
    answer.reset = port(0xcf9, 8), answer.reset_value = 0xf;
    answer.flags = ZACPI_FADT_WBINVD | ZACPI_FADT_TMR_VAL_EXT | ZACPI_FADT_RESET_REG_SUP;
    return answer;
}

/* Writes the tables of a machine with `count` processors into `memory`, and how many bytes they have to `length`. */
static zacpi_status write_machine(size_t count, size_t *length) {
    const struct zacpi_table_ids ids = {.oem_id = "ZACPI",
                                        .oem_table_id = "GUEST",
                                        .oem_revision = 1,
                                        .creator_id = {'Z', 'F', 'I', 'R'},
                                        .creator_revision = 1};
    const struct zacpi_madt_contents madt = {.processors = processors,
                                             .processors_length = count,
                                             .io_apics = &io_apic,
                                             .io_apics_length = 1,
                                             .overrides = overrides,
                                             .overrides_length = 2,
                                             .local_apic_address = 0xfee00000,
                                             .also_has_8259 = 1};
    const struct zacpi_srat_contents srat = {
        .apics = domains, .apics_length = count, .ranges = halves, .ranges_length = 2};
    const struct zacpi_aml_contents dsdt = {.aml = soft_off, .aml_length = sizeof soft_off, .revision = 2};
    const struct zacpi_facs_contents facs = {0};
    struct zacpi_fixed_hardware fadt = hardware();
    struct zacpi_listed_table tables[6];
    const struct zacpi_machine machine = {.ids = ids,
                                          .tables = tables,
                                          .tables_length = 6,
                                          .dsdts = &dsdt,
                                          .dsdts_length = 1,
                                          .facs = &facs,
                                          .facs_length = 1};
    size_t written, used = 0; /* of `scratch`, to which each table is written first */
    zacpi_status refused = zacpi_dsdt_address(TABLES, 6, &fadt.dsdt_address);
    if (!refused) refused = zacpi_facs_address(TABLES, 6, &dsdt, 1, &fadt.facs_address);
#define LIST(i, table, ...) \
    tables[i].bytes = scratch + used; \
    if (!refused) refused = zacpi_write_##table(&ids, __VA_ARGS__, scratch + used, ROOM - used, &written); \
    if (!refused) used += tables[i].length = written
    LIST(0, fadt, &fadt);
    LIST(1, madt, &madt);
    LIST(2, mcfg, &pci, 1);
    LIST(3, hpet, &hpet);
    LIST(4, srat, &srat);
    LIST(5, slit, 2, distances, sizeof distances);
    return refused ? refused : zacpi_write_tables(&machine, TABLES, memory, ROOM, length);
}

int main(int argc, char **argv) {
    unsigned long count = argc == 3 ? strtoul(argv[1], NULL, 10) : 0;
    size_t length = 0;
    zacpi_status refused;
    FILE *file;
    if (!count || count > MOST) return fputs("usage: guest PROCESSORS FILE\n", stderr), 2;
    place(count);
    refused = write_machine(count, &length);
    if (refused) return fprintf(stderr, "guest: %s\n", zacpi_status_name(refused)), 1;
    file = fopen(argv[2], "wb");
    if (!file || fwrite(memory, 1, length, file) != length || fclose(file))
        return fprintf(stderr, "guest: can't write %s\n", argv[2]), 1;
    return printf("%zu bytes for 0x%x\n", length, TABLES), 0;
}
