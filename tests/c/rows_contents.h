/* What the calls that write a table are passed, and the bytes that they have to write of it, worked out by hand from
 * the layouts. For rows_written.h. */
#ifndef ROWS_CONTENTS_H
#define ROWS_CONTENTS_H

static const struct zacpi_table_ids makers = {{'G', 'U', 'E', 'S', 'T', ' '}, {'M', 'A', 'C', 'H', 'I', 'N', 'E', ' '},
                                              {0}, 0x01020304, {'Z', 'U', 'G', 'Z'}, 0x05060708};
/* The names are made of bytes that aren't UTF-8, one after the other. */
static const struct zacpi_table_ids no_oem = {{'G', 'U', 'E', 'S', 'T', 0xff}, {'M'}, {0}, 0, {'Z'}, 0};
static const struct zacpi_table_ids no_table_id = {{'G'}, {0x80}, {0}, 0, {'Z'}, 0};
static const struct zacpi_table_ids no_creator = {{'G'}, {'M'}, {0}, 0, {'Z', 0xc3, 'Z', 'Z'}, 0};
static const struct zacpi_table_ids *ids = &makers;

/* Signature, Length, Revision, Checksum; OEMID, OEM Table ID; OEM Revision, Creator ID, Creator Revision. */
#define HEAD(a, b, c, d, length, revision, checksum) LONG_HEAD(a, b, c, d, length, 0, revision, checksum)
#define LONG_HEAD(a, b, c, d, length, length_256, revision, checksum) a, b, c, d, length, length_256, 0, 0, revision, \
    checksum, \
    'G', 'U', 'E', 'S', 'T', ' ', 'M', 'A', 'C', 'H', 'I', 'N', 'E', ' ', \
    4, 3, 2, 1, 'Z', 'U', 'G', 'Z', 8, 7, 6, 5

/* ---- What is passed ------------------------------------------------------------------------------------- */

static const struct zacpi_signature tpm2 = {{'T', 'P', 'M', '2'}}, oem9 = {{'O', 'E', 'M', '9'}};
static const uint32_t addresses_32[] = {0x7fe01000, 0};
static const uint64_t addresses_64[] = {0x7fe01000, 0x0102030405060708};
static const uint8_t code[] = {0xa4, 0x01, 0x02};
static const uint8_t distances[] = {10, 20, 21, 10};
static const struct zacpi_pci_region buses[] = {{0xb0000000, 0, 0, 255}, {0x2000000000, 0x102, 16, 31}};
#define HPET_AT(address, id, ticks, protection) \
    {.base_address = address, .event_timer_block_id = id, .clock_tick_unit = ticks, .number = 2, \
     .page_protection = protection}
static const struct zacpi_hpet_info timers_block = HPET_AT(0x1fed00000, 0x8086a201, 0x1234, 1);
static const struct zacpi_hpet_info unprotected = HPET_AT(0x1fed00000, 0x8086a201, 0x1234, 0);
static const struct zacpi_hpet_info protected_64k = HPET_AT(0x1fed00000, 0x8086a201, 0x1234, 2);
static const struct zacpi_hpet_info reserved_protection = HPET_AT(0xfed00000, 0x8086a201, 0x80, 9);
/* The second one's ids are too large for a Processor Local APIC; the third one's uid alone, and the fourth one's id.
 * The last one's have a place there, but it is an x2APIC. */
static const struct zacpi_processor listed[] = {{7, 2, ZACPI_PROCESSOR_RUNNING, 1, 0, 0},
                                                {255, 0x1234, ZACPI_PROCESSOR_DISABLED, 0, 1, 0},
                                                {255, 254, ZACPI_PROCESSOR_WAITING, 0, 0, 0},
                                                {254, 255, ZACPI_PROCESSOR_WAITING, 0, 0, 0},
                                                {254, 254, ZACPI_PROCESSOR_DISABLED, 1, 1, 0},
                                                {6, 5, ZACPI_PROCESSOR_WAITING, 0, 0, 255}};
static const struct zacpi_io_apic controllers[] = {{0xfec00000, 24, 3}, {0xfe020304, 0x05060708, 0}};
static const struct zacpi_interrupt_source_override wirings[] = {
    {20, 9, ZACPI_POLARITY_LOW, ZACPI_TRIGGER_LEVEL, 0}, {0x01020304, 0, ZACPI_POLARITY_HIGH, ZACPI_TRIGGER_BUS, 0},
    {5, 1, ZACPI_POLARITY_BUS, ZACPI_TRIGGER_LEVEL, 0}};
static const struct zacpi_nmi_source sources_of_nmis[] = {{21, ZACPI_POLARITY_HIGH, ZACPI_TRIGGER_EDGE},
                                                        {0x01020304, ZACPI_POLARITY_BUS, ZACPI_TRIGGER_BUS}};
static const struct zacpi_nmi_line lines_of_nmis[] = {
    {9, 1, 1, ZACPI_POLARITY_HIGH, ZACPI_TRIGGER_EDGE}, {255, 0, 0, ZACPI_POLARITY_BUS, ZACPI_TRIGGER_BUS},
    {254, 0, 1, ZACPI_POLARITY_LOW, ZACPI_TRIGGER_BUS},
    {0xfffffffe, 0, 1, ZACPI_POLARITY_HIGH, ZACPI_TRIGGER_LEVEL}};
/* The second one's uid stands for all processors, or its id. */
static const struct zacpi_processor of_all_uids[] = {{7, 2, ZACPI_PROCESSOR_RUNNING, 1, 0, 0},
                                                     {0xffffffff, 1, ZACPI_PROCESSOR_RUNNING, 0, 0, 0}};
static const struct zacpi_processor of_all_ids[] = {{7, 2, ZACPI_PROCESSOR_RUNNING, 1, 0, 0},
                                                    {1, 0xffffffff, ZACPI_PROCESSOR_RUNNING, 0, 0, 0}};
static const struct zacpi_interrupt_source_override no_polarity[] = {{20, 9, 2, ZACPI_TRIGGER_LEVEL, 0}};
static const struct zacpi_interrupt_source_override no_trigger[] = {{20, 9, ZACPI_POLARITY_LOW, 4, 0}};
static const struct zacpi_nmi_source no_source_trigger[] = {{21, ZACPI_POLARITY_LOW, 2}};
static const struct zacpi_nmi_source no_source_polarity[] = {{21, 4, ZACPI_TRIGGER_BUS}};
static const struct zacpi_nmi_line no_lint[] = {{9, 0, 2, 0, 0}};
static const struct zacpi_interrupt_source_override no_isa[] = {{20, 9, ZACPI_POLARITY_LOW, ZACPI_TRIGGER_LEVEL, 1}};
static const struct zacpi_nmi_line no_line_polarity[] = {{9, 0, 1, 2, ZACPI_TRIGGER_EDGE}};
static const struct zacpi_nmi_line no_line_trigger[] = {{9, 1, 0, ZACPI_POLARITY_HIGH, 4}};
static const struct zacpi_nmi_line line_of_all[] = {{0xffffffff, 0, 1, 0, 0}};
/* The second one's id is too large for a Processor Local APIC/SAPIC Affinity; the second range ends at 2^64 - 1. */
static const struct zacpi_apic_domain domains_of_apics[] = {{254, 0x04030201}, {300, 1}};
static const struct zacpi_gicc_domain domains_of_giccs[] = {{0x0a0b0c0d, 0x01020304}};
static const struct zacpi_memory_affinity domains_of_memory[] = {
    {0, 0x80000000, 0, 1, 0}, {0xfefdfcfbfaf9f8f7, 0x0102030405060708, 0x04030201, 0, 255}};
static const struct zacpi_apic_domain domain_of_all_ids[] = {{0, 0}, {0xffffffff, 0}};
static const struct zacpi_gicc_domain domain_of_all_uids[] = {{0, 0}, {0xffffffff, 0}};
static const struct zacpi_memory_affinity domain_of_no_byte[] = {{0x1000, 1, 0, 0, 0}, {0x2000, 0, 0, 0, 0}};
static const struct zacpi_memory_affinity domain_past_end[] = {{0xfefdfcfbfaf9f8f8, 0x0102030405060708, 0, 0, 0}};
/* No byte of the first one is another's; 360 degrees are not 0, and 1 is no type that is written. */
static const struct zacpi_boot_graphic image = {0x0102030405060708, 0x11121314, 0x21222324, 90, 255, 0};
static const struct zacpi_boot_graphic image_at_0 = {0, 0, 0, 0, 0, 0}, image_at_180 = {0, 0, 0xffffffff, 180, 0, 0};
static const struct zacpi_boot_graphic image_at_270 = {0xffffffffffffffff, 0, 0, 270, 1, 0};
static const struct zacpi_boot_graphic image_at_45 = {0, 0, 0, 45, 1, 0}, image_at_360 = {0, 0, 0, 360, 1, 0};
static const struct zacpi_boot_graphic no_bitmap = {0, 0, 0, 90, 1, 1};
/* Of the second console's registers, rate, interrupts and controllers none is there. */
static const struct zacpi_spcr_contents gic_console = {
    {.base = {{0x0807060504030201, 0, 32, 0, 3}, 1}, .baud_rate = 115200, .global_system_interrupt = 0x14131211,
     .clock_frequency = 0x64636261, .pci_flags = 0x84838281, .pci_device_id = 0x2221, .pci_vendor_id = 0x3231,
     .interface_type = 3, .irq = 4, .has_irq = 255, .has_global_system_interrupt = 255, .has_baud_rate = 255,
     .stop_bits = 1,
     .pci_segment = 0x51, .pci_bus = 0x41, .pci_device = 0x1f, .pci_function = 7}, 8, 2, 3};
static const struct zacpi_spcr_contents no_console = {
    {.base = {{0x3f8, 0x0b, 8, 0, 5}, 0}, .baud_rate = 9600, .global_system_interrupt = 6, .pci_device_id = 0xffff,
     .pci_vendor_id = 0xffff, .interface_type = 0x16, .irq = 5, .parity = 0xfe, .stop_bits = 0xfd}, 255, 255, 255};
static const struct zacpi_spcr_contents pc_console = {
    {.base = {{0x3f8, 1, 8, 0, 1}, 1}, .baud_rate = 9600, .global_system_interrupt = 4, .clock_frequency = 1843200,
     .pci_device_id = 0xffff, .pci_vendor_id = 0xffff, .irq = 4, .has_irq = 1, .has_global_system_interrupt = 1,
     .has_baud_rate = 1, .stop_bits = 1}, 30, 0, 0};
#define CONSOLE(name, address, space, access, present, controllers) static const struct zacpi_spcr_contents name = { \
    {.base = {{address, space, 8, 0, access}, present}, .has_global_system_interrupt = 1}, controllers, 0, 0};
CONSOLE(console_at_0, 0, 1, 1, 1, 2)
CONSOLE(console_no_space, 0, 0x0b, 1, 1, 2)
CONSOLE(console_no_access, 0x3f8, 1, 5, 1, 2)
CONSOLE(console_no_present, 0x3f8, 1, 1, 2, 2)
CONSOLE(console_no_controller, 0x3f8, 1, 1, 1, 0)
CONSOLE(console_of_8259, 0x3f8, 1, 1, 1, 3)
CONSOLE(console_of_bit_5, 0x3f8, 1, 1, 1, 34)

#define LISTED(items) items, sizeof(items) / sizeof *(items)
#define NONE(items) items, 0
#define MADT(name, processors, io_apics, overrides, sources, lines, ...) \
    static const struct zacpi_madt_contents name = {processors, io_apics, overrides, sources, lines, __VA_ARGS__};
MADT(whole_madt, LISTED(listed), LISTED(controllers), LISTED(wirings), LISTED(sources_of_nmis), LISTED(lines_of_nmis),
     0x1fee00000, 0x7000, 1, 1)
MADT(small_madt, listed, 1, NONE(controllers), NONE(wirings), NONE(sources_of_nmis), NONE(lines_of_nmis), 0xfee00000,
     0x7000, 0, 0)
MADT(no_madt_processor, NONE(listed), NONE(controllers), NONE(wirings), NONE(sources_of_nmis), LISTED(line_of_all),
     0xfee00000, 0, 0, 0)
MADT(madt_of_uid, LISTED(of_all_uids), NONE(controllers), NONE(wirings), NONE(sources_of_nmis), LISTED(line_of_all),
     0xfee00000, 0, 0, 0)
MADT(madt_of_id, LISTED(of_all_ids), NONE(controllers), NONE(wirings), NONE(sources_of_nmis), LISTED(line_of_all),
     0xfee00000, 0, 0, 0)
MADT(madt_of_line, listed, 1, NONE(controllers), NONE(wirings), NONE(sources_of_nmis), LISTED(line_of_all),
     0xfee00000, 0, 0, 0)
MADT(madt_no_polarity, NONE(listed), NONE(controllers), LISTED(no_polarity), NONE(sources_of_nmis),
     NONE(lines_of_nmis), 0xfee00000, 0, 0, 0)
MADT(madt_no_trigger, listed, 1, NONE(controllers), LISTED(no_trigger), NONE(sources_of_nmis), NONE(lines_of_nmis),
     0xfee00000, 0, 0, 0)
MADT(madt_no_source_trigger, listed, 1, NONE(controllers), NONE(wirings), LISTED(no_source_trigger),
     NONE(lines_of_nmis), 0xfee00000, 0, 0, 0)
MADT(madt_no_source_polarity, listed, 1, NONE(controllers), NONE(wirings), LISTED(no_source_polarity),
     NONE(lines_of_nmis), 0xfee00000, 0, 0, 0)
MADT(madt_no_lint, listed, 1, NONE(controllers), NONE(wirings), NONE(sources_of_nmis), LISTED(no_lint),
     0xfee00000, 0, 0, 0)
MADT(madt_no_isa, listed, 1, NONE(controllers), LISTED(no_isa), NONE(sources_of_nmis), NONE(lines_of_nmis),
     0xfee00000, 0, 0, 0)
MADT(madt_no_line_polarity, listed, 1, NONE(controllers), NONE(wirings), NONE(sources_of_nmis),
     LISTED(no_line_polarity), 0xfee00000, 0, 0, 0)
MADT(madt_no_line_trigger, listed, 1, NONE(controllers), NONE(wirings), NONE(sources_of_nmis),
     LISTED(no_line_trigger), 0xfee00000, 0, 0, 0)
static const struct zacpi_srat_contents whole_srat = {
    LISTED(domains_of_apics), LISTED(domains_of_giccs), LISTED(domains_of_memory)};
static const struct zacpi_srat_contents empty_srat = {
    NONE(domains_of_apics), NONE(domains_of_giccs), NONE(domains_of_memory)};
static const struct zacpi_srat_contents srat_of_all_ids = {
    LISTED(domain_of_all_ids), NONE(domains_of_giccs), LISTED(domain_of_no_byte)};
static const struct zacpi_srat_contents srat_of_all_uids = {
    NONE(domains_of_apics), LISTED(domain_of_all_uids), LISTED(domain_of_no_byte)};
static const struct zacpi_srat_contents srat_of_no_byte = {
    LISTED(domains_of_apics), NONE(domains_of_giccs), LISTED(domain_of_no_byte)};
static const struct zacpi_srat_contents srat_past_end = {
    NONE(domains_of_apics), LISTED(domains_of_giccs), LISTED(domain_past_end)};

/* ---- What is written ------------------------------------------------------------------------------------ */

/* Checksum: the first 20 bytes sum to 0; Extended Checksum: all 36 do. */
static const uint8_t rsdp_bytes[] = {'R', 'S', 'D', ' ', 'P', 'T', 'R', ' ', 0x37, 'G', 'U', 'E', 'S', 'T', ' ', 2,
    0, 0, 0, 0, 36, 0, 0, 0, /* RsdtAddress, Length */
    8, 7, 6, 5, 4, 3, 2, 1, 0xb8, 0, 0, 0}; /* XsdtAddress, Extended Checksum */
static const uint8_t rsdt_bytes[] = {HEAD('R', 'S', 'D', 'T', 44, 1, 0xf6), 0, 0x10, 0xe0, 0x7f, 0, 0, 0, 0};
static const uint8_t xsdt_bytes[] = {HEAD('X', 'S', 'D', 'T', 52, 1, 0xc4), 0, 0x10, 0xe0, 0x7f, 0, 0, 0, 0,
    8, 7, 6, 5, 4, 3, 2, 1};
static const uint8_t dsdt_bytes[] = {HEAD('D', 'S', 'D', 'T', 39, 2, 0xd0), 0xa4, 1, 2};
/* A DSDT whose AML is all of that one's bytes but the last. */
static const uint8_t cut_dsdt_bytes[] = {
    HEAD('D', 'S', 'D', 'T', 74, 2, 0x56), HEAD('D', 'S', 'D', 'T', 39, 2, 0xd0), 0xa4, 1};
static const uint8_t ssdt_bytes[] = {HEAD('S', 'S', 'D', 'T', 36, 1, 0x6c)};
static const uint8_t mcfg_bytes[] = {HEAD('M', 'C', 'F', 'G', 76, 1, 0x64), 0, 0, 0, 0, 0, 0, 0, 0,
    0, 0, 0, 0xb0, 0, 0, 0, 0, 0, 0, 0, 255, 0, 0, 0, 0, 0, 0, 0, 0, 0x20, 0, 0, 0, 2, 1, 16, 31, 0, 0, 0, 0};
static const uint8_t no_region_bytes[] = {HEAD('M', 'C', 'F', 'G', 44, 1, 0x85), 0, 0, 0, 0, 0, 0, 0, 0};
/* Event Timer Block ID; BASE_ADDRESS; HPET Number, Main Counter Minimum Clock_tick, Page Protection. */
#define HPET(checksum, protection) {HEAD('H', 'P', 'E', 'T', 56, 1, checksum), 1, 0xa2, 0x86, 0x80, \
    0, 0, 0, 0, 0, 0, 0xd0, 0xfe, 1, 0, 0, 0, 2, 0x34, 0x12, protection}
static const uint8_t hpet_bytes[] = HPET(0xa4, 1), unprotected_bytes[] = HPET(0xa5, 0);
static const uint8_t protected_64k_bytes[] = HPET(0xa3, 2);
static const uint8_t reserved_hpet_bytes[] = {HEAD('H', 'P', 'E', 'T', 56, 1, 0x69), 1, 0xa2, 0x86, 0x80,
    0, 0, 0, 0, 0, 0, 0xd0, 0xfe, 0, 0, 0, 0, 2, 0x80, 0, 3};
static const uint8_t slit_bytes[] = {HEAD('S', 'L', 'I', 'T', 48, 1, 0x23), 2, 0, 0, 0, 0, 0, 0, 0, 10, 20, 21, 10};
static const uint8_t madt_bytes[] = {LONG_HEAD('A', 'P', 'I', 'C', 2, 1, 5, 0x54), 0, 0, 0, 0, 1, 0, 0, 0,
    0, 8, 7, 2, 1, 0, 0, 0,                                  /* Processor Local APIC: uid 7, id 2 */
    9, 16, 0, 0, 0x34, 0x12, 0, 0, 2, 0, 0, 0, 255, 0, 0, 0, /* Processor Local x2APIC: disabled, Online Capable */
    9, 16, 0, 0, 254, 0, 0, 0, 1, 0, 0, 0, 255, 0, 0, 0,
    9, 16, 0, 0, 255, 0, 0, 0, 1, 0, 0, 0, 254, 0, 0, 0,
    0, 8, 254, 254, 2, 0, 0, 0,                              /* Processor Local APIC: disabled, Online Capable */
    9, 16, 0, 0, 5, 0, 0, 0, 1, 0, 0, 0, 6, 0, 0, 0,         /* Processor Local x2APIC: uid 6, id 5 */
    5, 12, 0, 0, 0, 0, 0xe0, 0xfe, 1, 0, 0, 0,               /* Local APIC Address Override */
    1, 12, 3, 0, 0, 0, 0xc0, 0xfe, 24, 0, 0, 0,              /* I/O APIC */
    1, 12, 0, 0, 4, 3, 2, 0xfe, 8, 7, 6, 5,
    2, 10, 0, 9, 20, 0, 0, 0, 15, 0,                         /* Interrupt Source Override: active low, level */
    2, 10, 0, 0, 4, 3, 2, 1, 1, 0,                           /* active high, as the bus */
    2, 10, 0, 1, 5, 0, 0, 0, 12, 0,                          /* as the bus, level */
    3, 8, 5, 0, 21, 0, 0, 0,                                 /* NMI Source: active high, edge */
    3, 8, 0, 0, 4, 3, 2, 1,                                  /* as the bus */
    4, 6, 255, 5, 0, 1,                                      /* Local APIC NMI: all, active high, edge, LINT1 */
    10, 12, 0, 0, 255, 0, 0, 0, 0, 0, 0, 0,                  /* Local x2APIC NMI: uid 255, as the bus, LINT0 */
    4, 6, 254, 3, 0, 1,                                      /* Local APIC NMI: uid 254, active low, LINT1 */
    10, 12, 13, 0, 0xfe, 255, 255, 255, 1, 0, 0, 0,          /* Local x2APIC NMI: uid 0xfffffffe, high, level, LINT1 */
    16, 16, 0, 0, 0, 0, 0, 0, 0, 0x70, 0, 0, 0, 0, 0, 0};    /* Multiprocessor Wakeup */
static const uint8_t small_madt_bytes[] = {HEAD('A', 'P', 'I', 'C', 52, 5, 0x89), 0, 0, 0xe0, 0xfe, 0, 0, 0, 0,
    0, 8, 7, 2, 1, 0, 0, 0};
/* Reserved, of which the first is 1, and then the entries. */
#define SRAT_RESERVED 1, 0, 0, 0, 0, 0, 0, 0, 0, 0, 0, 0
/* Processor Local APIC/SAPIC Affinity: id 254; Processor Local x2APIC Affinity: id 300. */
#define SRAT_APICS 0, 16, 1, 254, 1, 0, 0, 0, 0, 2, 3, 4, 0, 0, 0, 0, \
    2, 24, 0, 0, 1, 0, 0, 0, 0x2c, 1, 0, 0, 1, 0, 0, 0, 0, 0, 0, 0, 0, 0, 0, 0
/* Memory Affinity: enabled and hot-pluggable; enabled and non-volatile. */
#define SRAT_MEMORY 1, 40, 0, 0, 0, 0, 0, 0, 0, 0, 0, 0, 0, 0, 0, 0, 0, 0, 0, 0x80, 0, 0, 0, 0, 0, 0, 0, 0, \
    3, 0, 0, 0, 0, 0, 0, 0, 0, 0, 0, 0, \
    1, 40, 1, 2, 3, 4, 0, 0, 0xf7, 0xf8, 0xf9, 0xfa, 0xfb, 0xfc, 0xfd, 0xfe, 8, 7, 6, 5, 4, 3, 2, 1, 0, 0, 0, 0, \
    5, 0, 0, 0, 0, 0, 0, 0, 0, 0, 0, 0
static const uint8_t srat_bytes[] = {HEAD('S', 'R', 'A', 'T', 186, 3, 0x4b), SRAT_RESERVED, SRAT_APICS,
    3, 18, 4, 3, 2, 1, 0x0d, 0x0c, 0x0b, 0x0a, 1, 0, 0, 0, 0, 0, 0, 0, /* GICC Affinity */
    SRAT_MEMORY};
static const uint8_t srat_without_giccs[] = {HEAD('S', 'R', 'A', 'T', 168, 3, 0xab), SRAT_RESERVED, SRAT_APICS,
    SRAT_MEMORY};
static const uint8_t empty_srat_bytes[] = {HEAD('S', 'R', 'A', 'T', 48, 3, 0x61), SRAT_RESERVED};
/* Version, Status, Image Type; Image Address; Image Offset X; Image Offset Y. */
static const uint8_t bgrt_bytes[] = {HEAD('B', 'G', 'R', 'T', 56, 1, 0x6b), 1, 0, 3, 0, 8, 7, 6, 5, 4, 3, 2, 1,
    0x14, 0x13, 0x12, 0x11, 0x24, 0x23, 0x22, 0x21};
static const uint8_t bgrt_0_bytes[] = {HEAD('B', 'G', 'R', 'T', 56, 1, 0x66), 1, 0, 0, 0, 0, 0, 0, 0, 0, 0, 0, 0,
    0, 0, 0, 0, 0, 0, 0, 0};
static const uint8_t bgrt_180_bytes[] = {HEAD('B', 'G', 'R', 'T', 56, 1, 0x66), 1, 0, 4, 0, 0, 0, 0, 0, 0, 0, 0, 0,
    0, 0, 0, 0, 255, 255, 255, 255};
static const uint8_t bgrt_270_bytes[] = {HEAD('B', 'G', 'R', 'T', 56, 1, 0x67), 1, 0, 7, 0,
    255, 255, 255, 255, 255, 255, 255, 255, 0, 0, 0, 0, 0, 0, 0, 0};
/* Interface Type, Reserved; Base Address; Interrupt Type, IRQ, Global System Interrupt; Configured Baud Rate, Parity,
 * Stop Bits, Flow Control, Terminal Type, Language; PCI Device ID to PCI Segment; UART Clock Frequency, Precise Baud
 * Rate, NamespaceStringLength, NamespaceStringOffset; NamespaceString. */
static const uint8_t spcr_bytes[] = {HEAD('S', 'P', 'C', 'R', 90, 4, 0x4e), 3, 0, 0, 0,
    0, 32, 0, 3, 1, 2, 3, 4, 5, 6, 7, 8, 9, 4, 0x11, 0x12, 0x13, 0x14, 7, 0, 1, 2, 3, 0,
    0x21, 0x22, 0x31, 0x32, 0x41, 0x1f, 7, 0x81, 0x82, 0x83, 0x84, 0x51,
    0x61, 0x62, 0x63, 0x64, 0, 0xc2, 1, 0, 2, 0, 88, 0, '.', 0};
static const uint8_t no_spcr_bytes[] = {HEAD('S', 'P', 'C', 'R', 90, 4, 0xa6), 0x16, 0, 0, 0,
    0, 0, 0, 0, 0, 0, 0, 0, 0, 0, 0, 0, 0, 0, 0, 0, 0, 0, 0, 0xfe, 0xfd, 255, 255, 0,
    255, 255, 255, 255, 0, 0, 0, 0, 0, 0, 0, 0,
    0, 0, 0, 0, 0, 0, 0, 0, 2, 0, 88, 0, '.', 0};
static const uint8_t pc_spcr_bytes[] = {HEAD('S', 'P', 'C', 'R', 90, 4, 0xa4), 0, 0, 0, 0,
    1, 8, 0, 1, 0xf8, 3, 0, 0, 0, 0, 0, 0, 31, 4, 4, 0, 0, 0, 3, 0, 1, 0, 0, 0,
    255, 255, 255, 255, 0, 0, 0, 0, 0, 0, 0, 0,
    0, 0x20, 0x1c, 0, 0x80, 0x25, 0, 0, 2, 0, 88, 0, '.', 0};

/* A TPM2 of the TCG ACPI Specification: Platform Class, Reserved, Address of CRB Control Area, Start Method. */
static const uint8_t tpm2_body[] = {0, 0, 0, 0, 0x40, 0, 0xd4, 0xfe, 0, 0, 0, 0, 7, 0, 0, 0};
static const uint8_t tpm2_bytes[] = {HEAD('T', 'P', 'M', '2', 52, 4, 0x5b),
    0, 0, 0, 0, 0x40, 0, 0xd4, 0xfe, 0, 0, 0, 0, 7, 0, 0, 0};
static const uint8_t bodiless_bytes[] = {HEAD('O', 'E', 'M', '9', 36, 255, 0x92)};
#endif
