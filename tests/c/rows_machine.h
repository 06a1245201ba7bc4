/* Rows of the calls that write a FADT, a FACS and a whole machine, with each byte worked out by hand from the layouts.
 * For rows_written.h. */
#ifndef ROWS_MACHINE_H
#define ROWS_MACHINE_H

/* ---- The FADT and the FACS (sections 5.2.9 and 5.2.10) --------------------------------------------------- */

/* What a PC has that is read as it is passed. */
#define PC_NUMBERS \
    .c2_latency = 101, .c3_latency = 1001, .flush_size = 0x400, .flush_stride = 0x40, .power_profile = 2, \
    .acpi_enable = 0xa0, .acpi_disable = 0xa1, .s4bios_request = 0xa2, .pstate_control = 0xa3, \
    .c_state_control = 0xa4, .gpe1_base = 0x20, .duty_offset = 1, .duty_width = 3, .day_alarm = 13, \
    .month_alarm = 14, .century = 0x32, .reset_value = 6
/* With every other flag, and reserved ones. gpe0 and gpe1, and `present` of pm1a and reset, aren't looked at; nor are
 * the codes of pm1b_control, which isn't there, since it is at address 0. */
#define PORT(address, width, access) {{address, 1, width, 0, access}, 1}
#define PC(...) { \
    .facs_address = 0x7ff00040, .dsdt_address = 0x7fe00090, .pm1a_event = {{0x600, 1, 32, 0, 2}, 0}, \
    .pm1b_event = {{0x610, 1, 32, 0, 2}, 0}, .pm1a_control = {{0x604, 1, 16, 0, 2}, 2}, \
    .pm1b_control = {{0, 0x0b, 16, 0, 5}, 1}, \
    .pm2_control = PORT(0x650, 8, 1), .pm_timer = PORT(0x608, 32, 3), .gpe0 = {{1, 0x0b, 1, 1, 9}, 7}, \
    .gpe1 = {{1, 0x0b, 1, 1, 9}, 7}, .reset = {{0xcf9, 1, 8, 0, 1}, 2}, .gpe0_block = {0x620, 1, 16, 1}, \
    .gpe1_block = {0x100000000, 0, 40, 1}, .smi_command = 0xb2, .flags = 0xffe55555, .sci_interrupt = 0x1409, \
    .x86_boot_flags = 0xffd5, .arm_boot_flags = 0xfffd, PC_NUMBERS}
static const struct zacpi_fixed_hardware pc_fadt = PC();
/* With every other of the other flags. Its fixed hardware isn't looked at, nor is the register that resets. */
static const struct zacpi_fixed_hardware reduced_fadt = {
    .dsdt_address = 0x100000010, .facs_address = 0x200000040, .pm1a_control = {{0x604, 0x0b, 16, 0, 5}, 2},
    .pm1b_event = {{0x610, 0x0b, 32, 0, 5}, 2}, .gpe0_block = {0x620, 0x0b, 16, 2}, .gpe1_block = {0x630, 0x0b, 0, 1},
    .reset = {{0xcf9, 0x0b, 8, 0, 5}, 2}, .sleep_control = {{0xfed00000, 0, 8, 0, 1}, 1},
    .sleep_status = {{0x0807060504030201, 0x7f, 64, 3, 4}, 1}, .smi_command = 0xb2, .flags = 0x001aaaaa,
    .sci_interrupt = 9, .x86_boot_flags = 0x2a, .arm_boot_flags = 2, .power_profile = 200, .acpi_enable = 1,
    .reset_value = 0x77};
/* Reduced too, with a register that resets, high in memory, and a space of an OEM; 9 is the least reserved profile. */
static const struct zacpi_fixed_hardware reset_fadt = {
    .dsdt_address = 0x7ff00000, .reset = {{0x1fed80000, 0, 16, 1, 4}, 0}, .sleep_status = PORT(0x600, 32, 2),
    .sleep_control = {{0x1234, 0xc0, 16, 1, 4}, 1}, .flags = 1 << 10 | 1 << 20, .sci_interrupt = 0x102,
    .arm_boot_flags = 3, .power_profile = 9, .reset_value = 1};
static const struct zacpi_facs_contents facs = {0x3132333435363738, 0x11121314, 0x21222324, 1, 1};

static const uint8_t fadt_bytes[] = {LONG_HEAD('F', 'A', 'C', 'P', 0x14, 1, 6, 0x03),
    0x40, 0, 0xf0, 0x7f, 0x90, 0, 0xe0, 0x7f,       /* FIRMWARE_CTRL, DSDT */
    0, 2, 0x09, 0x14, 0xb2, 0, 0, 0,                /* Reserved, Preferred_PM_Profile, SCI_INT, SMI_CMD */
    0xa0, 0xa1, 0xa2, 0xa3,                         /* ACPI_ENABLE, ACPI_DISABLE, S4BIOS_REQ, PSTATE_CNT */
    0x00, 6, 0, 0, 0, 0, 0, 0, 0x04, 6, 0, 0, 0, 0, 0, 0, /* PM1a_EVT_BLK to PM1b_CNT_BLK */
    0x50, 6, 0, 0, 0x08, 6, 0, 0, 0x20, 6, 0, 0, 0, 0, 0, 0, /* PM2_CNT_BLK, PM_TMR_BLK, GPE0_BLK, GPE1_BLK */
    4, 2, 1, 4, 16, 40, 0x20, 0xa4,                 /* PM1_EVT_LEN to GPE1_BLK_LEN, GPE1_BASE, CST_CNT */
    101, 0, 0xe9, 3, 0, 4, 0x40, 0,                 /* P_LVL2_LAT, P_LVL3_LAT, FLUSH_SIZE, FLUSH_STRIDE */
    1, 3, 13, 14, 0x32, 0x15, 0, 0,                 /* DUTY_OFFSET to CENTURY, IAPC_BOOT_ARCH, Reserved */
    0x55, 0x55, 0x25, 0,                            /* Flags */
    1, 8, 0, 1, 0xf9, 0x0c, 0, 0, 0, 0, 0, 0,       /* RESET_REG */
    6, 1, 0, 4,                                     /* RESET_VALUE, ARM_BOOT_ARCH, FADT Minor Version */
    0x40, 0, 0xf0, 0x7f, 0, 0, 0, 0, 0x90, 0, 0xe0, 0x7f, 0, 0, 0, 0, /* X_FIRMWARE_CTRL, X_DSDT */
    1, 32, 0, 2, 0x00, 6, 0, 0, 0, 0, 0, 0,         /* X_PM1a_EVT_BLK */
    0, 0, 0, 0, 0, 0, 0, 0, 0, 0, 0, 0,             /* X_PM1b_EVT_BLK */
    1, 16, 0, 2, 0x04, 6, 0, 0, 0, 0, 0, 0,         /* X_PM1a_CNT_BLK */
    0, 0, 0, 0, 0, 0, 0, 0, 0, 0, 0, 0,             /* X_PM1b_CNT_BLK */
    1, 8, 0, 1, 0x50, 6, 0, 0, 0, 0, 0, 0,          /* X_PM2_CNT_BLK */
    1, 32, 0, 3, 0x08, 6, 0, 0, 0, 0, 0, 0,         /* X_PM_TMR_BLK */
    1, 128, 0, 0, 0x20, 6, 0, 0, 0, 0, 0, 0,        /* X_GPE0_BLK: 8 bits for each of 16 bytes */
    0, 255, 0, 0, 0, 0, 0, 0, 1, 0, 0, 0,           /* X_GPE1_BLK: as wide as a width can say */
    0, 0, 0, 0, 0, 0, 0, 0, 0, 0, 0, 0, 0, 0, 0, 0, 0, 0, 0, 0, 0, 0, 0, 0, /* SLEEP_CONTROL_REG, SLEEP_STATUS_REG */
    0, 0, 0, 0, 0, 0, 0, 0};                        /* Hypervisor Vendor Identity */
#define ZEROS_12 0, 0, 0, 0, 0, 0, 0, 0, 0, 0, 0, 0
static const uint8_t reduced_fadt_bytes[] = {LONG_HEAD('F', 'A', 'C', 'P', 0x14, 1, 6, 0xa0),
    0, 0, 0, 0, 0, 0, 0, 0, 0, 200, 9, 0,           /* up to SCI_INT */
    ZEROS_12, ZEROS_12, ZEROS_12, ZEROS_12, ZEROS_12, 0, /* SMI_CMD to CENTURY */
    0x2a, 0, 0, 0xaa, 0xaa, 0x1a, 0,                /* IAPC_BOOT_ARCH, Reserved, Flags */
    ZEROS_12, 0x77, 2, 0, 4,                        /* RESET_REG, RESET_VALUE, ARM_BOOT_ARCH, FADT Minor Version */
    0x40, 0, 0, 0, 2, 0, 0, 0, 0x10, 0, 0, 0, 1, 0, 0, 0, /* X_FIRMWARE_CTRL, X_DSDT */
    ZEROS_12, ZEROS_12, ZEROS_12, ZEROS_12, ZEROS_12, ZEROS_12, ZEROS_12, ZEROS_12, /* X_PM1a_EVT_BLK to X_GPE1_BLK */
    0, 8, 0, 1, 0, 0, 0xd0, 0xfe, 0, 0, 0, 0,       /* SLEEP_CONTROL_REG */
    0x7f, 64, 3, 4, 1, 2, 3, 4, 5, 6, 7, 8,         /* SLEEP_STATUS_REG */
    0, 0, 0, 0, 0, 0, 0, 0};
static const uint8_t reset_fadt_bytes[] = {LONG_HEAD('F', 'A', 'C', 'P', 0x14, 1, 6, 0x64),
    0, 0, 0, 0, 0, 0, 0xf0, 0x7f, 0, 9, 2, 1,       /* FIRMWARE_CTRL to SCI_INT */
    ZEROS_12, ZEROS_12, ZEROS_12, ZEROS_12, ZEROS_12, 0, /* SMI_CMD to CENTURY */
    0, 0, 0, 0, 4, 0x10, 0,                         /* IAPC_BOOT_ARCH, Reserved, Flags */
    0, 16, 1, 4, 0, 0, 0xd8, 0xfe, 1, 0, 0, 0,      /* RESET_REG */
    1, 3, 0, 4,                                     /* RESET_VALUE, ARM_BOOT_ARCH, FADT Minor Version */
    0, 0, 0, 0, 0, 0, 0, 0, 0, 0, 0xf0, 0x7f, 0, 0, 0, 0, /* X_FIRMWARE_CTRL, X_DSDT */
    ZEROS_12, ZEROS_12, ZEROS_12, ZEROS_12, ZEROS_12, ZEROS_12, ZEROS_12, ZEROS_12, /* X_PM1a_EVT_BLK to X_GPE1_BLK */
    0xc0, 16, 1, 4, 0x34, 0x12, 0, 0, 0, 0, 0, 0,   /* SLEEP_CONTROL_REG */
    1, 32, 0, 2, 0, 6, 0, 0, 0, 0, 0, 0,            /* SLEEP_STATUS_REG */
    0, 0, 0, 0, 0, 0, 0, 0};
/* Of ports alone; a block of events at 0 isn't there, whatever its space and length. */
static const uint8_t small_fadt_bytes[] = {LONG_HEAD('F', 'A', 'C', 'P', 0x14, 1, 6, 0x1a),
    0, 0, 0, 0, 16, 0, 0, 0, 0, 0, 0, 0,            /* FIRMWARE_CTRL to SCI_INT */
    0, 0, 0, 0, 0, 0, 0, 0, 0, 6, 0, 0, 0, 0, 0, 0, 4, 6, 0, 0, 0, 0, 0, 0, /* SMI_CMD to PM1b_CNT_BLK */
    0, 0, 0, 0, 0, 0, 0, 0, 0, 0, 0, 0, 0, 0, 0, 0, /* PM2_CNT_BLK to GPE1_BLK */
    4, 2, 0, 0, 0, 0, 0, 0, 0, 0, 0, 0, 0, 0, 0, 0, /* PM1_EVT_LEN to FLUSH_STRIDE */
    0, 0, 0, 0, 0, 0, 0, 0, 0, 0, 0, 0,             /* DUTY_OFFSET to Flags */
    ZEROS_12, 0, 0, 0, 4,                           /* RESET_REG, RESET_VALUE, ARM_BOOT_ARCH, FADT Minor Version */
    0, 0, 0, 0, 0, 0, 0, 0, 16, 0, 0, 0, 0, 0, 0, 0, /* X_FIRMWARE_CTRL, X_DSDT */
    1, 32, 0, 2, 0, 6, 0, 0, 0, 0, 0, 0, ZEROS_12,  /* X_PM1a_EVT_BLK, X_PM1b_EVT_BLK */
    1, 16, 0, 2, 4, 6, 0, 0, 0, 0, 0, 0, ZEROS_12,  /* X_PM1a_CNT_BLK, X_PM1b_CNT_BLK */
    ZEROS_12, ZEROS_12, ZEROS_12, ZEROS_12, ZEROS_12, ZEROS_12, /* X_PM2_CNT_BLK to SLEEP_STATUS_REG */
    0, 0, 0, 0, 0, 0, 0, 0};
/* The same with a timer whose width isn't said: PM_TMR_LEN is 4 all the same. */
static const uint8_t timer_fadt_bytes[] = {LONG_HEAD('F', 'A', 'C', 'P', 0x14, 1, 6, 0xf6),
    0, 0, 0, 0, 16, 0, 0, 0, 0, 0, 0, 0,            /* FIRMWARE_CTRL to SCI_INT */
    0, 0, 0, 0, 0, 0, 0, 0, 0, 6, 0, 0, 0, 0, 0, 0, 4, 6, 0, 0, 0, 0, 0, 0, /* SMI_CMD to PM1b_CNT_BLK */
    0, 0, 0, 0, 8, 6, 0, 0, 0, 0, 0, 0, 0, 0, 0, 0, /* PM2_CNT_BLK to GPE1_BLK */
    4, 2, 0, 4, 0, 0, 0, 0, 0, 0, 0, 0, 0, 0, 0, 0, /* PM1_EVT_LEN to FLUSH_STRIDE */
    0, 0, 0, 0, 0, 0, 0, 0, 0, 0, 0, 0,             /* DUTY_OFFSET to Flags */
    ZEROS_12, 0, 0, 0, 4,                           /* RESET_REG, RESET_VALUE, ARM_BOOT_ARCH, FADT Minor Version */
    0, 0, 0, 0, 0, 0, 0, 0, 16, 0, 0, 0, 0, 0, 0, 0, /* X_FIRMWARE_CTRL, X_DSDT */
    1, 32, 0, 2, 0, 6, 0, 0, 0, 0, 0, 0, ZEROS_12,  /* X_PM1a_EVT_BLK, X_PM1b_EVT_BLK */
    1, 16, 0, 2, 4, 6, 0, 0, 0, 0, 0, 0, ZEROS_12,  /* X_PM1a_CNT_BLK, X_PM1b_CNT_BLK */
    ZEROS_12, 1, 0, 0, 3, 8, 6, 0, 0, 0, 0, 0, 0,   /* X_PM2_CNT_BLK, X_PM_TMR_BLK */
    ZEROS_12, ZEROS_12, ZEROS_12, ZEROS_12,         /* X_GPE0_BLK to SLEEP_STATUS_REG */
    0, 0, 0, 0, 0, 0, 0, 0};
static const uint8_t facs_bytes[64] = {'F', 'A', 'C', 'S', 64, 0, 0, 0, 0x14, 0x13, 0x12, 0x11, /* Hardware Signature */
    0x24, 0x23, 0x22, 0x21, 0, 0, 0, 0, 3, 0, 0, 0, /* Firmware_Waking_Vector, Global_Lock, Flags */
    0x38, 0x37, 0x36, 0x35, 0x34, 0x33, 0x32, 0x31, 2}; /* X_Firmware_Waking_Vector, Version */

/* Without what a FADT has to have. */
#define REGISTERS(name, dsdt, event, control, flag_bits, reset_at, events) WIDE(name, dsdt, PORT(event, 32, 2), \
        PORT(control, 16, 2), flag_bits, reset_at, events)
#define WIDE(name, dsdt, event, control, flag_bits, reset_at, ...) static const struct zacpi_fixed_hardware name = { \
        .dsdt_address = dsdt, .pm1a_event = event, .pm1a_control = control, .flags = flag_bits, \
        .reset = PORT(reset_at, 8, 1), .gpe0_block = __VA_ARGS__};
#define EVENTS(address, length) {address, 1, length, 1}
REGISTERS(fadt_without_dsdt, 0, 0, 0x604, 0, 0, EVENTS(0x620, 16))
REGISTERS(fadt_without_pm1a, 16, 0, 0x604, 0, 0, EVENTS(0x620, 16))
REGISTERS(fadt_without_control, 16, 0x600, 0, 0, 0, EVENTS(0x620, 16))
REGISTERS(fadt_without_reset, 16, 0x600, 0x604, 1 << 10, 0, EVENTS(0x620, 16))
REGISTERS(fadt_without_events, 16, 0x600, 0x604, 0, 0, EVENTS(0x620, 0))
REGISTERS(fadt_events_at_0, 16, 0x600, 0x604, 0, 0, EVENTS(0, 0))
WIDE(fadt_of_a_timer, 16, PORT(0x600, 32, 2), PORT(0x604, 16, 2), 0, 0, EVENTS(0, 0), .pm_timer = PORT(0x608, 0, 3))
WIDE(fadt_of_7_event_bits, 16, PORT(0x600, 7, 1), PORT(0x604, 16, 2), 0, 0, EVENTS(0x620, 16))
WIDE(fadt_of_7_control_bits, 16, PORT(0x600, 32, 2), PORT(0x604, 7, 1), 0, 0, EVENTS(0x620, 16))

/* ---- Whole machines -------------------------------------------------------------------------------------- */

/* The RSDP at 0x7fe00000, the XSDT 0x30 on, the DSDT 0x90 on, the tables 0xc0, 0x1e0, 0x220, 0x270, 0x2b0, 0x2e0 and
 * 0x310 on; and without the RSDP each 0x30 less. */
static uint8_t machine_bytes[0x3c0], tree_bytes[0x390];
static const uint8_t machine_rsdp[] = {'R', 'S', 'D', ' ', 'P', 'T', 'R', ' ', 0x37, 'G', 'U', 'E', 'S', 'T', ' ', 2,
    0, 0, 0, 0, 36, 0, 0, 0, 0x30, 0, 0xe0, 0x7f, 0, 0, 0, 0, 0x4d, 0, 0, 0};
#define LISTED_AT(low, high) low, high, 0xe0, 0x7f, 0, 0, 0, 0
static const uint8_t machine_xsdt[] = {HEAD('X', 'S', 'D', 'T', 92, 1, 0xba), LISTED_AT(0xc0, 0), LISTED_AT(0xe0, 1),
    LISTED_AT(0x20, 2), LISTED_AT(0x70, 2), LISTED_AT(0xb0, 2), LISTED_AT(0xe0, 2), LISTED_AT(0x10, 3)};
static const uint8_t tree_xsdt[] = {HEAD('X', 'S', 'D', 'T', 92, 1, 0x0c), LISTED_AT(0x90, 0), LISTED_AT(0xb0, 1),
    LISTED_AT(0xf0, 1), LISTED_AT(0x40, 2), LISTED_AT(0x80, 2), LISTED_AT(0xb0, 2), LISTED_AT(0xe0, 2)};
static const uint8_t empty_machine_bytes[96] = {'R', 'S', 'D', ' ', 'P', 'T', 'R', ' ', 0x37, 'G', 'U', 'E', 'S', 'T',
    ' ', 2, 0, 0, 0, 0, 36, 0, 0, 0, 0x30, 0, 0xe0, 0x7f, 0, 0, 0, 0, 0x4d, 0, 0, 0, ZEROS_12,
    HEAD('X', 'S', 'D', 'T', 36, 1, 0x67)};
/* With a FACS and no table: the FACS 0x80 on, in the 128 bytes that begin 0x60 on. */
static uint8_t facs_machine_bytes[0xe0];
/* Without a DSDT: the XSDT 0x30 on, the BGRT 0x70 on, the SPCR 0xb0 on. */
static uint8_t firmware_machine_bytes[0x110];
static const uint8_t firmware_xsdt[] = {HEAD('X', 'S', 'D', 'T', 52, 1, 0x79), LISTED_AT(0x70, 0), LISTED_AT(0xb0, 0)};

/* Tables of an OEM: Signature, Length, Revision, Checksum, OEMID. The first one is whole, with a byte after it. */
static const uint8_t oem_bytes[37] = {'O', 'E', 'M', '9', 36, 0, 0, 0, 1, 0xd6, 0xff, 0xfe, 0xfd, 0xfc, 0xfb, 0xfa};
static const uint8_t short_bytes[35] = {'O', 'E', 'M', '9', 35, 0, 0, 0, 1, 0xc2};
static const uint8_t long_bytes[36] = {'O', 'E', 'M', '9', 36, 0, 0, 1, 1, 0xc0};
static const uint8_t unsummed_bytes[36] = {'O', 'E', 'M', '9', 36, 0, 0, 0, 1, 0xc0};
static const struct zacpi_listed_table oem_table = {oem_bytes, 36};
/* The XSDT 0x30 on, the table 0x60 on. */
static uint8_t oem_machine_bytes[0x90];
static const uint8_t oem_xsdt[] = {HEAD('X', 'S', 'D', 'T', 44, 1, 0xa0), LISTED_AT(0x60, 0)};

static uint8_t *lay(uint8_t *to, const uint8_t *bytes, size_t length) {
    memcpy(to, bytes, length);
    return to + (length + 15) / 16 * 16;
}
static void lay_tree(uint8_t *to, const uint8_t *xsdt) {
    to = lay(to, xsdt, sizeof machine_xsdt);
    to = lay(to, dsdt_bytes, sizeof dsdt_bytes);
    to = lay(to, fadt_bytes, sizeof fadt_bytes);
    to = lay(to, small_madt_bytes, sizeof small_madt_bytes);
    to = lay(to, mcfg_bytes, sizeof mcfg_bytes);
    to = lay(to, hpet_bytes, sizeof hpet_bytes);
    to = lay(to, slit_bytes, sizeof slit_bytes);
    to = lay(to, ssdt_bytes, sizeof ssdt_bytes);
    lay(to, srat_without_giccs, sizeof srat_without_giccs);
}
static void lay_machines(void) {
    uint8_t *to = lay(firmware_machine_bytes, machine_rsdp, sizeof machine_rsdp);
    to = lay(to, firmware_xsdt, sizeof firmware_xsdt);
    to = lay(to, bgrt_bytes, sizeof bgrt_bytes);
    lay(to, spcr_bytes, sizeof spcr_bytes);
    to = lay(oem_machine_bytes, machine_rsdp, sizeof machine_rsdp);
    lay(lay(to, oem_xsdt, sizeof oem_xsdt), oem_bytes, 36);
    memcpy(facs_machine_bytes, empty_machine_bytes, sizeof empty_machine_bytes);
    memcpy(facs_machine_bytes + 0x80, facs_bytes, sizeof facs_bytes);
    lay_tree(lay(machine_bytes, machine_rsdp, sizeof machine_rsdp), machine_xsdt);
    lay_tree(tree_bytes, tree_xsdt);
}

static const struct zacpi_listed_table not_listed;
static const struct zacpi_aml_contents some_aml = {LISTED(code), 2}, whole_dsdt = {LISTED(dsdt_bytes), 2};

/* What a call of machines gives for these tables, and the machine's size. */
static zacpi_status on_machine(const struct zacpi_listed_table *tables, size_t count, size_t dsdts, size_t facs_count,
                               uint64_t address, int has_rsdp, uint8_t *to, size_t room, size_t *length) {
    const struct zacpi_machine machine = {*ids, {0}, tables, count, &some_aml, dsdts, &facs, facs_count};
    size_t size = UNCOUNTED;
    zacpi_status got;
    if (!has_rsdp) return zacpi_write_tables_without_rsdp(&machine, address, to, room, length);
    got = zacpi_write_tables(&machine, address, to, room, length);
    if (!got) result(!zacpi_tables_size(&machine, &size) && size == *length, "tables_size", (int)count, room, got);
    return got;
}
static zacpi_status on_seven(uint64_t address, int has_rsdp, uint8_t *to, size_t room, size_t *length) {
    const struct zacpi_listed_table tables[] = {{LISTED(fadt_bytes)}, {LISTED(small_madt_bytes)}, {LISTED(mcfg_bytes)},
        {LISTED(hpet_bytes)}, {LISTED(slit_bytes)}, {LISTED(ssdt_bytes)}, {LISTED(srat_without_giccs)}};
    return on_machine(LISTED(tables), 1, 0, address, has_rsdp, to, room, length);
}
static zacpi_status on_two(const uint8_t *a, size_t a_length, const uint8_t *b, size_t b_length, uint8_t *to,
                           size_t room, size_t *length) {
    const struct zacpi_listed_table tables[] = {{a, a_length}, {b, b_length}};
    return on_machine(LISTED(tables), 0, 0, 0x7fe00000, 1, to, room, length);
}
#define MACHINE(verb, answer) static zacpi_status verb(uint8_t *to, size_t room, size_t *length) { return answer; }
MACHINE(a_machine, on_seven(0x7fe00000, 1, to, room, length))
MACHINE(a_tree, on_seven(0x7fe00000, 0, to, room, length))
MACHINE(an_empty_machine, on_machine(&not_listed, 0, 0, 0, 0x7fe00000, 1, to, room, length))
MACHINE(a_machine_of_a_facs, on_machine(&not_listed, 0, 0, 1, 0x7fe00000, 1, to, room, length))
MACHINE(a_machine_of_firmware, on_two(LISTED(bgrt_bytes), LISTED(spcr_bytes), to, room, length))
MACHINE(a_machine_of_an_oem, on_machine(&oem_table, 1, 0, 0, 0x7fe00000, 1, to, room, length))
/* The DSDT's AML is a table, with its header. */
static zacpi_status a_machine_of_a_whole_dsdt(uint8_t *to, size_t room, size_t *length) {
    const struct zacpi_machine machine = {*ids, {0}, NULL, 0, &whole_dsdt, 1, NULL, 0};
    return zacpi_write_tables(&machine, 0x7fe00000, to, room, length);
}
/* The second table isn't one: it has no whole header, more bytes than its Length says, fewer, or a sum of 0xff. */
#define NO_TABLE(verb, bytes, size) MACHINE(verb, on_two(LISTED(hpet_bytes), bytes, size, to, room, length))
NO_TABLE(no_byte_listed, oem_bytes, 0)
NO_TABLE(half_a_header_listed, short_bytes, 35)
NO_TABLE(more_bytes_listed, oem_bytes, 37)
NO_TABLE(fewer_bytes_listed, hpet_bytes, sizeof hpet_bytes - 1)
NO_TABLE(a_long_length_listed, long_bytes, 36)
NO_TABLE(a_bad_sum_listed, unsummed_bytes, 36)
MACHINE(no_table_at_first, on_two(unsummed_bytes, 36, LISTED(hpet_bytes), to, room, length))

/* Where a machine can lie, how long it is, and where its DSDT lies: tables' addresses end at 2^64 - 1 at most, and an
 * XSDT of 2^32 bytes and more can't be. */
static void check_places(void) {
    static const struct {
        uint64_t address, room;
        zacpi_status status;
    } places[] = {{0, 0x3c0, ZACPI_NO_ADDRESS}, {0x7fe00008, 0x3c0, ZACPI_NO_ADDRESS}, {0, 0x3bf, ZACPI_NO_ROOM},
                  {0xfffffffffffffc40, 0x3c0, ZACPI_NO_ADDRESS}, {0xfffffffffffffc30, 0x3c0, ZACPI_OK},
                  {16, 0x400, ZACPI_OK}};
    static const struct {
        uint64_t address, tables, dsdt;
        zacpi_status status;
    } dsdts[] = {{0x7fe00000, 6, 0x7fe00090, ZACPI_OK}, {0x7fe00000, 0, 0x7fe00060, ZACPI_OK}, {0, 1, 96, ZACPI_OK},
                 {0xffffffffffffff90, 2, 0, ZACPI_NO_ADDRESS}, {0xffffffffffffff8f, 2, 0xffffffffffffffff, ZACPI_OK},
                 {0, 0x1ffffffb, 0x100000030, ZACPI_OK}, {0, 0x1ffffffc, 0, ZACPI_NO_ADDRESS},
                 {0, 0x2000000000000000, 0, ZACPI_NO_ADDRESS}};
    size_t i;
    for (i = 0; i < sizeof places / sizeof *places; i++) {
        const size_t room = places[i].room;
        size_t *length = paint_size(&out_count);
        zacpi_status got = on_seven(places[i].address, 1, (uint8_t *)paint(&out, room), room, length);
        result(got == places[i].status && *length == (got ? UNCOUNTED : 0x3c0), "a place", (int)i, room, got);
    }
    for (i = 0; i < sizeof dsdts / sizeof *dsdts; i++) {
        uint64_t dsdt = UNCOUNTED;
        zacpi_status got;
        if (dsdts[i].tables > SIZE_MAX) continue; /* a size_t of 32 bits can't be it */
        got = zacpi_dsdt_address(dsdts[i].address, dsdts[i].tables, &dsdt);
        result(got == dsdts[i].status && dsdt == (got ? UNCOUNTED : dsdts[i].dsdt), "a DSDT", (int)i, 0, got);
    }
}
/* Where its FACS lies. The AML isn't read, so that its length may be any: of 10 bytes the DSDT has 46, and with 6 tables
 * it ends at 0x90 and 48, a multiple of 64; of 4 it has 40, and ends there too. */
static void check_facs_places(void) {
    static const struct {
        uint64_t address, tables, dsdts, aml, facs;
        zacpi_status status;
    } facses[] = {{0x7fe00000, 6, 1, 10, 0x7fe000c0, ZACPI_OK}, {0x7fe00000, 6, 1, 4, 0x7fe000c0, ZACPI_OK},
                  {0x7fe00000, 6, 1, 13, 0x7fe00100, ZACPI_OK}, {0x7fe00000, 6, 0, 10, 0x7fe000c0, ZACPI_OK},
                  {0x7fe00000, 4, 0, 10, 0x7fe00080, ZACPI_OK}, {0, 0, 2, 28, 0xc0, ZACPI_OK},
                  {0xffffffffffffff60, 0, 0, 0, 0xffffffffffffffc0, ZACPI_OK},
                  {0xffffffffffffff61, 0, 0, 0, 0, ZACPI_NO_ADDRESS},
                  {0xffffffffffffffa0, 0, 0, 0, 0, ZACPI_NO_ADDRESS},
                  {0, 0, 1, 0xffffffdb, 0x100000080, ZACPI_OK}, {0, 0, 1, 0xffffffdc, 0, ZACPI_NO_ADDRESS},
                  {0, 0x1ffffffb, 0, 0, 0x100000040, ZACPI_OK}, {0, 0x1ffffffc, 0, 0, 0, ZACPI_NO_ADDRESS}};
    size_t i;
    for (i = 0; i < sizeof facses / sizeof *facses; i++) {
        const struct zacpi_aml_contents dsdts_of[] = {{code, facses[i].aml, 2}, {code, 0, 2}};
        uint64_t at = UNCOUNTED;
        zacpi_status got;
        if (facses[i].tables > SIZE_MAX) continue;
        got = zacpi_facs_address(facses[i].address, facses[i].tables, dsdts_of, facses[i].dsdts, &at);
        result(got == facses[i].status && at == (got ? UNCOUNTED : facses[i].facs), "a FACS", (int)i, 0, got);
    }
}
#endif
