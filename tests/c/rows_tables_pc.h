/* The tables of a PC that rows.c runs over: PCI, fixed hardware, interrupts, event timers, the boot graphic and the
 * serial console. The forms are those of rows_tables.h. */
#ifndef ROWS_TABLES_PC_H
#define ROWS_TABLES_PC_H

/* Base Address at 0, PCI Segment Group Number at 8, Start Bus Number at 10, End Bus Number at 11. */
PUTS(mcfg,
    {44, 8, 0x140000000}, {44 + 8, 2, 1}, {44 + 10, 1, 0x10}, {44 + 11, 1, 0x1f},
    {60, 8, 0x50000000}, {60 + 8, 2, 2}, {60 + 10, 1, 5}, {60 + 11, 1, 4},
    {76, 8, 0xfffffffffff00000}, {76 + 8, 2, 3}, {76 + 10, 1, 0}, {76 + 11, 1, 1},
    {92, 8, 0xffffffffffe00000}, {92 + 8, 2, 4}, {92 + 10, 1, 0}, {92 + 11, 1, 0});
/* The second has 12 bytes of 16. */
PUTS(mcfg_half,
    {44, 8, 0x60000000}, {44 + 8, 2, 7}, {44 + 11, 1, 3}, {60, 8, 0x70000000}, {60 + 8, 2, 8}, {60 + 11, 1, 3});

PUTS(fadt,
    {36, 4, 0x7000} /* FIRMWARE_CTRL */, {40, 4, 0x8000} /* DSDT */, {45, 1, 4} /* Preferred_PM_Profile */,
    {46, 2, 9} /* SCI_INT */, {48, 4, 0xb2} /* SMI_CMD */, {52, 1, 0xa1} /* ACPI_ENABLE */,
    {53, 1, 0xa0} /* ACPI_DISABLE */,
    {54, 1, 0xf2} /* S4BIOS_REQ */, {55, 1, 0x80} /* PSTATE_CNT */, {56, 4, 0x600} /* PM1a_EVT_BLK */,
    {60, 4, 0x680} /* PM1b_EVT_BLK */, {64, 4, 0x604} /* PM1a_CNT_BLK */, {72, 4, 0x650} /* PM2_CNT_BLK */,
    {76, 4, 0x608} /* PM_TMR_BLK */, {80, 4, 0x620} /* GPE0_BLK */, {84, 4, 0x640} /* GPE1_BLK */,
    {88, 1, 4} /* PM1_EVT_LEN */, {89, 1, 2} /* PM1_CNT_LEN */, {90, 1, 1} /* PM2_CNT_LEN */,
    {91, 1, 4} /* PM_TMR_LEN */,
    {92, 1, 16} /* GPE0_BLK_LEN */, {93, 1, 32} /* GPE1_BLK_LEN */, {94, 1, 0x40} /* GPE1_BASE */,
    {95, 1, 0xe3} /* CST_CNT */,
    {96, 2, 101} /* P_LVL2_LAT */, {98, 2, 1001} /* P_LVL3_LAT */, {100, 2, 1024} /* FLUSH_SIZE */,
    {102, 2, 16} /* FLUSH_STRIDE */, {104, 1, 1} /* DUTY_OFFSET */, {105, 1, 3} /* DUTY_WIDTH */,
    {106, 1, 13} /* DAY_ALRM */,
    {107, 1, 14} /* MON_ALRM */, {108, 1, 50} /* CENTURY */, {109, 2, 0x13} /* IAPC_BOOT_ARCH */,
    {112, 4, 0x4a5} /* Flags */,
    GENERIC(116, 1, 8, 0, 1, 0xcf9) /* RESET_REG */, {128, 1, 6} /* RESET_VALUE */, {129, 2, 3} /* ARM_BOOT_ARCH */,
    {131, 1, 0x14} /* FADT Minor Version */, {268, 8, 0x564b4d564b4d564b} /* Hypervisor Vendor Identity: KVMKVMKV */,
    {132, 8, 0x123456000} /* X_FIRMWARE_CTRL; X_DSDT is 0 */,
    GENERIC(148, 0, 32, 0, 3, 0x200000600) /* X_PM1a_EVT_BLK */,
    GENERIC(172, 1, 16, 0, 5, 0x604) /* X_PM1a_CNT_BLK: Access Size 5 is reserved */,
    GENERIC(244, 1, 8, 2, 1, 0x405) /* SLEEP_CONTROL_REG; SLEEP_STATUS_REG is zeros */);
PUTS(fadt_1, {36, 4, 0x400000} /* FIRMWARE_CTRL */, {40, 4, 0x300000} /* DSDT */);
/* Each extended field at an address of its own, above 4 GiB, and a port in the field that it stands for. */
PUTS(fadt_wide,
    {36, 4, 0x7000} /* FIRMWARE_CTRL */, {40, 4, 0x8000} /* DSDT */, {56, 4, 0x600} /* PM1a_EVT_BLK */,
    {60, 4, 0x610} /* PM1b_EVT_BLK */, {64, 4, 0x620} /* PM1a_CNT_BLK */, {68, 4, 0x630} /* PM1b_CNT_BLK */,
    {72, 4, 0x640} /* PM2_CNT_BLK */, {76, 4, 0x650} /* PM_TMR_BLK */, {80, 4, 0x660} /* GPE0_BLK */,
    {84, 4, 0x670} /* GPE1_BLK */, {88, 1, 4} /* PM1_EVT_LEN */, {89, 1, 2} /* PM1_CNT_LEN */,
    {90, 1, 1} /* PM2_CNT_LEN */, {91, 1, 4} /* PM_TMR_LEN */, {92, 1, 8} /* GPE0_BLK_LEN */,
    {93, 1, 16} /* GPE1_BLK_LEN */, {112, 4, 0x100} /* Flags: TMR_VAL_EXT */,
    GENERIC(116, 2, 22, 10, 1, 0x50000d000) /* RESET_REG */,
    {132, 8, 0x500001000} /* X_FIRMWARE_CTRL */, {140, 8, 0x500002000} /* X_DSDT */,
    GENERIC(148, 0, 32, 0, 3, 0x500003000) /* X_PM1a_EVT_BLK */,
    GENERIC(160, 0, 31, 1, 2, 0x500004000) /* X_PM1b_EVT_BLK */,
    GENERIC(172, 0, 30, 2, 1, 0x500005000) /* X_PM1a_CNT_BLK */,
    GENERIC(184, 0, 29, 3, 4, 0x500006000) /* X_PM1b_CNT_BLK */,
    GENERIC(196, 0, 28, 4, 3, 0x500007000) /* X_PM2_CNT_BLK */,
    GENERIC(208, 0, 27, 5, 3, 0x500008000) /* X_PM_TMR_BLK */,
    GENERIC(220, 0, 26, 6, 1, 0x500000000) /* X_GPE0_BLK */, GENERIC(232, 0, 25, 7, 2, 0x50000a000) /* X_GPE1_BLK */,
    GENERIC(244, 0, 24, 8, 3, 0x50000b000) /* SLEEP_CONTROL_REG */,
    GENERIC(256, 0, 23, 9, 4, 0x50000c000) /* SLEEP_STATUS_REG */);
/* Revision 1, in which the extended fields don't count; blocks of 32, 31, 33 and 0 ports. */
PUTS(fadt_old,
    {56, 4, 0x600} /* PM1a_EVT_BLK */, {60, 4, 0x610} /* PM1b_EVT_BLK */, {64, 4, 0x620} /* PM1a_CNT_BLK */,
    {72, 4, 0x640} /* PM2_CNT_BLK; PM_TMR_BLK is 0 */, {80, 4, 0x660} /* GPE0_BLK */, {84, 4, 0x670} /* GPE1_BLK */,
    {88, 1, 32} /* PM1_EVT_LEN */, {89, 1, 31} /* PM1_CNT_LEN */, {90, 1, 32} /* PM2_CNT_LEN */,
    {91, 1, 4} /* PM_TMR_LEN */, {92, 1, 0} /* GPE0_BLK_LEN */, {93, 1, 33} /* GPE1_BLK_LEN */,
    {112, 4, 0x100} /* Flags: TMR_VAL_EXT */, GENERIC(116, 1, 8, 0, 1, 0xcf9) /* RESET_REG */,
    {128, 1, 6} /* RESET_VALUE */, {129, 2, 0x203} /* ARM_BOOT_ARCH */,
    {131, 1, 0x21} /* FADT Minor Version */, {268, 8, ONES} /* Hypervisor Vendor Identity */,
    {132, 8, 0x500001000} /* X_FIRMWARE_CTRL */, {140, 8, 0x500002000} /* X_DSDT */,
    GENERIC(148, 0, 32, 0, 3, 0x500003000) /* X_PM1a_EVT_BLK */,
    GENERIC(208, 0, 32, 0, 3, 0x500008000) /* X_PM_TMR_BLK */, GENERIC(220, 0, 26, 6, 1, 0x500000000) /* X_GPE0_BLK */,
    GENERIC(244, 0, 24, 8, 3, 0x50000b000) /* SLEEP_CONTROL_REG */,
    GENERIC(256, 0, 23, 9, 4, 0x50000c000) /* SLEEP_STATUS_REG */);
PUTS(fadt_half, {129, 2, 0x203} /* ARM_BOOT_ARCH: one byte of two */);
PUTS(fadt_half_x,
    {36, 4, AT(FACS_SHORT)} /* FIRMWARE_CTRL */, {132, 8, AT(FACS)} /* X_FIRMWARE_CTRL */,
    {80, 4, 0x660} /* GPE0_BLK */, {84, 4, 0x670} /* GPE1_BLK */, {92, 1, 8} /* GPE0_BLK_LEN */,
    {93, 1, 16} /* GPE1_BLK_LEN */, GENERIC(220, 0, 26, 6, 1, 0x500000000) /* X_GPE0_BLK */,
    GENERIC(232, 0, 25, 7, 2, 0x50000a000) /* X_GPE1_BLK: six bytes of twelve */);
/* Revision 5, which has no Hypervisor Vendor Identity. */
PUTS(fadt_timer_5,
    {91, 1, 4} /* PM_TMR_LEN */, {131, 1, 1} /* FADT Minor Version */, {268, 8, ONES} /* reserved */,
    GENERIC(208, 0, 32, 0, 5, 0x5000) /* X_PM_TMR_BLK: Access Size 5 is reserved */);

/* Preferred_PM_Profile, at 45, of which 9 is reserved; FIRMWARE_CTRL at 36 and DSDT at 40. */
PUTS(fadt_desktop, {45, 1, 1});
PUTS(fadt_mobile, {45, 1, 2});
PUTS(fadt_workstation, {45, 1, 3});
PUTS(fadt_server, {45, 1, 4});
PUTS(fadt_soho, {45, 1, 5}, {36, 4, CUT(0)}, {40, 4, CUT(1)});
PUTS(fadt_appliance, {45, 1, 6}, {36, 4, AT(FACS)}, {40, 4, AT(DSDT)});
PUTS(fadt_performance, {45, 1, 7}, {36, 4, AT(FACS_SHORT)}, {40, 4, AT(DSDT_OTHER)});
PUTS(fadt_tablet, {45, 1, 8});
PUTS(fadt_reserved, {45, 1, 9}, {36, 4, AT(DSDT)});

/* The bytes of a FACS (section 5.2.10). */
PUTS(facs_64,
    {8, 4, 0x11223344} /* Hardware Signature */, {12, 4, 0x55667788} /* Firmware_Waking_Vector */,
    {16, 4, 0x99aabbcc} /* Global Lock */, {20, 4, 0x8d7c6b03} /* Flags */,
    {24, 8, 0x123456789abcdef} /* X_Firmware_Waking_Vector */, {32, 1, 2} /* Version */, {36, 4, 0xddeeff00} /* OSPM Flags */);

/* A processor, two mailboxes, and a byte in which no entry begins. */
PUTS(madt_mailbox,
    {44, 2, HEADER(0, 8)}, {52, 2, HEADER(0x10, 16)}, {52 + 2, 2, 1} /* MailBoxVersion */,
    {52 + 8, 8, 0x1827364554637000} /* MailBoxAddress */, {68, 2, HEADER(0x10, 16)}, {68 + 8, 8, 0x27b000000});
PUTS(madt_pc,
    {44, 2, HEADER(0, 8)}, {44 + 2, 1, 1} /* ACPI Processor UID */, {44 + 3, 1, 33} /* APIC ID */,
    {44 + 4, 4, 1} /* Flags */,
    {52, 2, HEADER(1, 12)}, {52 + 2, 1, 2} /* I/O APIC ID */, {52 + 4, 4, 0xfec00000} /* I/O APIC Address */,
    {64, 2, HEADER(1, 12)}, {64 + 2, 1, 3} /* I/O APIC ID */, {64 + 4, 4, 0xfec01000} /* I/O APIC Address */,
    {64 + 8, 4, 24} /* Global System Interrupt Base */,
    {76, 2, HEADER(2, 10)}, {76 + 3, 1, 9} /* Source */, {76 + 4, 4, 20} /* Global System Interrupt */,
    {76 + 8, 2, 5} /* Flags: active high, edge */,
    {86, 2, HEADER(2, 10)}, {86 + 3, 1, 0} /* Source */,
    {86 + 4, 4, 2} /* Global System Interrupt; Flags: as the bus */);
/* Five processors, of which the first is disabled, four NMI lines, three NMI sources, two overrides, an I/O APIC, two
 * addresses of the local APICs, and an entry of a reserved type. */
PUTS(madt_many,
    {36, 4, 0xfee00000} /* Local Interrupt Controller Address */, {40, 4, 1} /* Flags: PCAT_COMPAT */,
    {44, 2, HEADER(0, 8)}, {44 + 2, 1, 0x21} /* ACPI Processor UID */, {44 + 3, 1, 0x42} /* APIC ID; not Enabled */,
    {52, 2, HEADER(0, 8)}, {52 + 2, 1, 0x22} /* ACPI Processor UID */, {52 + 3, 1, 0x44} /* APIC ID */,
    {52 + 4, 4, 1} /* Flags: Enabled */,
    {60, 2, HEADER(9, 16)}, {60 + 4, 4, 0x12345} /* X2APIC ID */, {60 + 8, 4, 1} /* Flags: Enabled */,
    {60 + 12, 4, 0x567} /* ACPI Processor UID */,
    {76, 2, HEADER(9, 16)}, {76 + 4, 4, 0x12346} /* X2APIC ID */, {76 + 8, 4, 2} /* Flags: Online Capable */,
    {76 + 12, 4, 0x568} /* ACPI Processor UID */,
    {92, 2, HEADER(0, 8)}, {92 + 2, 1, 0x23} /* ACPI Processor UID */, {92 + 3, 1, 0x46} /* APIC ID */,
    {92 + 4, 4, 3} /* Flags: Enabled, Online Capable */,
    {100, 2, HEADER(1, 12)}, {100 + 2, 1, 9} /* I/O APIC ID */, {100 + 4, 4, 0xfec02000} /* I/O APIC Address */,
    {100 + 8, 4, 48} /* Global System Interrupt Base */,
    {112, 2, HEADER(2, 10)}, {112 + 3, 1, 5} /* Source */, {112 + 4, 4, 37} /* Global System Interrupt */,
    {112 + 8, 2, 0xf} /* Flags: active low, level */,
    {122, 2, HEADER(2, 10)}, {122 + 3, 1, 12} /* Source */, {122 + 4, 4, 38} /* Global System Interrupt */,
    {122 + 8, 2, 1} /* Flags: active high, trigger as the bus */,
    {132, 2, HEADER(3, 8)}, {132 + 2, 2, 5} /* Flags: active high, edge */,
    {132 + 4, 4, 50} /* Global System Interrupt */,
    {140, 2, HEADER(3, 8)}, {140 + 2, 2, 0xf} /* Flags: active low, level */,
    {140 + 4, 4, 51} /* Global System Interrupt */,
    {148, 2, HEADER(3, 8)}, {148 + 2, 2, 0xc} /* Flags: polarity as the bus, level */,
    {148 + 4, 4, 52} /* Global System Interrupt */,
    {156, 2, HEADER(4, 6)}, {156 + 2, 1, 0xff} /* ACPI Processor UID: all */, {156 + 5, 1, 1} /* Local APIC LINT# */,
    {162, 2, HEADER(4, 6)}, {162 + 2, 1, 0x22} /* ACPI Processor UID */, {162 + 5, 1, 0} /* Local APIC LINT# */,
    {168, 2, HEADER(0xa, 12)}, {168 + 4, 4, 0xffffffff} /* ACPI Processor UID: all */,
    {168 + 8, 1, 0} /* Local x2APIC LINT# */,
    {180, 2, HEADER(0xa, 12)}, {180 + 4, 4, 0x567} /* ACPI Processor UID */, {180 + 8, 1, 1} /* Local x2APIC LINT# */,
    {192, 2, HEADER(5, 12)}, {192 + 4, 8, 0x1fee01000} /* Local APIC Address */,
    {204, 2, HEADER(5, 12)}, {204 + 4, 8, 0x1fee02000} /* Local APIC Address */, {216, 2, HEADER(0x7f, 5)});
/* A Local SAPIC, which is at fault; an address; a reserved Type; an address in an entry of two bytes more; one in an
 * entry of 11 bytes, where none begins; and one that nobody reaches. */
PUTS(madt_overrides,
    {36, 4, 0xfed40000} /* Local Interrupt Controller Address */, {40, 4, 1} /* Flags: PCAT_COMPAT */,
    {44, 2, HEADER(7, 16)}, {60, 2, HEADER(5, 12)}, {60 + 4, 8, 0xfee00000} /* Local APIC Address */,
    {72, 2, HEADER(0x80, 4)}, {76, 2, HEADER(5, 14)}, {76 + 4, 8, 0x2fee00000} /* Local APIC Address */,
    {90, 2, HEADER(5, 11)}, {90 + 4, 7, 0x3fee00000}, {101, 2, HEADER(5, 12)}, {101 + 4, 8, 0x4fee00000});
/* The first processor is enabled, and there are no 8259s, though all other bits of Flags are set. Online Capable is
 * reserved in revision 4. */
PUTS(madt_first,
    {36, 4, 0xfee03000} /* Local Interrupt Controller Address */, {40, 4, 0xfffffffe} /* Flags */,
    {44, 2, HEADER(9, 16)}, {44 + 4, 4, 7} /* X2APIC ID */, {44 + 8, 4, 3} /* Flags: Enabled, reserved */,
    {44 + 12, 4, 8} /* ACPI Processor UID */,
    {60, 2, HEADER(0, 8)}, {60 + 2, 1, 6} /* ACPI Processor UID */, {60 + 3, 1, 5} /* APIC ID */,
    {60 + 4, 4, 2} /* Flags: not Enabled, reserved */);
/* An entry of the first reserved type and one of waking, of the last that isn't: no APICs. */
PUTS(madt_unknown,
    {36, 4, 0xfee04000} /* Local Interrupt Controller Address */, {40, 4, 1} /* Flags: PCAT_COMPAT */,
    {44, 2, HEADER(0x11, 4)}, {48, 2, HEADER(0x10, 16)});
PUTS(madt_sapic, {44, 2, HEADER(6, 16)});
/* Two processors, and between them a Local SAPIC, which is at fault. */
PUTS(madt_sapic_between,
    {44, 2, HEADER(0, 8)}, {44 + 2, 1, 1} /* ACPI Processor UID */, {44 + 3, 1, 10} /* APIC ID */,
    {44 + 4, 4, 1} /* Flags: Enabled */, {52, 2, HEADER(7, 16)},
    {68, 2, HEADER(0, 8)}, {68 + 2, 1, 2} /* ACPI Processor UID */, {68 + 3, 1, 11} /* APIC ID */,
    {68 + 4, 4, 2} /* Flags: Online Capable */);
/* An NMI source whose polarity is reserved, before an override. */
PUTS(madt_nmi_2,
    {44, 2, HEADER(0, 8)}, {44 + 2, 1, 1} /* ACPI Processor UID */, {44 + 3, 1, 10} /* APIC ID */,
    {44 + 4, 4, 1} /* Flags: Enabled */, {52, 2, HEADER(3, 8)}, {52 + 2, 2, 0xe} /* Flags: polarity 2, level */,
    {52 + 4, 4, 30} /* Global System Interrupt */, {60, 2, HEADER(2, 10)}, {60 + 3, 1, 4} /* Source */,
    {60 + 4, 4, 20} /* Global System Interrupt */, {60 + 8, 2, 0xd} /* Flags: active high, level */);
/* After the second processor stands a Length of 0, and then an I/O APIC that nobody reaches. */
PUTS(madt_length_0,
    {44, 2, HEADER(0, 8)}, {44 + 2, 1, 1} /* ACPI Processor UID */, {44 + 3, 1, 10} /* APIC ID */,
    {44 + 4, 4, 1} /* Flags: Enabled */, {52, 2, HEADER(0, 8)}, {52 + 2, 1, 2} /* ACPI Processor UID */,
    {52 + 3, 1, 11} /* APIC ID; not Enabled */, {60, 2, HEADER(1, 0)}, {60 + 2, 2, HEADER(1, 10)});
/* Overrides of one source, of which the middle one is of ISA. */
PUTS(madt_bus_1,
    {44, 2, HEADER(0, 8)}, {44 + 2, 1, 1} /* ACPI Processor UID */, {44 + 3, 1, 10} /* APIC ID */,
    {44 + 4, 4, 1} /* Flags: Enabled */,
    {52, 2, HEADER(2, 10)}, {52 + 2, 1, 1} /* Bus */, {52 + 3, 1, 4} /* Source */,
    {52 + 4, 4, 21} /* Global System Interrupt */,
    {62, 2, HEADER(2, 10)}, {62 + 3, 1, 4} /* Source */, {62 + 4, 4, 20} /* Global System Interrupt */,
    {62 + 8, 2, 0xd} /* Flags: active high, level */,
    {72, 2, HEADER(2, 10)}, {72 + 2, 1, 2} /* Bus */, {72 + 3, 1, 4} /* Source */,
    {72 + 4, 4, 22} /* Global System Interrupt */);
/* An I/O APIC, overrides with reserved codes of source 4 and of source 9, which is SCI_INT, and a Type that nothing
 * defines. */
PUTS(madt_trigger_2,
    {44, 2, HEADER(1, 12)}, {44 + 2, 1, 2} /* I/O APIC ID */, {44 + 4, 4, 0xfec00000} /* I/O APIC Address */,
    {56, 2, HEADER(2, 10)}, {56 + 3, 1, 4} /* Source */, {56 + 4, 4, 20} /* Global System Interrupt */,
    {56 + 8, 2, 8} /* Flags: polarity as the bus, trigger 2 */,
    {66, 2, HEADER(2, 10)}, {66 + 3, 1, 9} /* Source */, {66 + 4, 4, 7} /* Global System Interrupt */,
    {66 + 8, 2, 0xa} /* Flags: polarity 2, trigger 2 */,
    {76, 2, HEADER(0x80, 8)});
/* A processor that isn't enabled yet, and two LINT pins, of which the first isn't one. */
PUTS(madt_lint_2,
    {44, 2, HEADER(9, 16)}, {44 + 4, 4, 5} /* X2APIC ID */, {44 + 8, 4, 2} /* Flags: Online Capable */,
    {44 + 12, 4, 9} /* ACPI Processor UID */,
    {60, 2, HEADER(4, 6)}, {60 + 2, 1, 0xff} /* ACPI Processor UID: all */,
    {60 + 3, 2, 5} /* Flags: active high, edge */, {60 + 5, 1, 2} /* Local APIC LINT# */,
    {66, 2, HEADER(0xa, 12)}, {66 + 2, 2, 0xb} /* Flags: active low, trigger 2 */,
    {66 + 4, 4, 0xff} /* ACPI Processor UID */, {66 + 8, 1, 1} /* Local x2APIC LINT# */);

/* Event Timer Block ID at 36, BASE_ADDRESS at 40, HPET Number at 52, Main Counter Minimum Clock_tick at 53, Page
 * Protection in the low four bits at 55, of which 3 to 15 are reserved. HPET_SHORT ends before BASE_ADDRESS does. */
PUTS(hpet,
    {10, 6, 0x464544434241} /* OEMID: ABCDEF */, {16, 8, 0x4e4d4c4b4a494847} /* OEM Table ID: GHIJKLMN */,
    {24, 4, 0x12345678} /* OEM Revision */, {28, 4, 0x5251504f} /* Creator ID: OPQR */,
    {32, 4, 0x9abcdef0} /* Creator Revision */,
    {36, 4, 0x8086a201}, GENERIC(40, 0, 64, 0, 0, 0x1fed00000), {52, 1, 1}, {53, 2, 0x80}, {55, 1, 2});
PUTS(hpet_0, {36, 4, 0x10de8201}, GENERIC(40, 0, 64, 0, 0, 0xfed00000), {52, 1, 2}, {53, 2, 0x90f3}, {55, 1, 0x30});
PUTS(hpet_1, {36, 4, 0x10de8202}, GENERIC(40, 0, 64, 0, 0, 0xfed10000), {52, 1, 3}, {53, 2, 0x1234}, {55, 1, 0xf1});
PUTS(hpet_3, {36, 4, 0x10de8203}, GENERIC(40, 0, 64, 0, 0, 0xfed20000), {52, 1, 4}, {53, 2, 0x5678}, {55, 1, 3});
PUTS(hpet_11, {36, 4, 0x10de8204}, GENERIC(40, 0, 64, 0, 0, 0xfed30000), {52, 1, 5}, {53, 2, 0x9abc}, {55, 1, 0x2b});
PUTS(hpet_port, GENERIC(40, 1, 64, 0, 0, 0x2f8)); /* not in memory */

/* Version at 36, Status at 38 (Displayed, bit 0; Orientation Offset, bits 1 and 2), Image Type at 39, Image Address at
 * 40, Image Offset X at 48 and Y at 52. */
PUTS(bgrt_90, {36, 2, 1}, {38, 1, 3}, {39, 1, 0}, {40, 8, 0x2abcdef00}, {48, 4, 800}, {52, 4, 600});
PUTS(bgrt_270, {36, 2, 1}, {38, 1, 6}, {39, 1, 7}, {40, 8, 0x7f000000}, {48, 4, 1}, {52, 4, 70000});
PUTS(bgrt_180, {36, 2, 1}, {38, 1, 0xfd}, {39, 1, 1}, {40, 8, ONES}, {48, 4, 0xffffffff}, {52, 4, 0});

/* SPCRs. UART Clock Frequency counts from revision 3 on. */
PUTS(spcr_3,
    {36, 1, 0x12} /* Interface Type */, GENERIC(40, 0, 32, 4, 3, 0x3fe002000) /* Base Address */,
    {52, 1, 3} /* Interrupt Type: 8259 and I/O APIC */, {53, 1, 11} /* IRQ */,
    {54, 4, 0x12345} /* Global System Interrupt */,
    {58, 1, 7} /* Configured Baud Rate */, {59, 1, 5} /* Parity */, {60, 1, 6} /* Stop Bits */,
    {61, 1, 2} /* Flow Control */,
    {62, 1, 3} /* Terminal Type */, {63, 1, 8} /* Language */, {64, 2, 0x1a2b} /* PCI Device ID */,
    {66, 2, 0x3c4d} /* PCI Vendor ID */, {68, 1, 0x21} /* PCI Bus Number */, {69, 1, 0x1e} /* PCI Device Number */,
    {70, 1, 4} /* PCI Function Number */, {71, 4, 0x0a0b0c0d} /* PCI Flags */, {75, 1, 0x31} /* PCI Segment */,
    {76, 4, 48000000} /* UART Clock Frequency */, {80, 4, 230400} /* Precise Baud Rate */);
PUTS(spcr_2,
    {36, 1, 1} /* Interface Type */, GENERIC(40, 0xb, 8, 0, 1, 0x3f8) /* Base Address: space 0x0b is reserved */,
    {52, 1, 0x10} /* Interrupt Type: RISC-V PLIC */, {53, 1, 4} /* IRQ */, {54, 4, 0x21} /* Global System Interrupt */,
    {58, 1, 3} /* Configured Baud Rate */, {60, 1, 1} /* Stop Bits */, {64, 2, 0xffff} /* PCI Device ID: none */,
    {66, 2, 0xffff} /* PCI Vendor ID: none */, {71, 4, 1} /* PCI Flags */,
    {76, 4, 1843200} /* reserved in revision 2 */);
PUTS(spcr_4,
    {36, 1, 0x15} /* Interface Type; Base Address is zeros */,
    {52, 1, 0x21} /* Interrupt Type: 8259, and a reserved bit */,
    {53, 1, 5} /* IRQ */, {54, 4, 0x22} /* Global System Interrupt */, {58, 1, 5} /* Configured Baud Rate: reserved */,
    {66, 2, 0xffff} /* PCI Vendor ID; PCI Device ID is 0 */);
PUTS(spcr_half,
    {58, 1, 7} /* Configured Baud Rate */, {76, 4, 48000000} /* UART Clock Frequency */,
    {80, 4, 230400} /* Precise Baud Rate, 0x38400: two bytes of four */);
#endif
