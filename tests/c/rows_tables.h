/* The memory that rows.c runs over: tables laid out by hand, a field at a time. An offset stands beside the name that
 * the document has for its field: for most tables ACPI 6.4, for the MCFG the PCI Firmware Specification, for the HPET
 * the IA-PC HPET Specification. In a MADT, GTDT or SRAT it is the offset of the entry and that in the entry. */
#ifndef ROWS_TABLES_H
#define ROWS_TABLES_H
#include "zacpi.h"

#define BASE 0x100000u
#define SIZE 0x30000u
#define AT(n) (BASE + 0x200u * (n))       /* where table N lies */
#define TAIL (BASE + SIZE - 36u)          /* the last 36 bytes: a header whose table isn't lent as a whole */
#define CUT(n) (0x180000u + 0x1000u * (n)) /* three regions with the first bytes of a table each */
#define CUT_SIZE 40u
#define LAST_MADT CUT(3) /* two regions that end with their table */
#define LAST_MADT_SIZE 53u
#define LAST_IVRS CUT(4)
#define PART_HPET CUT(5) /* two more regions of the first bytes */
#define PART_MADT CUT(6)
#define LAST_IVRS_SIZE 80u
#define BIOS 0xe0000u /* the first area in which an RSDP is searched for, and the 16 bytes after it */
#define BIOS_SIZE 0x20010u
#define LONG_BIOS 0x40000000u /* where another first area is kept, which has RSDPs that are too long */
#define EBDA 0x90000u /* the second, by the word at 0x40e, and the 16 bytes after it */
#define EBDA_SIZE 0x410u
#define HIGH_EBDA 0x9fc10u /* another, which ends at 640 KiB */
#define HIGH_EBDA_SIZE 0x3f0u
#define ONES UINT64_MAX
#define HEADER(type, length) ((type) | (length) << 8) /* Type and Length of an entry, one byte each */

struct put {
    unsigned at, width; /* width 0: the end */
    uint64_t value;
};
#define PUTS(name, ...) static const struct put name[] = {__VA_ARGS__, {0, 0, 0}}
/* A generic address: Address Space ID at 0, Register Bit Width at 1, Register Bit Offset at 2, Access Size at 3,
 * Address at 4 (section 5.2.3.2). */
#define GENERIC(at, space, width, offset, access, address) \
    {at, 1, space}, {at + 1, 1, width}, {at + 2, 1, offset}, {at + 3, 1, access}, {at + 4, 8, address}

enum { EMPTY, ARM, PC, ODD, HOLES, SUM, DESKTOP, MOBILE, WORKSTATION, SERVER, SOHO, APPLIANCE, PERFORMANCE, TABLET,
       RESERVED, WIDE, TIMER_5, LEAST, OLD, HALF, HALF_X, UNITS, UNITS_10, UNITS_CUT,
       UNITS_END, SAPIC_BETWEEN, NMI_2, LENGTH_0, NO_FADT, BUS_1, TRIGGER_2, LINT_2, HPETS, MAILBOX, POWER,
       REDUCED, PLAIN, BARE, BROKEN, FADTLESS, HIGH, HIGH_PLAIN, HIGH_REDUCED, WIDE_PLAIN, WIDE_REDUCED, FAULTS, FRONTS,
       UNITS_BETWEEN, UNITS_FAULTS, UNITS_LATER, RISCV, RISCV_CUT, RISCV_SHORT, EARLY, LATE, PAST, ONE_LEFT, UNITS_4,
       FLAWED,
       LED_BY_SUMS, LED_BY_IDS, ROOT_OEM_ID, ROOT_LONG, OVERRIDES, MEMBERS,
       ALL_KINDS, EVERY, APICS, ENDS_0, ENDS_5, ENDS_LATER_0, ENDS_LATER_5, NO_GICD_5, NO_GICD_LATER_0, NO_GICD_LATER_5,
       ENDS_OTHER, GICCS, PART, PART_X, LOW, POWER_X, UNITS_9, UNITS_1, SRAT_9, PARTLY, HPET_IDS_ONLY,
       SCI_20, SCI_AS_BUS, SLIT_OF_11, SLIT_OF_10, SLIT_OF_MANY, NO_GICD_0, NO_GICD_OTHER, NMI_TRIGGER, X2_LINT_2,
       OVERRIDE_POLARITY, OVERRIDE_TRIGGER, UNITS_LONG, TIMERS_3,
       GICC_78, FLAWED_PC, TEXT_IDS, LOST, PINS, OTHER_BUS, LEFT_1, LEFT_2, LEFT_2_OF_2, TIMER_OF_2, TIMER_TYPES,
       NO_TIMER, LOW_FACS, X_DSDT, RESET_128, RESET_116, CONTROL_0, CONSOLE_85, CONSOLE_87, NOT_ENABLED, UNSCOPED_UNITS,
       ONE_BYTE_MORE, WIDE_CONTROL, HPET_ID_80, HOPS, SUM_FIRST, LEFT_45, LEFT_47, LEFT_53, SOURCE_16, SCI_TRIGGER,
       HIGH_BUS, NO_BLOCKS,
       ROOT_TABLE_ID, ROOT_35, ROOT_X_TABLE_ID, /* root tables, in the order of `tables` */
       RSDP_0, RSDP_2, RSDP_40, RSDP_MIXED, RSDP_LONG, RSDP_LOST, RSDP_CUT, RSDP_SHORT, RSDP_TO_SUM, RSDP_OEM_ID,
       RSDP_NONE, /* RSDPs, and the last one is none */
       MADT_GIC, GTDT, SRAT, SLIT, MCFG, FADT, MADT_PC, HPET_SHORT, HPET, MADT_CUT, GTDT_CUT, SRAT_CUT, SLIT_ODD,
       FADT_1, SRAT_HIGH, FADT_DESKTOP, FADT_MOBILE, FADT_WORKSTATION, FADT_SERVER, FADT_SOHO, FADT_APPLIANCE,
       FADT_PERFORMANCE, FADT_TABLET, FADT_RESERVED, FADT_WIDE, FADT_TIMER_5, MADT_MANY, MADT_FIRST, MADT_UNKNOWN,
       MADT_SAPIC, SPCR_3, SPCR_2, SPCR_4, BGRT_90, BGRT_270, BGRT_180, HPET_0, HPET_1, HPET_3, HPET_11, HPET_PORT,
       DSDT, DSDT_OTHER, SSDT_12, SSDT_0, FACS, FACS_SHORT, FADT_115, FADT_116, MADT_43, MADT_44, MCFG_43, MCFG_44,
       HPET_55, HPET_56, BGRT_55, BGRT_56, SPCR_79, SPCR_80, GTDT_95, GTDT_96, SRAT_47, SRAT_48, SLIT_43, SLIT_44,
       OEM2_35, OEM2_36, FADT_OLD, MADT_OLD, GTDT_OLD, SRAT_OLD, OEM_BYTE, FADT_HALF, SPCR_HALF, GTDT_HALF, MADT_HALF,
       MCFG_HALF, FADT_HALF_X, DMAR, DMAR_CUT, DMAR_END, DMAR_47, DMAR_48, IVRS, IVRS_10, IVRS_CUT, IVRS_END, IVRS_47,
       IVRS_48, MADT_SAPIC_BETWEEN, MADT_NMI_2, MADT_LENGTH_0, MADT_BUS_1, MADT_TRIGGER_2, MADT_LINT_2, MADT_MAILBOX,
       FADT_POWER, FADT_REDUCED, FADT_PLAIN, FADT_BARE, FADT_BROKEN, FADT_HIGH, DSDT_POWER, DSDT_S5, DSDT_HIGH,
       SSDT_S5, SSDT_HIGH, SSDT_WIDE, MADT_NO_GICD,
       MADT_FRONT, GTDT_FAULTS, GTDT_FRONT, SRAT_FAULTS, SRAT_FRONT, DMAR_BETWEEN, DMAR_FAULTS, DMAR_LATER,
       IVRS_BETWEEN, IVRS_FAULTS, MADT_RISCV, MADT_RISCV_CUT, MADT_RISCV_SHORT,
       GTDT_EARLY, GTDT_LATE, GTDT_PAST, MADT_BOTH, MADT_OEM_ID, MADT_TABLE_ID, MADT_SUM,
       MADT_VALID, MADT_LOST, FADT_SUM, FADT_OEM_ID, DSDT_SUM, DSDT_TABLE_ID, SSDT_SUM, HPET_SUM, MADT_OVERRIDES,
       SRAT_ALL, DMAR_ALL, MADT_EVERY, MADT_APICS, MADT_ENDS_0, MADT_ENDS_5, MADT_ENDS_LATER_0, MADT_ENDS_LATER_5,
       MADT_NO_GICD_5, MADT_NO_GICD_LATER_0, MADT_NO_GICD_LATER_5, MADT_ENDS_OTHER, MADT_GICCS, DMAR_9, DMAR_1, IVRS_9,
       IVRS_1, SRAT_OTHERS, HPET_OEM_ID, HPET_BOTH,
       FADT_SCI_20, MADT_AS_BUS, SLIT_11, SLIT_10, SLIT_MANY, MADT_NO_GICD_0, MADT_NO_GICD_OTHER, MADT_NMI_TRIGGER,
       MADT_X2_LINT_2, MADT_OVERRIDE_POLARITY, MADT_OVERRIDE_TRIGGER, IVRS_LONG, GTDT_3,
       MADT_GICC_78, MADT_TEXT, HPET_TEXT, MADT_LONG, HPET_LONG, MADT_PINS, GTDT_LEFT_1, GTDT_LEFT_2, GTDT_LEFT_2_OF_2,
       GTDT_OF_2, GTDT_TYPES, GTDT_NONE, FADT_LOW_FACS, FADT_X_DSDT, FADT_128, FADT_RESET_116, FADT_CONTROL_0, SPCR_85,
       SPCR_87, SRAT_NOT_ENABLED, DMAR_UNSCOPED, DMAR_17, IVRS_ENDS, IVRS_OTHERS, FADT_CONTROL_32,
       HPET_80, DMAR_HOPS, IVRS_LATER, MADT_45, MADT_47, MADT_53, MADT_SOURCE_16, MADT_SCI_TRIGGER, MCFG_HIGH,
       SLIT_ONES, FADT_B_32, FADT_NO_BLOCKS };

/* Entry[n] of an RSDT, from 36 on (section 5.2.7), and of an XSDT (section 5.2.8). */
PUTS(no_fields, {36, 0, 0});
PUTS(arm, {36, 4, AT(MADT_GIC)}, {40, 4, AT(GTDT)}, {44, 4, AT(SRAT)}, {48, 4, AT(SLIT)}, {52, 4, AT(MCFG)});
PUTS(pc, {36, 8, AT(FADT)}, {44, 8, AT(MADT_PC)}, {52, 8, AT(HPET_SHORT)}, {60, 8, AT(HPET)});
PUTS(odd, {36, 4, AT(MADT_CUT)}, {40, 4, AT(GTDT_CUT)}, {44, 4, AT(SRAT_CUT)}, {48, 4, AT(SLIT_ODD)});
PUTS(holes, {36, 4, 0x200000}, {40, 4, TAIL}, {44, 4, AT(FADT_1)}, {48, 4, AT(SRAT_HIGH)});
/* Machines that are named by their power profile. */
PUTS(desktop, {36, 4, AT(FADT_DESKTOP)}, {40, 4, AT(MADT_MANY)}, {44, 4, AT(SPCR_3)}, {48, 4, AT(BGRT_90)},
     {52, 4, AT(HPET_0)});
PUTS(mobile, {36, 4, AT(FADT_MOBILE)}, {40, 4, AT(MADT_FIRST)}, {44, 4, AT(SPCR_2)}, {48, 4, AT(BGRT_270)},
     {52, 4, AT(HPET_1)});
PUTS(workstation, {36, 4, AT(FADT_WORKSTATION)}, {40, 4, AT(MADT_UNKNOWN)}, {44, 4, AT(SPCR_4)}, {48, 4, AT(BGRT_180)},
     {52, 4, AT(HPET_3)});
PUTS(server, {36, 4, AT(FADT_SERVER)}, {40, 4, AT(MADT_SAPIC)}, {44, 4, AT(HPET_11)});
PUTS(soho, {36, 4, AT(FADT_SOHO)}, {40, 4, AT(HPET_PORT)});
PUTS(appliance, {36, 4, AT(FADT_APPLIANCE)}, {40, 4, AT(SSDT_12)}, {44, 4, AT(SSDT_0)}, {48, 4, AT(SSDT_12)});
PUTS(performance, {36, 4, AT(FADT_PERFORMANCE)});
PUTS(tablet, {36, 4, AT(FADT_TABLET)});
PUTS(reserved, {36, 4, AT(FADT_RESERVED)});
PUTS(wide, {36, 8, AT(FADT_WIDE)});
PUTS(timer_5, {36, 4, AT(FADT_TIMER_5)}, {40, 4, AT(MADT_FIRST)});
/* Of each kind one that is a byte shorter than its fixed fields, and one that has just these. */
PUTS(least, {36, 4, AT(FADT_115)}, {40, 4, AT(FADT_116)}, {44, 4, AT(MADT_43)}, {48, 4, AT(MADT_44)},
     {52, 4, AT(MCFG_43)}, {56, 4, AT(MCFG_44)}, {60, 4, AT(HPET_55)}, {64, 4, AT(HPET_56)}, {68, 4, AT(BGRT_55)},
     {72, 4, AT(BGRT_56)}, {76, 4, AT(SPCR_79)}, {80, 4, AT(SPCR_80)}, {84, 4, AT(GTDT_95)}, {88, 4, AT(GTDT_96)},
     {92, 4, AT(SRAT_47)}, {96, 4, AT(SRAT_48)}, {100, 4, AT(SLIT_43)}, {104, 4, AT(SLIT_44)}, {108, 4, AT(OEM2_35)},
     {112, 4, AT(OEM2_36)}, {116, 4, AT(DMAR_47)}, {120, 4, AT(DMAR_48)}, {124, 4, AT(IVRS_47)}, {128, 4, AT(IVRS_48)});
/* Tables of revisions that lack fields, one whose Signature isn't UTF-8, and a last pointer of two bytes. */
PUTS(old, {36, 4, AT(FADT_OLD)}, {40, 4, AT(MADT_OLD)}, {44, 4, AT(GTDT_OLD)}, {48, 4, AT(SRAT_OLD)},
     {52, 4, AT(OEM_BYTE)}, {56, 4, 0x56781234});
/* Tables and entries that end inside a field. */
PUTS(half, {36, 4, AT(FADT_HALF)}, {40, 4, AT(SPCR_HALF)}, {44, 4, AT(GTDT_HALF)}, {48, 4, AT(MADT_HALF)},
     {52, 4, AT(MCFG_HALF)});
PUTS(half_x, {36, 4, AT(FADT_HALF_X)});
/* Machines that are named by what is at fault in their MADTs, and one that has no FADT. */
PUTS(sapic_between, {36, 4, AT(FADT)}, {40, 4, AT(MADT_SAPIC_BETWEEN)});
PUTS(nmi_2, {36, 4, AT(FADT)}, {40, 4, AT(MADT_NMI_2)});
PUTS(length_0, {36, 4, AT(FADT)}, {40, 4, AT(MADT_LENGTH_0)});
PUTS(no_fadt, {36, 4, AT(MADT_PC)});
PUTS(bus_1, {36, 4, AT(FADT)}, {40, 4, AT(MADT_BUS_1)});
PUTS(trigger_2, {36, 4, AT(FADT)}, {40, 4, AT(MADT_TRIGGER_2)});
PUTS(lint_2, {36, 4, AT(FADT)}, {40, 4, AT(MADT_LINT_2)});
/* Four blocks of event timers, of which the second isn't in memory, and the first is listed twice. */
PUTS(hpets, {36, 4, AT(HPET_0)}, {40, 4, AT(HPET_PORT)}, {44, 4, AT(HPET_3)}, {48, 4, AT(HPET_0)});
PUTS(mailbox, {36, 4, AT(MADT_MAILBOX)});
PUTS(overrides, {36, 4, AT(MADT_OVERRIDES)});
/* A table that is listed twice, and between a Length below 36, and a null pointer. */
PUTS(members, {36, 4, AT(HPET)}, {40, 4, AT(OEM2_35)}, {44, 4, 0}, {48, 4, AT(HPET)});
PUTS(riscv, {36, 4, AT(MADT_RISCV)});
PUTS(riscv_cut, {36, 4, AT(MADT_RISCV_CUT)});
PUTS(riscv_short, {36, 4, AT(MADT_RISCV_SHORT)});

#include "rows_tables_arm.h"
#include "rows_tables_accept.h"
#include "rows_tables_faults.h"
#include "rows_tables_iommu.h"
#include "rows_tables_every.h"
#include "rows_tables_kinds.h"
#include "rows_tables_pc.h"
#include "rows_tables_lengths.h"
#include "rows_tables_power.h"

static const struct table {
    uint64_t address;
    const char *signature;
    unsigned revision, length;
    const struct put *puts;
} tables[] = {
    {AT(EMPTY), "RSDT", 1, 36, no_fields}, {AT(ARM), "RSDT", 1, 56, arm}, {AT(PC), "XSDT", 1, 68, pc},
    {AT(ODD), "RSDT", 1, 52, odd}, {AT(HOLES), "RSDT", 1, 52, holes}, {AT(SUM), "RSDT", 1, 56, arm},
    {AT(DESKTOP), "RSDT", 1, 56, desktop}, {AT(MOBILE), "RSDT", 1, 56, mobile},
    {AT(WORKSTATION), "RSDT", 1, 56, workstation}, {AT(SERVER), "RSDT", 1, 48, server}, {AT(SOHO), "RSDT", 1, 44, soho},
    {AT(APPLIANCE), "RSDT", 1, 52, appliance}, {AT(PERFORMANCE), "RSDT", 1, 40, performance},
    {AT(TABLET), "RSDT", 1, 40, tablet}, {AT(RESERVED), "RSDT", 1, 40, reserved}, {AT(WIDE), "XSDT", 1, 44, wide},
    {AT(TIMER_5), "RSDT", 1, 44, timer_5}, {AT(LEAST), "RSDT", 1, 132, least},
    {AT(OLD), "RSDT", 1, 58, old}, {AT(HALF), "RSDT", 1, 56, half}, {AT(HALF_X), "RSDT", 1, 40, half_x},
    {AT(UNITS), "RSDT", 1, 44, units}, {AT(UNITS_10), "RSDT", 1, 40, units_10},
    {AT(UNITS_CUT), "RSDT", 1, 44, units_cut}, {AT(UNITS_END), "RSDT", 1, 44, units_end},
    {AT(UNITS_BETWEEN), "RSDT", 1, 44, units_between}, {AT(UNITS_FAULTS), "RSDT", 1, 44, units_faults},
    {AT(UNITS_LATER), "RSDT", 1, 40, units_later},
    {AT(SAPIC_BETWEEN), "RSDT", 1, 44, sapic_between}, {AT(NMI_2), "RSDT", 1, 44, nmi_2},
    {AT(LENGTH_0), "RSDT", 1, 44, length_0}, {AT(NO_FADT), "RSDT", 1, 40, no_fadt}, {AT(BUS_1), "RSDT", 1, 44, bus_1},
    {AT(TRIGGER_2), "RSDT", 1, 44, trigger_2}, {AT(LINT_2), "RSDT", 1, 44, lint_2},
    {AT(HPETS), "RSDT", 1, 52, hpets}, {AT(MAILBOX), "RSDT", 1, 40, mailbox}, {AT(POWER), "RSDT", 1, 48, power},
    {AT(REDUCED), "RSDT", 1, 40, reduced}, {AT(PLAIN), "RSDT", 1, 40, plain}, {AT(BARE), "RSDT", 1, 40, bare},
    {AT(BROKEN), "RSDT", 1, 44, broken}, {AT(FADTLESS), "RSDT", 1, 40, fadtless},
    {AT(HIGH), "RSDT", 1, 44, high}, {AT(HIGH_PLAIN), "RSDT", 1, 44, high_plain},
    {AT(HIGH_REDUCED), "RSDT", 1, 44, high_reduced}, {AT(WIDE_PLAIN), "RSDT", 1, 44, wide_plain},
    {AT(WIDE_REDUCED), "RSDT", 1, 44, wide_reduced}, {AT(FAULTS), "RSDT", 1, 48, faults},
    {AT(FRONTS), "RSDT", 1, 48, fronts}, {AT(RISCV), "RSDT", 1, 40, riscv}, {AT(RISCV_CUT), "RSDT", 1, 40, riscv_cut},
    {AT(RISCV_SHORT), "RSDT", 1, 40, riscv_short}, {AT(EARLY), "RSDT", 1, 40, early}, {AT(LATE), "RSDT", 1, 40, late},
    {AT(PAST), "RSDT", 1, 40, past}, {AT(ONE_LEFT), "RSDT", 1, 40, one_left}, {AT(UNITS_4), "RSDT", 1, 40, units_4},
    {AT(FLAWED), "RSDT", 1, 60, flawed}, {AT(LED_BY_SUMS), "RSDT", 1, 52, led_by_sums},
    {AT(LED_BY_IDS), "RSDT", 1, 44, led_by_ids}, {AT(ROOT_OEM_ID), "RSDT", 1, 40, root_oem_id},
    {AT(ROOT_LONG), "RSDT", 1, SIZE, root_long}, {AT(OVERRIDES), "RSDT", 1, 40, overrides},
    {AT(MEMBERS), "RSDT", 1, 52, members}, {AT(ALL_KINDS), "RSDT", 1, 44, all_kinds},
    {AT(EVERY), "RSDT", 1, 44, every}, {AT(APICS), "RSDT", 1, 44, apics}, {AT(ENDS_0), "RSDT", 1, 44, ends_0},
    {AT(ENDS_5), "RSDT", 1, 44, ends_5}, {AT(ENDS_LATER_0), "RSDT", 1, 44, ends_later_0},
    {AT(ENDS_LATER_5), "RSDT", 1, 44, ends_later_5}, {AT(NO_GICD_5), "RSDT", 1, 44, no_gicd_5},
    {AT(NO_GICD_LATER_0), "RSDT", 1, 44, no_gicd_later_0}, {AT(NO_GICD_LATER_5), "RSDT", 1, 44, no_gicd_later_5},
    {AT(ENDS_OTHER), "RSDT", 1, 44, ends_other}, {AT(GICCS), "RSDT", 1, 44, giccs}, {AT(PART), "RSDT", 1, 46, part},
    {AT(PART_X), "XSDT", 1, 56, part_x}, {AT(LOW), "RSDT", 1, 52, low}, {AT(POWER_X), "XSDT", 1, 62, power_x},
    {AT(UNITS_9), "RSDT", 1, 44, units_9}, {AT(UNITS_1), "RSDT", 1, 44, units_1}, {AT(SRAT_9), "RSDT", 1, 40, srat_9},
    {AT(PARTLY), "RSDT", 1, 48, partly}, {AT(HPET_IDS_ONLY), "RSDT", 1, 44, hpet_ids_only},
    {AT(SCI_20), "RSDT", 1, 44, sci_20}, {AT(SCI_AS_BUS), "RSDT", 1, 44, sci_as_bus},
    {AT(SLIT_OF_11), "RSDT", 1, 40, slit_of_11}, {AT(SLIT_OF_10), "RSDT", 1, 40, slit_of_10},
    {AT(SLIT_OF_MANY), "RSDT", 1, 40, slit_of_many}, {AT(NO_GICD_0), "RSDT", 1, 44, no_gicd_0},
    {AT(NO_GICD_OTHER), "RSDT", 1, 44, no_gicd_other}, {AT(NMI_TRIGGER), "RSDT", 1, 44, nmi_trigger},
    {AT(X2_LINT_2), "RSDT", 1, 44, x2_lint_2}, {AT(OVERRIDE_POLARITY), "RSDT", 1, 44, override_polarity},
    {AT(OVERRIDE_TRIGGER), "RSDT", 1, 44, override_trigger}, {AT(UNITS_LONG), "RSDT", 1, 40, units_long},
    {AT(TIMERS_3), "RSDT", 1, 40, timers_3}, ROOTS_OF_LENGTHS,
    {AT(ROOT_TABLE_ID), "RSDT", 1, 36, root_table_id}, {AT(ROOT_35), "RSDT", 1, 35, no_fields},
    {AT(ROOT_X_TABLE_ID), "XSDT", 1, 36, root_table_id},
    {AT(MADT_GIC), "APIC", 6, 346, madt_gic}, {AT(GTDT), "GTDT", 3, 260, gtdt}, {AT(SRAT), "SRAT", 3, 274, srat},
    {AT(SLIT), "SLIT", 1, 48, slit}, {AT(MCFG), "MCFG", 1, 108, mcfg}, {AT(FADT), "FACP", 6, 276, fadt},
    {AT(MADT_PC), "APIC", 4, 96, madt_pc}, {AT(HPET_SHORT), "HPET", 3, 48, no_fields}, {AT(HPET), "HPET", 1, 56, hpet},
    {AT(MADT_CUT), "APIC", 4, 69, madt_cut}, {AT(GTDT_CUT), "GTDT", 2, 124, gtdt_cut},
    {AT(SRAT_CUT), "SRAT", 1, 65, srat_cut}, {AT(SLIT_ODD), "SLIT", 1, 48, slit_odd},
    {AT(FADT_1), "FACP", 1, 116, fadt_1},
    {AT(SRAT_HIGH), "SRAT", 3, 88, srat_high}, {TAIL, "OEM1", 1, 80, no_fields},
    {AT(FADT_DESKTOP), "FACP", 1, 116, fadt_desktop}, {AT(FADT_MOBILE), "FACP", 1, 116, fadt_mobile},
    {AT(FADT_WORKSTATION), "FACP", 1, 116, fadt_workstation}, {AT(FADT_SERVER), "FACP", 1, 116, fadt_server},
    {AT(FADT_SOHO), "FACP", 1, 116, fadt_soho}, {AT(FADT_APPLIANCE), "FACP", 1, 116, fadt_appliance},
    {AT(FADT_PERFORMANCE), "FACP", 1, 116, fadt_performance}, {AT(FADT_TABLET), "FACP", 1, 116, fadt_tablet},
    {AT(FADT_RESERVED), "FACP", 1, 116, fadt_reserved}, {AT(FADT_WIDE), "FACP", 6, 276, fadt_wide},
    {AT(FADT_TIMER_5), "FACP", 5, 276, fadt_timer_5}, {AT(MADT_MANY), "APIC", 5, 221, madt_many},
    {AT(MADT_FIRST), "APIC", 4, 68, madt_first}, {AT(MADT_UNKNOWN), "APIC", 5, 64, madt_unknown},
    {AT(MADT_SAPIC), "APIC", 4, 60, madt_sapic}, {AT(SPCR_3), "SPCR", 3, 88, spcr_3},
    {AT(SPCR_2), "SPCR", 2, 80, spcr_2},
    {AT(SPCR_4), "SPCR", 4, 88, spcr_4}, {AT(BGRT_90), "BGRT", 1, 56, bgrt_90}, {AT(BGRT_270), "BGRT", 1, 56, bgrt_270},
    {AT(BGRT_180), "BGRT", 1, 56, bgrt_180}, {AT(HPET_0), "HPET", 1, 56, hpet_0}, {AT(HPET_1), "HPET", 1, 56, hpet_1},
    {AT(HPET_3), "HPET", 1, 56, hpet_3}, {AT(HPET_11), "HPET", 1, 56, hpet_11},
    {AT(HPET_PORT), "HPET", 1, 56, hpet_port},
    {AT(DSDT), "DSDT", 2, 60, no_fields}, {AT(DSDT_OTHER), "SSDT", 2, 60, no_fields},
    {AT(SSDT_12), "SSDT", 2, 48, no_fields}, {AT(SSDT_0), "SSDT", 1, 36, no_fields},
    {AT(FACS), "FACS", 0, 64, facs_64},
    {AT(FACS_SHORT), "FACS", 0, 63, no_fields}, {CUT(0), "FACS", 0, 64, no_fields}, {CUT(1), "DSDT", 2, 60, no_fields},
    {CUT(2), "RSDT", 1, 52, no_fields}, {AT(FADT_115), "FACP", 1, 115, no_fields},
    {AT(FADT_116), "FACP", 1, 116, no_fields},
    {AT(MADT_43), "APIC", 1, 43, no_fields}, {AT(MADT_44), "APIC", 1, 44, no_fields},
    {AT(MCFG_43), "MCFG", 1, 43, no_fields}, {AT(MCFG_44), "MCFG", 1, 44, no_fields},
    {AT(HPET_55), "HPET", 1, 55, no_fields}, {AT(HPET_56), "HPET", 1, 56, no_fields},
    {AT(BGRT_55), "BGRT", 1, 55, no_fields}, {AT(BGRT_56), "BGRT", 1, 56, no_fields},
    {AT(SPCR_79), "SPCR", 1, 79, no_fields}, {AT(SPCR_80), "SPCR", 1, 80, no_fields},
    {AT(GTDT_95), "GTDT", 2, 95, no_fields}, {AT(GTDT_96), "GTDT", 2, 96, no_fields},
    {AT(SRAT_47), "SRAT", 1, 47, no_fields}, {AT(SRAT_48), "SRAT", 1, 48, no_fields},
    {AT(SLIT_43), "SLIT", 1, 43, no_fields}, {AT(SLIT_44), "SLIT", 1, 44, no_fields},
    {AT(OEM2_35), "OEM2", 1, 35, no_fields}, {AT(OEM2_36), "OEM2", 1, 36, no_fields},
    {AT(FADT_OLD), "FACP", 1, 276, fadt_old}, {AT(MADT_OLD), "APIC", 5, 150, madt_old},
    {AT(GTDT_OLD), "GTDT", 1, 192, gtdt_old}, {AT(SRAT_OLD), "SRAT", 1, 146, srat_old},
    {AT(OEM_BYTE), "\377OEM", 1, 36, no_fields}, {AT(FADT_HALF), "FACP", 6, 130, fadt_half},
    {AT(SPCR_HALF), "SPCR", 3, 82, spcr_half}, {AT(GTDT_HALF), "GTDT", 3, 100, gtdt_half},
    {AT(MADT_HALF), "APIC", 6, 228, madt_half}, {AT(MCFG_HALF), "MCFG", 1, 72, mcfg_half},
    {AT(FADT_HALF_X), "FACP", 6, 238, fadt_half_x},
    {AT(DMAR), "DMAR", 1, 240, dmar}, {AT(DMAR_CUT), "DMAR", 1, 72, dmar_cut}, {AT(DMAR_END), "DMAR", 1, 76, dmar_end},
    {AT(DMAR_47), "DMAR", 1, 47, no_fields}, {AT(DMAR_48), "DMAR", 1, 48, no_fields},
    {AT(IVRS), "IVRS", 2, 332, ivrs}, {AT(IVRS_10), "IVRS", 2, 76, ivrs_10}, {AT(IVRS_CUT), "IVRS", 2, 80, ivrs_cut},
    {AT(IVRS_END), "IVRS", 2, 80, ivrs_end}, {AT(IVRS_47), "IVRS", 2, 47, no_fields},
    {AT(IVRS_48), "IVRS", 2, 48, no_fields},
    {AT(MADT_SAPIC_BETWEEN), "APIC", 5, 76, madt_sapic_between}, {AT(MADT_NMI_2), "APIC", 5, 70, madt_nmi_2},
    {AT(MADT_LENGTH_0), "APIC", 5, 72, madt_length_0}, {AT(MADT_BUS_1), "APIC", 5, 82, madt_bus_1},
    {AT(MADT_TRIGGER_2), "APIC", 5, 84, madt_trigger_2}, {AT(MADT_LINT_2), "APIC", 5, 78, madt_lint_2},
    {AT(MADT_MAILBOX), "APIC", 5, 85, madt_mailbox}, {AT(FADT_POWER), "FACP", 3, 244, fadt_power},
    {AT(FADT_REDUCED), "FACP", 5, 268, fadt_reduced}, {AT(FADT_PLAIN), "FACP", 3, 244, fadt_plain},
    {AT(FADT_BARE), "FACP", 3, 244, fadt_bare}, {AT(FADT_BROKEN), "FACP", 1, 116, fadt_broken},
    {AT(FADT_HIGH), "FACP", 1, 116, fadt_high}, {AT(DSDT_HIGH), "DSDT", 2, 76, dsdt_high},
    {AT(SSDT_HIGH), "SSDT", 2, 70, ssdt_high}, {AT(SSDT_WIDE), "SSDT", 2, 97, ssdt_wide},
    {AT(DSDT_POWER), "DSDT", 2, 43, dsdt_power}, {AT(DSDT_S5), "DSDT", 2, 47, dsdt_s5},
    {AT(SSDT_S5), "SSDT", 2, 50, ssdt_s5}, {AT(MADT_NO_GICD), "APIC", 6, 146, madt_no_gicd},
    {AT(MADT_FRONT), "APIC", 6, 146, madt_front}, {AT(GTDT_FAULTS), "GTDT", 2, 256, gtdt_faults},
    {AT(GTDT_FRONT), "GTDT", 2, 188, gtdt_front}, {AT(SRAT_FAULTS), "SRAT", 3, 244, srat_faults},
    {AT(SRAT_FRONT), "SRAT", 3, 186, srat_front}, {AT(DMAR_BETWEEN), "DMAR", 1, 104, dmar_between},
    {AT(DMAR_FAULTS), "DMAR", 1, 150, dmar_faults}, {AT(DMAR_LATER), "DMAR", 1, 93, dmar_later},
    {AT(IVRS_BETWEEN), "IVRS", 2, 132, ivrs_between}, {AT(IVRS_FAULTS), "IVRS", 2, 184, ivrs_faults},
    {AT(MADT_RISCV), "APIC", 6, 188, madt_riscv}, {AT(MADT_RISCV_CUT), "APIC", 6, 190, madt_riscv_cut},
    {AT(MADT_RISCV_SHORT), "APIC", 6, 63, madt_riscv_short}, {AT(GTDT_EARLY), "GTDT", 2, 124, gtdt_early},
    {AT(GTDT_LATE), "GTDT", 2, 116, gtdt_late}, {AT(GTDT_PAST), "GTDT", 2, 96, gtdt_past},
    {AT(MADT_BOTH), "APIC", 5, 52, madt_both}, {AT(MADT_OEM_ID), "APIC", 5, 52, madt_oem_id},
    {AT(MADT_TABLE_ID), "APIC", 5, 52, madt_table_id}, {AT(MADT_SUM), "APIC", 5, 52, madt_sum},
    {AT(MADT_VALID), "APIC", 5, 52, madt_valid}, {AT(MADT_LOST), "APIC", 5, SIZE, madt_lost},
    {AT(FADT_SUM), "FACP", 1, 116, fadt_sum}, {AT(FADT_OEM_ID), "FACP", 1, 116, fadt_oem_id},
    {AT(DSDT_SUM), "DSDT", 1, 47, dsdt_sum}, {AT(DSDT_TABLE_ID), "DSDT", 2, 40, dsdt_table_id},
    {AT(SSDT_SUM), "SSDT", 1, 47, ssdt_sum}, {AT(HPET_SUM), "HPET", 1, 56, hpet_sum},
    {AT(MADT_OVERRIDES), "APIC", 5, 113, madt_overrides},
    {AT(SRAT_ALL), "SRAT", 3, 315, srat_all}, {AT(DMAR_ALL), "DMAR", 1, 263, dmar_all},
    {AT(MADT_EVERY), "APIC", 6, MADT_EVERY_SIZE, madt_every}, {AT(MADT_APICS), "APIC", 6, MADT_APICS_SIZE, madt_every},
    {AT(MADT_ENDS_0), "APIC", 6, 88, madt_ends_0}, {AT(MADT_ENDS_5), "APIC", 6, 88, madt_ends_5},
    {AT(MADT_ENDS_LATER_0), "APIC", 6, 90, madt_ends_later_0},
    {AT(MADT_ENDS_LATER_5), "APIC", 6, 90, madt_ends_later_5}, {AT(MADT_NO_GICD_5), "APIC", 6, 68, madt_no_gicd_5},
    {AT(MADT_NO_GICD_LATER_0), "APIC", 6, 70, madt_no_gicd_later_0},
    {AT(MADT_NO_GICD_LATER_5), "APIC", 6, 70, madt_no_gicd_later_5},
    {AT(MADT_ENDS_OTHER), "APIC", 6, 80, madt_ends_other}, {AT(MADT_GICCS), "APIC", 6, 212, madt_giccs},
    {AT(DMAR_9), "DMAR", 1, 89, dmar_9}, {AT(DMAR_1), "DMAR", 1, 87, dmar_9}, {AT(IVRS_9), "IVRS", 2, 87, ivrs_9},
    {AT(IVRS_1), "IVRS", 2, 85, ivrs_9}, {AT(SRAT_OTHERS), "SRAT", 3, 100, srat_others},
    {PART_HPET, "HPET", 1, 56, no_fields}, {PART_MADT, "APIC", 5, 52, no_fields},
    {AT(HPET_OEM_ID), "HPET", 1, 56, hpet_oem_id}, {AT(HPET_BOTH), "HPET", 1, 56, hpet_both},
    {AT(FADT_SCI_20), "FACP", 1, 116, fadt_sci_20}, {AT(MADT_AS_BUS), "APIC", 5, 62, madt_as_bus},
    {AT(SLIT_11), "SLIT", 1, 48, slit_11}, {AT(SLIT_10), "SLIT", 1, 48, slit_10},
    {AT(SLIT_MANY), "SLIT", 1, 48, slit_many}, {AT(MADT_NO_GICD_0), "APIC", 5, 68, madt_no_gicd_0},
    {AT(MADT_NO_GICD_OTHER), "APIC", 5, 48, madt_no_gicd_other},
    {AT(MADT_NMI_TRIGGER), "APIC", 5, 52, madt_nmi_trigger}, {AT(MADT_X2_LINT_2), "APIC", 5, 56, madt_x2_lint_2},
    {AT(MADT_OVERRIDE_POLARITY), "APIC", 5, 54, madt_override_polarity},
    {AT(MADT_OVERRIDE_TRIGGER), "APIC", 5, 54, madt_override_trigger}, {AT(IVRS_LONG), "IVRS", 2, 124, ivrs_long},
    {AT(GTDT_3), "GTDT", 3, 124, gtdt_3}, LAID_OF_LENGTHS,
    {LAST_MADT, "APIC", 5, LAST_MADT_SIZE, last_madt}, {LAST_IVRS, "IVRS", 2, LAST_IVRS_SIZE, last_ivrs},
    {BIOS + 0x10000, "RSDT", 1, 36, no_fields}};

/* RSDPs: OEMID at 9, Revision at 15, RsdtAddress at 16, Length at 20, XsdtAddress at 24 (section
 * 5.2.5.3). */
static const struct rsdp {
    uint64_t address, oem_id;
    unsigned revision, rsdt_address, length;
    uint64_t xsdt_address;
} rsdps[] = {
    {AT(RSDP_0), 0, 0, AT(ARM), 77, AT(PC)} /* revision 0 has neither */, {AT(RSDP_2), 0, 2, AT(EMPTY), 36, AT(PC)},
    {AT(RSDP_40), 0x464544434241 /* ABCDEF */, 2, 0, 40, AT(PC)},
    {AT(RSDP_MIXED), 0, 2, AT(ARM), 36, 0}, {AT(RSDP_LONG), 0, 2, 0, SIZE, AT(PC)},
    {AT(RSDP_LOST), 0, 2, 0, 36, 0x300000000}, {AT(RSDP_CUT), 0, 0, CUT(2), 0, 0},
    {AT(RSDP_SHORT), 0, 2, 0, 35, AT(PC)}, {AT(RSDP_TO_SUM), 0, 0, AT(SUM), 0, 0},
    {AT(RSDP_OEM_ID), 0xff, 0, AT(ARM), 0, 0},
    {BIOS + 0x1ffe0, 0, 0, BIOS + 0x10000, 0, 0},
    {HIGH_EBDA + 0x3c0, 0, 0, 0x200000, 0, 0}, {EBDA + 0x40, 0, 0, 0x200000, 0, 0},
    {EBDA + 0x3e0, 0, 2, 0, 0x31, AT(PC)},
    /* A byte too long for the area with the 16 bytes after it; too short; not UTF-8; and in the last 32 bytes. */
    {LONG_BIOS, 0, 2, 0, BIOS_SIZE + 1, AT(PC)}, {LONG_BIOS + 0x40, 0, 2, 0, 35, AT(PC)},
    {LONG_BIOS + 0x80, 0xff, 2, 0, SIZE, AT(PC)}, {LONG_BIOS + 0x1ffe0, 0, 2, 0, 64, AT(PC)}};
#endif
