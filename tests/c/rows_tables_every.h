/* MADTs with an entry of each Type between entries of Types that no call knows, for rows_every.h, and MADTs that end in
 * an entry whose Length can't be. */
#ifndef ROWS_TABLES_EVERY_H
#define ROWS_TABLES_EVERY_H

PUTS(every, {36, 4, AT(FADT)}, {40, 4, AT(MADT_EVERY)});
PUTS(apics, {36, 4, AT(FADT)}, {40, 4, AT(MADT_APICS)});
PUTS(ends_0, {36, 4, AT(FADT)}, {40, 4, AT(MADT_ENDS_0)});
PUTS(ends_5, {36, 4, AT(FADT)}, {40, 4, AT(MADT_ENDS_5)});
PUTS(ends_later_0, {36, 4, AT(FADT)}, {40, 4, AT(MADT_ENDS_LATER_0)});
PUTS(ends_later_5, {36, 4, AT(FADT)}, {40, 4, AT(MADT_ENDS_LATER_5)});
PUTS(no_gicd_5, {36, 4, AT(FADT)}, {40, 4, AT(MADT_NO_GICD_5)});
PUTS(no_gicd_later_0, {36, 4, AT(FADT)}, {40, 4, AT(MADT_NO_GICD_LATER_0)});
PUTS(no_gicd_later_5, {36, 4, AT(FADT)}, {40, 4, AT(MADT_NO_GICD_LATER_5)});

PUTS(ends_other, {36, 4, AT(FADT)}, {40, 4, AT(MADT_ENDS_OTHER)});
PUTS(giccs, {36, 4, AT(FADT)}, {40, 4, AT(MADT_GICCS)});
/* The last pointer has two bytes, or four of eight, and zeros after them. */
PUTS(part, {36, 4, AT(FADT_DESKTOP)}, {40, 4, AT(OEM2_36)}, {44, 2, 0x1234});
PUTS(part_x, {36, 8, AT(FADT_DESKTOP)}, {44, 8, AT(OEM2_36)}, {52, 4, 0x1234});
/* A pointer below all regions, and one to the last 20 bytes of one. */
PUTS(low, {36, 4, 0x500}, {40, 4, BASE + SIZE - 20}, {44, 4, AT(FADT_DESKTOP)}, {48, 4, AT(OEM2_36)});
PUTS(power_x, {36, 8, AT(FADT_POWER)}, {44, 8, AT(SSDT_0)}, {52, 8, AT(SSDT_S5)}, {60, 2, 0x1234});
PUTS(units_9, {36, 4, AT(DMAR_9)}, {40, 4, AT(IVRS_9)});
PUTS(units_1, {36, 4, AT(DMAR_1)}, {40, 4, AT(IVRS_1)});
PUTS(srat_9, {36, 4, AT(SRAT_OTHERS)});
/* Of two tables the header and four bytes are lent. */
PUTS(partly, {36, 4, PART_HPET}, {40, 4, PART_MADT}, {44, 4, AT(FADT_DESKTOP)});
PUTS(hpet_ids_only, {36, 4, AT(HPET_BOTH)}, {40, 4, AT(HPET_OEM_ID)});
PUTS(sci_20, {36, 4, AT(FADT_SCI_20)}, {40, 4, AT(MADT_PC)});
PUTS(sci_as_bus, {36, 4, AT(FADT)}, {40, 4, AT(MADT_AS_BUS)});
PUTS(slit_of_11, {36, 4, AT(SLIT_11)});
PUTS(slit_of_10, {36, 4, AT(SLIT_10)});
PUTS(slit_of_many, {36, 4, AT(SLIT_MANY)});
PUTS(no_gicd_0, {36, 4, AT(FADT)}, {40, 4, AT(MADT_NO_GICD_0)});
PUTS(no_gicd_other, {36, 4, AT(FADT)}, {40, 4, AT(MADT_NO_GICD_OTHER)});
PUTS(nmi_trigger, {36, 4, AT(FADT)}, {40, 4, AT(MADT_NMI_TRIGGER)});
PUTS(x2_lint_2, {36, 4, AT(FADT)}, {40, 4, AT(MADT_X2_LINT_2)});
PUTS(override_polarity, {36, 4, AT(FADT)}, {40, 4, AT(MADT_OVERRIDE_POLARITY)});
PUTS(override_trigger, {36, 4, AT(FADT)}, {40, 4, AT(MADT_OVERRIDE_TRIGGER)});
PUTS(units_long, {36, 4, AT(IVRS_LONG)});
PUTS(timers_3, {36, 4, AT(GTDT_3)});

#define WATCHDOG_AT(at) {at, 1, 1} /* Type: Arm Generic Watchdog */, {at + 1, 2, 28} /* Length */
#define OTHER(at) {at, 2, HEADER(0x80, 2)} /* of an OEM */
/* The first 279 bytes have what a PC has, and the entries of a RISC-V machine; SAPICs and a GIC come after them. */
PUTS(madt_every,
    {36, 4, 0xfee00000} /* Local Interrupt Controller Address */, {40, 4, 1} /* Flags: PCAT_COMPAT */, OTHER(44),
    {46, 2, HEADER(0, 8)}, {46 + 2, 1, 1} /* ACPI Processor UID */, {46 + 3, 1, 10} /* APIC ID */,
    {46 + 4, 4, 1} /* Flags: Enabled */,
    {54, 2, HEADER(0x18, 20)}, {54 + 2, 1, 9} /* Version */, {54 + 8, 8, 7} /* Hart ID */,
    {54 + 16, 4, 8} /* ACPI Processor UID */,
    {74, 2, HEADER(1, 12)}, {74 + 2, 1, 2} /* I/O APIC ID */, {74 + 4, 4, 0xfec00000} /* I/O APIC Address */,
    {86, 2, HEADER(0x11, 2)},
    {88, 2, HEADER(2, 10)}, {88 + 3, 1, 9} /* Source */, {88 + 4, 4, 20} /* Global System Interrupt */,
    {88 + 8, 2, 0xd} /* Flags: active high, level */, {98, 2, HEADER(0x80, 3)},
    {101, 2, HEADER(3, 8)}, {101 + 2, 2, 5} /* Flags: active high, edge */,
    {101 + 4, 4, 50} /* Global System Interrupt */, OTHER(109),
    {111, 2, HEADER(4, 6)}, {111 + 2, 1, 0xff} /* ACPI Processor UID: all */, {111 + 5, 1, 1} /* Local APIC LINT# */,
    {117, 2, HEADER(0x19, 16)}, {117 + 2, 1, 5} /* Version */, {117 + 8, 2, 63} /* Supervisor Mode Identities */,
    {133, 2, HEADER(5, 12)}, {133 + 4, 8, 0x1fee00000} /* Local APIC Address */, OTHER(145),
    {147, 2, HEADER(9, 16)}, {147 + 4, 4, 300} /* X2APIC ID */, {147 + 8, 4, 1} /* Flags: Enabled */,
    {147 + 12, 4, 301} /* ACPI Processor UID */, OTHER(163),
    {165, 2, HEADER(0xa, 12)}, {165 + 2, 2, 0xf} /* Flags: active low, level */,
    {165 + 4, 4, 301} /* ACPI Processor UID; Local x2APIC LINT# 0 */,
    {177, 2, HEADER(0x1a, 36)}, {177 + 2, 1, 1} /* Version */, {177 + 24, 8, 0xd000000} /* APLIC Address */,
    {213, 2, HEADER(0x10, 16)}, {213 + 8, 8, 0x27b000000} /* MailBoxAddress */,
    {229, 2, HEADER(0x1b, 36)}, {229 + 2, 1, 3} /* Version */, {229 + 24, 8, 0xc000000} /* PLIC Address */,
    {265, 2, HEADER(1, 12)}, {265 + 2, 1, 3} /* I/O APIC ID */, {265 + 4, 4, 0xfec01000} /* I/O APIC Address */,
    {265 + 8, 4, 24} /* Global System Interrupt Base */, OTHER(277),
    {279, 2, HEADER(6, 16)}, OTHER(295), {297, 2, HEADER(7, 16)}, OTHER(313), {315, 2, HEADER(8, 16)}, OTHER(331),
    {333, 2, HEADER(0x0b, 76)}, {333 + 4, 4, 4} /* CPU Interface Number */,
    {333 + 8, 4, 18} /* ACPI Processor UID */, {333 + 12, 4, 4} /* Flags: VGIC Maintenance interrupt Mode edge */,
    {333 + 68, 8, 3} /* MPIDR */, OTHER(409),
    {411, 2, HEADER(0x0c, 24)}, {411 + 4, 4, 7} /* GIC ID */, {411 + 8, 8, 0x2f000000} /* Physical Base Address */,
    {411 + 16, 4, 5} /* System Vector Base */, {411 + 20, 1, 3} /* GIC version */, OTHER(435),
    {437, 2, HEADER(0x0d, 24)}, {437 + 4, 4, 8} /* GIC MSI Frame ID */,
    {437 + 8, 8, 0x12f030000} /* Physical Base Address */, {437 + 16, 4, 1} /* Flags: SPI Count/Base Select */,
    {437 + 20, 2, 32} /* SPI Count */, {437 + 22, 2, 64} /* SPI Base */, OTHER(461),
    {463, 2, HEADER(0x0e, 16)}, {463 + 4, 8, 0x12f200000} /* Discovery Range Base Address */,
    {463 + 12, 4, 0x40000} /* Discovery Range Length */, OTHER(479),
    {481, 2, HEADER(0x0f, 20)}, {481 + 4, 4, 6} /* GIC ITS ID */,
    {481 + 8, 8, 0x12f020000} /* Physical Base Address */);
#define MADT_APICS_SIZE 279u
#define MADT_EVERY_SIZE 501u

/* A processor and a distributor, and then an I/O APIC with a Length of 0, or of 5 where 12 are the least; also after an
 * entry of an OEM. */
#define BEFORE_THE_END \
    {44, 2, HEADER(0, 8)}, {44 + 2, 1, 1} /* ACPI Processor UID */, {44 + 3, 1, 10} /* APIC ID */, \
    {44 + 4, 4, 1} /* Flags: Enabled */, {52, 2, HEADER(0x0c, 24)}
PUTS(madt_ends_0, BEFORE_THE_END, {76, 2, HEADER(1, 0)});
PUTS(madt_ends_5, BEFORE_THE_END, {76, 2, HEADER(1, 5)});
PUTS(madt_ends_later_0, BEFORE_THE_END, OTHER(76), {78, 2, HEADER(1, 0)});
PUTS(madt_ends_later_5, BEFORE_THE_END, OTHER(76), {78, 2, HEADER(1, 5)});
/* An entry of an OEM whose Length is after the table. */
PUTS(madt_ends_other, BEFORE_THE_END, {76, 2, HEADER(0x80, 40)});
/* A processor, and two GICCs, of which the first lacks TRBE Interrupt. */
PUTS(madt_giccs,
    {44, 2, HEADER(0, 8)}, {44 + 2, 1, 1} /* ACPI Processor UID */, {44 + 3, 1, 10} /* APIC ID */,
    {44 + 4, 4, 1} /* Flags: Enabled */,
    {52, 2, HEADER(0x0b, 80)}, {52 + 4, 4, 1} /* CPU Interface Number */, {52 + 8, 4, 2} /* ACPI Processor UID */,
    {132, 2, HEADER(0x0b, 80)}, {132 + 4, 4, 3} /* CPU Interface Number */, {132 + 8, 4, 4} /* ACPI Processor UID */);
/* No distributor, since its Length is 5, or after an entry of an OEM 0 or 5, where 24 are the least. */
PUTS(madt_no_gicd_5, {44, 2, HEADER(0x0c, 5)});
PUTS(madt_no_gicd_later_0, OTHER(44), {46, 2, HEADER(0x0c, 0)});
PUTS(madt_no_gicd_later_5, OTHER(44), {46, 2, HEADER(0x0c, 5)});
/* The same without an entry before it; and an entry of an OEM alone, whose Length is after the table. */
PUTS(madt_no_gicd_0, {44, 2, HEADER(0x0c, 0)});
PUTS(madt_no_gicd_other, {44, 2, HEADER(0x80, 40)});

/* One code of an entry is at fault: Flags of an NMI Source, active high, trigger 2; Local x2APIC LINT# 2; Flags of an
 * Interrupt Source Override, polarity 2, level, and active high, trigger 2. */
PUTS(madt_nmi_trigger, {44, 2, HEADER(3, 8)}, {44 + 2, 2, 9}, {44 + 4, 4, 30} /* Global System Interrupt */);
PUTS(madt_x2_lint_2, {44, 2, HEADER(0xa, 12)}, {44 + 4, 4, 7} /* ACPI Processor UID */, {44 + 8, 1, 2});
PUTS(madt_override_polarity, {44, 2, HEADER(2, 10)}, {44 + 3, 1, 4} /* Source */, {44 + 8, 2, 0xe});
PUTS(madt_override_trigger, {44, 2, HEADER(2, 10)}, {44 + 3, 1, 4} /* Source */, {44 + 8, 2, 9});

/* SCI_INT that no override can have, and an override of SCI_INT that has no codes of its own. */
PUTS(fadt_sci_20, {46, 2, 20});
PUTS(madt_as_bus, {44, 2, HEADER(0, 8)}, {52, 2, HEADER(2, 10)}, {52 + 3, 1, 9} /* Source */, {52 + 4, 4, 22});

/* Revision 3, in which a watchdog is where Virtual EL2 Timer would be. */
PUTS(gtdt_3, {88, 4, 1} /* Platform Timer Count */, {92, 4, 96} /* Platform Timer Offset */, WATCHDOG_AT(96));

/* A locality that is 11 from itself, one that is 10 from another, and more localities than bytes can be. */
PUTS(slit_11, {36, 8, 2}, {44, 1, 11}, {45, 1, 20}, {46, 1, 30}, {47, 1, 10});
PUTS(slit_10, {36, 8, 2}, {44, 1, 10}, {45, 1, 10}, {46, 1, 30}, {47, 1, 10});
PUTS(slit_many, {36, 8, 0x8000000000000000}, {44, 1, 10});

/* A unit between structures of reserved Types, and then three bytes, of which none begins a structure, or one. */
PUTS(dmar_9,
    STRUCTURE(48, 9, 8), DRHD(56, 24, 0, 0, 0, 0xfed90000), SCOPE(72, 1, 8, 0, 0), HOP(78, 2, 0) /* an endpoint */,
    STRUCTURE(80, 7, 6));
PUTS(ivrs_9,
    BLOCK(48, 0x10, 1, 28, 2), IVHD(48, 0x40, 0xfeb80000, 0, 3, 0x11223344), ENTRY(72, 1, 0, 0xd7) /* all */,
    BLOCK(76, 0x50, 0, 8, 0) /* a reserved Type */);
/* Entries of reserved Types, of 16 bytes from 0x80 on and of 32 from 0xc0 on, before one for all devices. */
PUTS(ivrs_long,
    BLOCK(48, 0x10, 1, 76, 2), IVHD(48, 0x40, 0xfeb80000, 0, 3, 0x11223344), ENTRY(72, 0x80, 5, 6),
    ENTRY(88, 0xc0, 7, 8), ENTRY(120, 1, 0, 0xd7));
/* Memory between entries of a reserved Type, of which the last one's Length is after the table. */
PUTS(srat_others,
    {48, 2, HEADER(9, 4)}, {52, 2, HEADER(1, 40)}, {52 + 2, 4, 6} /* Proximity Domain */,
    {52 + 8, 8, 0x1000} /* Base Address */, {52 + 16, 8, 0x1000} /* Length */, {52 + 28, 4, 1} /* Flags: Enabled */,
    {92, 2, HEADER(9, 60)});

/* HPETs whose OEMID isn't UTF-8, with and without a bad Checksum. */
PUTS(hpet_oem_id, {44, 8, 0xfed50000} /* BASE_ADDRESS: Address */, BAD_OEM_ID);
PUTS(hpet_both, {44, 8, 0xfed60000} /* BASE_ADDRESS: Address */, BAD_OEM_ID, BAD_SUM);
#endif
