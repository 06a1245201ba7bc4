/* Tables with a bad Checksum or an id that isn't UTF-8, for rows_tables.h: what is put at 9 is what the sum is off by,
 * OEMID is at 10, and OEM Table ID at 16 (section 5.2.6). */
#ifndef ROWS_TABLES_ACCEPT_H
#define ROWS_TABLES_ACCEPT_H

#define BAD_SUM {9, 1, 1}
#define BAD_OEM_ID {10, 1, 0xff}
#define BAD_TABLE_ID {16, 1, 0xff}

/* Of MADTs the first is too short, and the last is valid. */
PUTS(flawed, {36, 4, AT(MADT_43)}, {40, 4, AT(MADT_BOTH)}, {44, 4, AT(MADT_OEM_ID)}, {48, 4, AT(MADT_TABLE_ID)},
     {52, 4, AT(MADT_SUM)}, {56, 4, AT(MADT_VALID)});
PUTS(led_by_sums, {36, 4, AT(FADT_SUM)}, {40, 4, AT(MADT_TABLE_ID)}, {44, 4, AT(SSDT_SUM)}, {48, 4, AT(HPET_SUM)});
PUTS(led_by_ids, {36, 4, AT(FADT_OEM_ID)}, {40, 4, AT(MADT_LOST)});
PUTS(root_oem_id, {36, 4, AT(MADT_OEM_ID)}, BAD_OEM_ID);
PUTS(root_long, BAD_OEM_ID); /* Length reaches past what is lent */
PUTS(root_table_id, BAD_TABLE_ID);

/* Each has a Processor Local APIC: ACPI Processor UID at 2, APIC ID at 3, Flags at 4 (section 5.2.12.2). */
#define PROCESSOR(uid, id) {44, 2, HEADER(0, 8)}, {44 + 2, 1, uid}, {44 + 3, 1, id}, {44 + 4, 4, 1} /* Enabled */
PUTS(madt_both, PROCESSOR(1, 11), BAD_SUM, BAD_OEM_ID);
PUTS(madt_oem_id, PROCESSOR(2, 12), BAD_OEM_ID);
PUTS(madt_table_id, PROCESSOR(3, 13), BAD_TABLE_ID);
PUTS(madt_sum, PROCESSOR(4, 14), BAD_SUM);
PUTS(madt_valid, PROCESSOR(5, 15));
PUTS(madt_lost, BAD_OEM_ID); /* Length reaches past what is lent */

/* FIRMWARE_CTRL at 36, DSDT at 40, SCI_INT at 46 (section 5.2.9). */
PUTS(fadt_sum, {36, 4, AT(FACS)}, {40, 4, AT(DSDT_TABLE_ID)}, {46, 2, 9}, BAD_SUM);
PUTS(fadt_oem_id, {36, 4, AT(FACS_SHORT)}, {40, 4, AT(DSDT_SUM)}, BAD_OEM_ID);
/* NameOp, _S5_, PackageOp, PkgLength of 5 bytes, NumElements 2: BytePrefix 5, OneOp; and in the SSDT BytePrefix 6. */
#define S5(type) {36, 1, 0x08}, {37, 4, 0x5f35535f}, {41, 1, 0x12}, {42, 1, 5}, {43, 1, 2}, {44, 2, type}, {46, 1, 1}
PUTS(dsdt_sum, S5(0x050a), BAD_SUM);
PUTS(dsdt_table_id, BAD_SUM, BAD_TABLE_ID);
PUTS(ssdt_sum, S5(0x060a), BAD_SUM);
PUTS(hpet_sum, {44, 8, 0xfed40000} /* BASE_ADDRESS: Address */, BAD_SUM);
#endif
