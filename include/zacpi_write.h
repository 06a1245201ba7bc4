/* SPDX-License-Identifier: MIT */
/* The tables that are written: a part of zacpi.h, which includes this file. */
#ifndef ZACPI_H
#error "include zacpi.h, which includes this file"
#elif !defined(ZACPI_WRITE_H)
#define ZACPI_WRITE_H

/* Tables that are written ---------------------------------------------------------------------- */

/* Each call writes one table to the front of `out`, which has `capacity` bytes, and its length to
 * `length`; the rest of `out` is left as it is. The calls of zacpi.h then read what was passed,
 * except as comments explain; none reads an RHCT. */

struct zacpi_table_ids { /* section 5.2.6. Names are filled up with spaces or zeros */
    uint8_t oem_id[6], oem_table_id[8];
    uint8_t reserved[2]; /* 0 */
    uint32_t oem_revision;
    uint8_t creator_id[4];
    uint32_t creator_revision;
};
struct zacpi_madt_contents {
    const struct zacpi_processor *processors; /* the first is the boot processor; is_boot isn't
                                               * looked at; enabled unless the state is
                                               * ZACPI_PROCESSOR_DISABLED */
    zacpi_size processors_length;
    const struct zacpi_io_apic *io_apics;
    zacpi_size io_apics_length;
    const struct zacpi_interrupt_source_override *overrides; /* bus has to be 0, ISA */
    zacpi_size overrides_length;
    const struct zacpi_nmi_source *nmi_sources;
    zacpi_size nmi_sources_length;
    const struct zacpi_nmi_line *nmi_lines; /* processor_uid isn't looked at if of_all isn't 0 */
    zacpi_size nmi_lines_length;
    zacpi_u64 local_apic_address;
    zacpi_u64 wakeup_mailbox; /* MailBoxAddress (section 5.2.12.19), if has_wakeup_mailbox */
    uint8_t also_has_8259;   /* PCAT_COMPAT */
    uint8_t has_wakeup_mailbox;
    uint8_t reserved[6]; /* 0 */
};
struct zacpi_gic_contents {
    struct zacpi_gic_distributor distributor;
    const struct zacpi_gic_cpu_interface *cpu_interfaces; /* the first is the boot processor */
    zacpi_size cpu_interfaces_length;
    const struct zacpi_range *redistributors;
    zacpi_size redistributors_length;
    const struct zacpi_gic_translation_service *translation_services;
    zacpi_size translation_services_length;
    const struct zacpi_gic_msi_frame *msi_frames; /* spi_base and spi_count aren't looked at if
                                                   * has_spis is 0 */
    zacpi_size msi_frames_length;
};
struct zacpi_riscv_contents {
    const struct zacpi_rintc *rintcs;
    zacpi_size rintcs_length;
    const struct zacpi_imsic *imsics;
    zacpi_size imsics_length;
    const struct zacpi_aplic *aplics;
    zacpi_size aplics_length;
    const struct zacpi_plic *plics;
    zacpi_size plics_length;
};
struct zacpi_rhct_contents { /* RISC-V Hart Capabilities Table, ACPI 6.6 */
    const uint8_t *isa;     /* the ISA string of all harts, as rv64imafdc, without a final zero */
    zacpi_size isa_length;
    const uint32_t *harts;  /* ACPI Processor UID of each */
    zacpi_size harts_length;
    zacpi_u64 time_base_frequency;
    uint32_t flags;         /* bit 0: the timer can't wake the processor */
    uint8_t reserved[4]; /* 0 */
};
struct zacpi_apic_domain { /* sections 5.2.16.1 and 5.2.16.3 */
    uint32_t local_apic_id; /* APIC ID or X2APIC ID */
    uint32_t domain;
};
struct zacpi_gicc_domain { /* section 5.2.16.4 */
    uint32_t processor_uid, domain;
};
struct zacpi_srat_contents {
    const struct zacpi_apic_domain *apics;
    zacpi_size apics_length;
    const struct zacpi_gicc_domain *giccs;
    zacpi_size giccs_length;
    const struct zacpi_memory_affinity *ranges;
    zacpi_size ranges_length;
};
struct zacpi_spcr_contents {
    struct zacpi_console console;
    uint8_t interrupt_controllers; /* bits 1 to 4 of Interrupt Type: 2 an I/O APIC, 4 an I/O SAPIC,
                                    * 8 a GIC, 16 a PLIC or an APLIC, or a sum of these, if
                                    * has_global_system_interrupt */
    uint8_t flow_control, terminal_type;
    uint8_t reserved[5]; /* 0 */
};
struct zacpi_platform_timer { /* section 5.2.24.1: a GT Block or a watchdog */
    uint32_t kind;                       /* 0: the block. 1: the watchdog. The other isn't looked
                                          * at */
    uint8_t reserved[4]; /* 0 */
    zacpi_u64 block_address;
    const struct zacpi_gt_frame *frames; /* block_address isn't looked at */
    zacpi_size frames_length;
    struct zacpi_watchdog watchdog;
};
struct zacpi_gtdt_contents {
    struct zacpi_arm_timers timers;
    const struct zacpi_platform_timer *platform_timers;
    zacpi_size platform_timers_length;
};
struct zacpi_facs_contents { /* section 5.2.10 */
    zacpi_u64 waking_vector_64; /* X_Firmware_Waking_Vector */
    uint32_t hardware_signature, waking_vector;
    uint8_t supports_s4bios, supports_64_bit_wake;
    uint8_t reserved[6]; /* 0 */
};

/* Writes an RSDP of revision 2 that points to an XSDT (section 5.2.5.3): 36 bytes. Of `ids` it
 * contains only OEMID. Fails with ZACPI_NO_ADDRESS if `xsdt` is 0, ZACPI_BAD_NAME, also for another
 * name, or ZACPI_NO_ROOM. */
ZACPI_STATUS zacpi_write_rsdp(const struct zacpi_table_ids *ids, uint64_t xsdt, uint8_t *out,
                              size_t capacity, size_t *length);
/* Write an RSDT, and an XSDT, of these addresses, in order, also of 0 (sections 5.2.7 and 5.2.8).
 * Fail with ZACPI_BAD_NAME, ZACPI_NO_ROOM or ZACPI_TOO_LONG. */
ZACPI_STATUS zacpi_write_rsdt(const struct zacpi_table_ids *ids, const uint32_t *addresses,
                              size_t addresses_length, uint8_t *out, size_t capacity,
                              size_t *length);
ZACPI_STATUS zacpi_write_xsdt(const struct zacpi_table_ids *ids, const uint64_t *addresses,
                              size_t addresses_length, uint8_t *out, size_t capacity,
                              size_t *length);
/* Write a DSDT, and an SSDT, of these bytes of AML, whose integers have 32 bits with a revision of
 * 1, 64 with 2 (section 5.2.11). What iasl compiles, such as the array of `iasl -tc`, is a whole
 * table, whose AML is at `+ 36`, after its header, and 36 bytes shorter. Fail with
 * ZACPI_HAS_HEADER, ZACPI_BAD_NAME, ZACPI_NO_ROOM or ZACPI_TOO_LONG. */
ZACPI_STATUS zacpi_write_dsdt(const struct zacpi_table_ids *ids, uint8_t revision,
                              const uint8_t *aml, size_t aml_length, uint8_t *out, size_t capacity,
                              size_t *length);
ZACPI_STATUS zacpi_write_ssdt(const struct zacpi_table_ids *ids, uint8_t revision,
                              const uint8_t *aml, size_t aml_length, uint8_t *out, size_t capacity,
                              size_t *length);
/* Writes a table of any signature and revision: a header (section 5.2.6) and these bytes. Fails
 * with ZACPI_BAD_NAME, ZACPI_NO_ROOM or ZACPI_TOO_LONG. */
ZACPI_STATUS zacpi_write_table(const struct zacpi_table_ids *ids, struct zacpi_signature wanted,
                               uint8_t revision, const uint8_t *body, size_t body_length,
                               uint8_t *out, size_t capacity, size_t *length);
/* Returns the sum of bytes modulo 256: a table's is 0 (section 5.2.6). */
static inline uint8_t zacpi_byte_sum(const uint8_t *bytes, size_t length) {
    uint8_t sum = 0;
    while (length > 0) sum = (uint8_t)(sum + bytes[--length]);
    return sum;
}
/* Sets the Checksum of a table that was changed in place, so that its bytes sum to 0. The table has
 * at least the 36 bytes of a header (section 5.2.6), which a FACS and an RSDP lack. */
static inline void zacpi_set_checksum(uint8_t *table, size_t length) {
    table[9] = (uint8_t)(table[9] - zacpi_byte_sum(table, length));
}
/* Writes a MADT of revision 5 (section 5.2.12): its entries kind by kind in the order of the lists,
 * the mailbox last. An address of 2^32 or above is in a Local APIC Address Override after the
 * processors, with 0 in Local Interrupt Controller Address. Processors whose uid and id are below
 * 255 are Processor Local APICs if is_x2apic is 0, others Processor Local x2APICs; lines of a uid
 * of 255 or above are Local x2APIC NMIs, others Local APIC NMIs. Fails with ZACPI_UNKNOWN_CODE,
 * ZACPI_NO_PROCESSOR, ZACPI_ID_OF_ALL, ZACPI_UID_OF_ALL, ZACPI_BAD_NAME, ZACPI_NO_ROOM or
 * ZACPI_TOO_LONG. */
ZACPI_STATUS zacpi_write_madt(const struct zacpi_table_ids *ids,
                              const struct zacpi_madt_contents *contents, uint8_t *out,
                              size_t capacity, size_t *length);
/* Writes a MADT of revision 6 of an Arm machine (sections 5.2.12.14 to 5.2.12.18): the distributor,
 * and the lists in their order. A GICC has 82 bytes, or 80 if trace_buffer_interrupt is 0. Fails
 * with ZACPI_UNKNOWN_CODE, ZACPI_BAD_RANGE, ZACPI_NO_PROCESSOR, ZACPI_SAME_AS_BUS if a trigger is
 * 0, ZACPI_BAD_NAME, ZACPI_NO_ROOM or ZACPI_TOO_LONG. */
ZACPI_STATUS zacpi_write_gic_madt(const struct zacpi_table_ids *ids,
                                  const struct zacpi_gic_contents *contents, uint8_t *out,
                                  size_t capacity, size_t *length);
/* Writes a MADT of revision 7 of a RISC-V machine (ACPI 6.6, section 5.2.12): the lists in their
 * order, a RINTC with 36 bytes. Fails with ZACPI_NO_PROCESSOR, ZACPI_BAD_NAME, ZACPI_NO_ROOM or
 * ZACPI_TOO_LONG. */
ZACPI_STATUS zacpi_write_riscv_madt(const struct zacpi_table_ids *ids,
                                    const struct zacpi_riscv_contents *contents, uint8_t *out,
                                    size_t capacity, size_t *length);
/* Writes an RHCT of revision 1 (ACPI 6.6): an ISA String Node, whose string is filled up with one
 * or two zeros to an even length, and for each hart a Hart Info Node of it. Fails with
 * ZACPI_NO_PROCESSOR, ZACPI_TOO_LONG if isa_length is above 65525 or harts_length 2^28 or above,
 * ZACPI_BAD_NAME, ZACPI_NO_ROOM or ZACPI_TOO_LONG. */
ZACPI_STATUS zacpi_write_rhct(const struct zacpi_table_ids *ids,
                              const struct zacpi_rhct_contents *contents, uint8_t *out,
                              size_t capacity, size_t *length);
/* Writes an MCFG of these regions, in order (PCI Firmware Specification, section 4.1.2). Fails with
 * ZACPI_BAD_NAME, ZACPI_NO_ROOM or ZACPI_TOO_LONG. */
ZACPI_STATUS zacpi_write_mcfg(const struct zacpi_table_ids *ids,
                              const struct zacpi_pci_region *regions, size_t regions_length,
                              uint8_t *out, size_t capacity, size_t *length);
/* Writes an HPET of revision 1 (IA-PC HPET Specification), with registers in memory of a Register
 * Bit Width of 0. A page_protection above 3 is written as 3. Fails with ZACPI_BAD_NAME or
 * ZACPI_NO_ROOM. */
ZACPI_STATUS zacpi_write_hpet(const struct zacpi_table_ids *ids, const struct zacpi_hpet_info *info,
                              uint8_t *out, size_t capacity, size_t *length);
/* Writes a SLIT (section 5.2.17) of `localities` times `localities` distances, those from locality
 * 0 first. Fails with ZACPI_BAD_MATRIX if there are more or fewer, ZACPI_BAD_NAME, ZACPI_NO_ROOM or
 * ZACPI_TOO_LONG. */
ZACPI_STATUS zacpi_write_slit(const struct zacpi_table_ids *ids, uint64_t localities,
                              const uint8_t *distances, size_t distances_length, uint8_t *out,
                              size_t capacity, size_t *length);
/* Writes an SRAT of revision 3 (section 5.2.16): its entries kind by kind, all enabled, with a
 * Clock Domain of 0. Processors whose APIC id is below 255 get a Processor Local APIC/SAPIC
 * Affinity, others a Processor Local x2APIC Affinity. Fails with ZACPI_ID_OF_ALL, ZACPI_BAD_RANGE,
 * ZACPI_BAD_NAME, ZACPI_NO_ROOM or ZACPI_TOO_LONG. */
ZACPI_STATUS zacpi_write_srat(const struct zacpi_table_ids *ids,
                              const struct zacpi_srat_contents *contents, uint8_t *out,
                              size_t capacity, size_t *length);
/* Writes a BGRT of revision 1, 56 bytes (section 5.2.22). Fails with ZACPI_UNKNOWN_CODE if
 * `orientation` is none of its numbers, or image_type isn't 0, ZACPI_BAD_NAME or ZACPI_NO_ROOM. */
ZACPI_STATUS zacpi_write_bgrt(const struct zacpi_table_ids *ids,
                              const struct zacpi_boot_graphic *graphic, uint8_t *out,
                              size_t capacity, size_t *length);
/* Writes an SPCR of revision 4, 90 bytes, with a Language of 0, the NamespaceString "." of a port
 * with no object, and in Configured Baud Rate the rate's code, or 0 if it has none. A base, an
 * interrupt or a rate that isn't there is written as 0 and not looked at, and a rate of 0 is read
 * as none; reserved codes of interface_type, `parity` and stop_bits are written. Fails with
 * ZACPI_UNKNOWN_CODE, ZACPI_NO_ADDRESS if `base` is present at address 0, ZACPI_BAD_NAME or
 * ZACPI_NO_ROOM. */
ZACPI_STATUS zacpi_write_spcr(const struct zacpi_table_ids *ids,
                              const struct zacpi_spcr_contents *contents, uint8_t *out,
                              size_t capacity, size_t *length);
/* Writes a GTDT of revision 3 (section 5.2.24): 104 bytes, 28 for each watchdog, 20 for each GT
 * Block, and 40 for each frame, in order, with a Platform Timer Offset of 104. A virtual_el2 that
 * isn't present isn't looked at, written as zeros, and read as present; `present` of other timers
 * and platform_timers_malformed aren't looked at. Fails with ZACPI_UNKNOWN_CODE, timer after timer
 * with ZACPI_TOO_MANY_FRAMES (above 1637) or ZACPI_SAME_AS_BUS, then with ZACPI_BAD_NAME,
 * ZACPI_NO_ROOM or ZACPI_TOO_LONG. */
ZACPI_STATUS zacpi_write_gtdt(const struct zacpi_table_ids *ids,
                              const struct zacpi_gtdt_contents *contents, uint8_t *out,
                              size_t capacity, size_t *length);
/* Returns the FADT of a guest without fixed hardware, except for dsdt_address. Begin with it also
 * for other `flags`: a record of zeros is written as having C2 and C3, with latencies of 0. */
static inline struct zacpi_fixed_hardware zacpi_fadt_reduced(void) {
    struct zacpi_fixed_hardware fadt;
    size_t i;
    for (i = 0; i < sizeof fadt; i++) ((uint8_t *)&fadt)[i] = 0;
    fadt.flags = ZACPI_FADT_HW_REDUCED_ACPI;
    fadt.c2_latency = 101, fadt.c3_latency = 1001; /* neither C2 nor C3 */
    return fadt;
}
/* Writes a FADT of version 6.4, 276 bytes (section 5.2.9). An address or a block goes to its X_
 * field, and to its field of 32 bits if it fits there, a block only if it is of ports. A length in
 * bytes is the whole bytes of bit_width, of pm_timer 4, and X_GPEn_BLK from 32 bytes on has a width
 * of 255. A register is there if `present` is 1 and its address isn't 0, pm1a unless the hardware
 * is reduced, and the reset register with ZACPI_FADT_RESET_REG_SUP. What isn't there, and reduced
 * fixed hardware, is written as 0 and not looked at, and neither are `gpe0`, `gpe1`, the last three
 * fields and reserved flags. Sleep registers are read as present. Fails with ZACPI_UNKNOWN_CODE,
 * ZACPI_NO_ADDRESS if dsdt_address is 0, ZACPI_BAD_REGISTER, ZACPI_BAD_NAME or ZACPI_NO_ROOM. */
ZACPI_STATUS zacpi_write_fadt(const struct zacpi_table_ids *ids,
                              const struct zacpi_fixed_hardware *fadt, uint8_t *out,
                              size_t capacity, size_t *length);
/* Writes a FACS of version 2, 64 bytes, with a Global Lock of 0 (section 5.2.10). Fails with
 * ZACPI_NO_ROOM. */
ZACPI_STATUS zacpi_write_facs(const struct zacpi_facs_contents *contents, uint8_t *out,
                              size_t capacity, size_t *length);

/* A whole machine that is written -------------------------------------------------------------- */

struct zacpi_aml_contents {
    const uint8_t *aml; /* of what iasl compiles, which begins with a header, from + 36 on */
    zacpi_size aml_length;
    uint8_t revision;
    uint8_t reserved[7]; /* 0 */
};
struct zacpi_listed_table { /* a whole table, whoever wrote it */
    const uint8_t *bytes;
    zacpi_size length;
};
struct zacpi_machine {
    struct zacpi_table_ids ids;
    uint8_t reserved[4]; /* 0 */
    ZACPI_SLOT const struct zacpi_listed_table *tables; /* in the order of the XSDT */
    zacpi_size tables_length;
    const struct zacpi_aml_contents *dsdts;  /* the first is the DSDT, if there is one */
    zacpi_size dsdts_length;
    const struct zacpi_facs_contents *facs;  /* the first is the FACS, if there is one */
    zacpi_size facs_length;
};

/* Writes all tables of a machine, for memory from `address` on: the RSDP, after 48 bytes the XSDT,
 * the DSDT, 128 bytes with the FACS at their first multiple of 64, and the listed tables in order,
 * each table at a multiple of 16 and filled up with zeros to the next. Fails with ZACPI_BAD_TABLE
 * if a listed one has fewer than 36 bytes, a Length that isn't their number, or a sum that isn't 0,
 * ZACPI_BAD_NAME, ZACPI_TOO_LONG of the XSDT, ZACPI_HAS_HEADER of the DSDT, ZACPI_TOO_LONG,
 * ZACPI_NO_ROOM, or ZACPI_NO_ADDRESS if `address` is 0 or no multiple of 16, or the memory ends at
 * 2^64 or above. */
ZACPI_STATUS zacpi_write_tables(const struct zacpi_machine *machine, uint64_t address, uint8_t *out,
                                size_t capacity, size_t *length);
/* Writes what zacpi_write_tables writes after the RSDP's 48 bytes, with the XSDT at `address`.
 * Fails as it does. */
ZACPI_STATUS zacpi_write_tables_without_rsdp(const struct zacpi_machine *machine, uint64_t address,
                                             uint8_t *out, size_t capacity, size_t *length);
/* Returns how many bytes zacpi_write_tables writes. Fails with ZACPI_BAD_TABLE, ZACPI_BAD_NAME,
 * ZACPI_TOO_LONG of the XSDT, ZACPI_HAS_HEADER or ZACPI_TOO_LONG. */
ZACPI_STATUS zacpi_tables_size(const struct zacpi_machine *machine, size_t *length);
/* Returns the address of the DSDT that zacpi_write_tables writes for this address and this number
 * of listed tables. Fails with ZACPI_NO_ADDRESS if that is 2^64 or above, or an XSDT can't list
 * this number. */
ZACPI_STATUS zacpi_dsdt_address(uint64_t address, size_t tables_length, uint64_t *out);
/* Returns the address of the FACS that zacpi_write_tables writes for this address, this number of
 * listed tables, and the length of the first of `dsdts`, the DSDT, if there is one. A FADT has to
 * name a FACS, unless the hardware is reduced (section 5.2.9). Fails with ZACPI_NO_ADDRESS if that
 * is 2^64 or above, an XSDT can't list this number, or the DSDT would have 2^32 bytes or more. */
ZACPI_STATUS zacpi_facs_address(uint64_t address, size_t tables_length,
                                const struct zacpi_aml_contents *dsdts, size_t dsdts_length,
                                uint64_t *out);

#endif
