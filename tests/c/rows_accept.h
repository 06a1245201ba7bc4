/* What rows.c expects of tables that aren't valid, by the bits of `accept`: worked out by hand from
 * rows_tables_accept.h. */
#ifndef ROWS_ACCEPT_H
#define ROWS_ACCEPT_H

#define SUMS ZACPI_ACCEPT_SUMS
#define IDS ZACPI_ACCEPT_IDS
#define BOTH (ZACPI_ACCEPT_SUMS | ZACPI_ACCEPT_IDS)
/* The one processor of a MADT, which is the boot processor. */
#define ONLY(bits, uid, id) {bits, GOOD(list_processors, FLAWED, NULL, NO, 1, uid, id, 2, 1, 0, 0)}
#define SECOND(bits, madt, ...) \
    {bits, GOOD(find_nth_table, FLAWED, "APIC", A(1), 1, AT(madt), 52, LETTERS('A', 'P', 'I', 'C'), 5, __VA_ARGS__)}
#define MISSING(bits, call, machine, named) {bits, REFUSED(call, machine, NULL, NO, ZACPI_TABLE_MISSING, named)}
#define SHORT AT(MADT_43), ZACPI_SDT_INVALID_LENGTH, 0
/* The members of FLAWED: to be a table the first is long enough. */
#define MADT_MEMBER(madt, oem_id, oem_table_id, status) \
    AT(madt), 52, LETTERS('A', 'P', 'I', 'C'), 5, oem_id, oem_table_id, 0, 0, 0, status, 1
#define EACH(bits, of_both, of_oem_id, of_table_id, of_sum) \
    {bits, GOOD(list_members, FLAWED, NULL, NO, 6, AT(MADT_43), 43, LETTERS('A', 'P', 'I', 'C'), 1, NO_IDS, 0, 1, \
                MADT_MEMBER(MADT_BOTH, 0xff, 0, of_both), MADT_MEMBER(MADT_OEM_ID, 0xff, 0, of_oem_id), \
                MADT_MEMBER(MADT_TABLE_ID, 0, 0xff, of_table_id), MADT_MEMBER(MADT_SUM, 0, 0, of_sum), \
                MADT_MEMBER(MADT_VALID, 0, 0, 0))}

static const struct {
    uint32_t accept;
    struct row row;
} accept_rows[] = {
    /* Whatever is accepted, a table that is too short is skipped. */
    ONLY(0, 5, 15), ONLY(SUMS, 4, 14), ONLY(IDS, 2, 12), ONLY(BOTH, 1, 11),
    SECOND(0, MADT_VALID, NO_IDS), SECOND(SUMS, MADT_SUM, NO_IDS), SECOND(IDS, MADT_OEM_ID, 0xff, 0, 0, 0, 0),
    SECOND(BOTH, MADT_BOTH, 0xff, 0, 0, 0, 0),
    {0, GOOD(list_faults, FLAWED, "APIC", NO, 5, SHORT, AT(MADT_BOTH), ZACPI_SDT_INVALID_OEM_ID, 0,
             AT(MADT_OEM_ID), ZACPI_SDT_INVALID_OEM_ID, 0, AT(MADT_TABLE_ID), ZACPI_SDT_INVALID_TABLE_ID, 0,
             AT(MADT_SUM), ZACPI_SDT_INVALID_CHECKSUM, 0)},
    {SUMS, GOOD(list_faults, FLAWED, "APIC", NO, 5, SHORT, AT(MADT_BOTH), ZACPI_SDT_INVALID_OEM_ID, 0,
                AT(MADT_OEM_ID), ZACPI_SDT_INVALID_OEM_ID, 0, AT(MADT_TABLE_ID), ZACPI_SDT_INVALID_TABLE_ID, 0,
                AT(MADT_SUM), ZACPI_SDT_INVALID_CHECKSUM, 1)},
    {IDS, GOOD(list_faults, FLAWED, "APIC", NO, 3, SHORT, AT(MADT_BOTH), ZACPI_SDT_INVALID_CHECKSUM, 0,
               AT(MADT_OEM_ID), ZACPI_SDT_INVALID_OEM_ID, 1)},
    {BOTH, GOOD(list_faults, FLAWED, "APIC", NO, 2, SHORT, AT(MADT_BOTH), ZACPI_SDT_INVALID_OEM_ID, 1)},
    EACH(0, ZACPI_SDT_INVALID_OEM_ID, ZACPI_SDT_INVALID_OEM_ID, ZACPI_SDT_INVALID_TABLE_ID, ZACPI_SDT_INVALID_CHECKSUM),
    EACH(SUMS, ZACPI_SDT_INVALID_OEM_ID, ZACPI_SDT_INVALID_OEM_ID, ZACPI_SDT_INVALID_TABLE_ID, 0),
    EACH(IDS, ZACPI_SDT_INVALID_CHECKSUM, 0, 0, ZACPI_SDT_INVALID_CHECKSUM), EACH(BOTH, 0, 0, 0, 0),
    {0, GOOD(list_ranges, FLAWED, NULL, NO, 3, AT(FLAWED), 60, AT(MADT_43), 43, AT(MADT_VALID), 52)},
    {BOTH, GOOD(list_ranges, FLAWED, NULL, NO, 7, AT(FLAWED), 60, AT(MADT_43), 43, AT(MADT_BOTH), 52,
                AT(MADT_OEM_ID), 52, AT(MADT_TABLE_ID), 52, AT(MADT_SUM), 52, AT(MADT_VALID), 52)},

    /* What a FADT leads to is accepted as a member is; a FACS has neither a sum nor ids. */
    MISSING(0, get_dsdt, LED_BY_SUMS, "FACP"), MISSING(IDS, get_dsdt, LED_BY_SUMS, "FACP"),
    {SUMS, REFUSED(get_dsdt, LED_BY_SUMS, NULL, NO, ZACPI_SDT_INVALID_TABLE_ID, "DSDT")},
    {BOTH, GOOD(get_dsdt, LED_BY_SUMS, NULL, NO, 1, AT(DSDT_TABLE_ID) + 36, 4, 2, AT(DSDT_TABLE_ID))},
    MISSING(0, get_dsdt, LED_BY_IDS, "FACP"), MISSING(SUMS, get_dsdt, LED_BY_IDS, "FACP"),
    {IDS, REFUSED(get_dsdt, LED_BY_IDS, NULL, NO, ZACPI_SDT_INVALID_CHECKSUM, "DSDT")},
    {BOTH, GOOD(get_dsdt, LED_BY_IDS, NULL, NO, 1, AT(DSDT_SUM) + 36, 11, 1, AT(DSDT_SUM))},
    MISSING(0, get_facs, LED_BY_SUMS, "FACP"),
    {SUMS, GOOD(get_facs, LED_BY_SUMS, NULL, NO, 1, AT(FACS), 0x123456789abcdef, 64, 0x11223344, 0x55667788,
                0x8d7c6b03, 2)},
    {BOTH, REFUSED(get_facs, LED_BY_IDS, NULL, NO, ZACPI_SDT_INVALID_LENGTH, "FACS")},
    MISSING(IDS, get_pm_timer, LED_BY_SUMS, "FACP"),
    {SUMS, GOOD(get_pm_timer, LED_BY_SUMS, NULL, NO, 1, ABSENT, 0)},
    MISSING(IDS, get_interrupt_model, LED_BY_SUMS, "FACP"),
    {SUMS, GOOD(get_interrupt_model, LED_BY_SUMS, NULL, NO, 1, 0, 0, 0, 0, 0, 0, 0, 0)}, /* there is no MADT */
    {BOTH, GOOD(get_interrupt_model, LED_BY_SUMS, NULL, NO, 1, 0, 0, 0, 0, 0, 1, 1, 0)},
    MISSING(SUMS, get_sci_interrupt, LED_BY_SUMS, "APIC"), MISSING(IDS, get_sci_interrupt, LED_BY_SUMS, "FACP"),
    {BOTH, GOOD(get_sci_interrupt, LED_BY_SUMS, NULL, NO, 1, 9, ZACPI_POLARITY_LOW, ZACPI_TRIGGER_LEVEL)},
    {0, REFUSED(get_sleep_types, LED_BY_IDS, NULL, A(5), ZACPI_TABLE_MISSING, "FACP")},
    {IDS, REFUSED(get_sleep_types, LED_BY_IDS, NULL, A(5), ZACPI_SDT_INVALID_CHECKSUM, "DSDT")},
    {BOTH, GOOD(get_sleep_types, LED_BY_IDS, NULL, A(5), 1, 5, 1)},
    {IDS, REFUSED(get_sleep_types, LED_BY_SUMS, NULL, A(5), ZACPI_TABLE_MISSING, "FACP")},
    {SUMS, GOOD(get_sleep_types, LED_BY_SUMS, NULL, A(5), 1, 6, 1)}, /* by the SSDT */
    {0, NOTHING(list_ssdts, LED_BY_SUMS)},
    {SUMS, GOOD(list_ssdts, LED_BY_SUMS, NULL, NO, 1, AT(SSDT_SUM) + 36, 11, 1, AT(SSDT_SUM))},
    MISSING(IDS, get_hpet, LED_BY_SUMS, "HPET"), {IDS, NOTHING(list_hpets, LED_BY_SUMS)},
    {SUMS, GOOD(get_hpet, LED_BY_SUMS, NULL, NO, 1, HPET_OF_ZEROS(0xfed40000))},
    {SUMS, GOOD(list_hpets, LED_BY_SUMS, NULL, NO, 1, HPET_OF_ZEROS(0xfed40000))},
    /* An OEMID that isn't UTF-8, with a bad sum and without. */
    MISSING(0, get_hpet, HPET_IDS_ONLY, "HPET"), MISSING(SUMS, get_hpet, HPET_IDS_ONLY, "HPET"),
    {IDS, GOOD(get_hpet, HPET_IDS_ONLY, NULL, NO, 1, HPET_OF_ZEROS(0xfed50000))},
    {BOTH, GOOD(get_hpet, HPET_IDS_ONLY, NULL, NO, 1, HPET_OF_ZEROS(0xfed60000))},
    {SUMS, NOTHING(list_hpets, HPET_IDS_ONLY)},
    {IDS, GOOD(list_hpets, HPET_IDS_ONLY, NULL, NO, 1, HPET_OF_ZEROS(0xfed50000))},
    {BOTH, GOOD(list_hpets, HPET_IDS_ONLY, NULL, NO, 2, HPET_OF_ZEROS(0xfed60000), HPET_OF_ZEROS(0xfed50000))},
    {0, NOTHING(list_tables, LED_BY_SUMS)},
    {IDS, GOOD(list_tables, LED_BY_SUMS, NULL, NO, 1, AT(MADT_TABLE_ID), 52, LETTERS('A', 'P', 'I', 'C'), 5, 0, 0xff,
               0, 0, 0)},
    {0, GOOD(list_ranges, LED_BY_SUMS, NULL, NO, 1, AT(LED_BY_SUMS), 52)},
    {SUMS, GOOD(list_ranges, LED_BY_SUMS, NULL, NO, 5, AT(LED_BY_SUMS), 52, AT(FADT_SUM), 116, AT(SSDT_SUM), 47,
                AT(HPET_SUM), 56, AT(FACS), 64)},
    {BOTH, GOOD(list_ranges, LED_BY_IDS, NULL, NO, 3, AT(LED_BY_IDS), 44, AT(FADT_OEM_ID), 116, AT(DSDT_SUM), 47)},
    /* Of a table that is accepted all bytes are needed. */
    {0, NOTHING(list_missing_ranges, LED_BY_IDS)}, {SUMS, NOTHING(list_missing_ranges, LED_BY_IDS)},
    {IDS, GOOD(list_missing_ranges, LED_BY_IDS, NULL, NO, 1, AT(MADT_LOST), SIZE)},

    /* A root table is accepted as what it lists is, and an RSDP isn't by these bits. */
    {SUMS, GOOD(open, SUM, NULL, NO, 1, AT(SUM), 56, 0, 4, 0, 0)},
    {BOTH, GOOD(open, RSDP_TO_SUM, NULL, NO, 1, AT(SUM), 56, 0, 4, AT(RSDP_TO_SUM), 20)},
    {IDS, REFUSED(open, RSDP_TO_SUM, NULL, NO, ZACPI_SDT_INVALID_CHECKSUM, "RSDT")},
    {SUMS, GOOD(list_ranges, SUM, NULL, NO, 6, AT(SUM), 56, AT(MADT_GIC), 346, AT(GTDT), 260, AT(SRAT), 274,
                AT(SLIT), 48, AT(MCFG), 108)},
    {SUMS, NOTHING(list_missing_ranges, SUM)},
    {0, REFUSED(open, ROOT_OEM_ID, NULL, NO, ZACPI_SDT_INVALID_OEM_ID, "RSDT")},
    {SUMS, REFUSED(open, ROOT_OEM_ID, NULL, NO, ZACPI_SDT_INVALID_OEM_ID, "RSDT")},
    {IDS, GOOD(open, ROOT_OEM_ID, NULL, NO, 1, AT(ROOT_OEM_ID), 40, 0, 4, 0, 0)},
    {IDS, GOOD(list_processors, ROOT_OEM_ID, NULL, NO, 1, 2, 12, 2, 1, 0, 0)},
    {BOTH, REFUSED(open, RSDP_SHORT, NULL, NO, ZACPI_RSDP_INVALID_CHECKSUM, NULL)},
    {SUMS, NOTHING(list_missing_ranges, ROOT_LONG)}, {IDS, REFUSED(open, ROOT_LONG, NULL, NO, ZACPI_MAP_FAILED, NULL)},
    {IDS, GOOD(list_missing_ranges, ROOT_LONG, NULL, NO, 1, AT(ROOT_LONG), SIZE)},
    {BOTH, GOOD(list_missing_ranges, RSDP_LOST, NULL, NO, 1, 0x300000000, 36)},
    {BOTH, GOOD(list_missing_ranges, RSDP_LONG, NULL, NO, 1, AT(RSDP_LONG), SIZE)}};
#endif
