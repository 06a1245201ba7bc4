/* Rows of the calls that write a table, with each byte that they have to write, worked out by hand from the layouts.
 * For rows.c. What no record of C can say is in bindings/rust/tests/written_bytes. */
#ifndef ROWS_WRITTEN_H
#define ROWS_WRITTEN_H

#include "rows_contents.h"
#include "rows_machine.h"
#include "rows_arm.h"
#include "rows_riscv.h"
#include "rows_codes.h"
#include "rows_flags.h"
#include "rows_texts.h"
#include "rows_ports.h"
#include "rows_entries.h"

/* ---- Rows ----------------------------------------------------------------------------------------------- */

#define WRITE(verb, call, ...) \
    static zacpi_status verb(uint8_t *to, size_t room, size_t *length) \
    { return zacpi_write_##call(ids, __VA_ARGS__, to, room, length); }
WRITE(an_rsdp, rsdp, 0x0102030405060708)
WRITE(an_rsdp_to_0, rsdp, 0)
WRITE(an_rsdt, rsdt, LISTED(addresses_32))
WRITE(an_xsdt, xsdt, LISTED(addresses_64))
WRITE(a_dsdt, dsdt, 2, LISTED(code))
WRITE(an_ssdt, ssdt, 1, NONE(code))
WRITE(a_dsdt_with_a_header, dsdt, 2, LISTED(dsdt_bytes))
WRITE(an_ssdt_with_a_header, ssdt, 1, LISTED(ssdt_bytes))
WRITE(a_dsdt_of_a_cut_dsdt, dsdt, 2, dsdt_bytes, sizeof dsdt_bytes - 1)
WRITE(a_tpm2, table, tpm2, 4, LISTED(tpm2_body))
WRITE(a_bodiless_table, table, oem9, 255, NONE(tpm2_body))
WRITE(an_mcfg, mcfg, LISTED(buses))
WRITE(an_mcfg_of_none, mcfg, NONE(buses))
WRITE(an_hpet, hpet, &timers_block)
WRITE(an_unprotected_hpet, hpet, &unprotected)
WRITE(an_hpet_of_64k, hpet, &protected_64k)
WRITE(a_reserved_hpet, hpet, &reserved_protection)
WRITE(a_slit, slit, 2, LISTED(distances))
WRITE(a_slit_of_3, slit, 3, LISTED(distances))
WRITE(a_slit_of_many, slit, 0x8000000000000002, LISTED(distances))
WRITE(a_slit_of_more, slit, 0x100000000, NONE(distances))
WRITE(a_madt, madt, &whole_madt)
WRITE(a_small_madt, madt, &small_madt)
WRITE(no_processor, madt, &no_madt_processor)
WRITE(all_uids, madt, &madt_of_uid)
WRITE(all_ids, madt, &madt_of_id)
WRITE(all_lines, madt, &madt_of_line)
WRITE(bad_polarity, madt, &madt_no_polarity)
WRITE(bad_trigger, madt, &madt_no_trigger)
WRITE(bad_source_trigger, madt, &madt_no_source_trigger)
WRITE(bad_source_polarity, madt, &madt_no_source_polarity)
WRITE(bad_lint, madt, &madt_no_lint)
WRITE(bad_bus, madt, &madt_no_isa)
WRITE(bad_line_polarity, madt, &madt_no_line_polarity)
WRITE(bad_line_trigger, madt, &madt_no_line_trigger)
WRITE(a_srat, srat, &whole_srat)
WRITE(an_empty_srat, srat, &empty_srat)
WRITE(domain_of_ids, srat, &srat_of_all_ids)
WRITE(domain_of_uids, srat, &srat_of_all_uids)
WRITE(range_of_no_byte, srat, &srat_of_no_byte)
WRITE(range_past_end, srat, &srat_past_end)
WRITE(a_bgrt, bgrt, &image)
WRITE(a_bgrt_at_0, bgrt, &image_at_0)
WRITE(a_bgrt_at_180, bgrt, &image_at_180)
WRITE(a_bgrt_at_270, bgrt, &image_at_270)
WRITE(bad_45, bgrt, &image_at_45)
WRITE(bad_360, bgrt, &image_at_360)
WRITE(bad_image_type, bgrt, &no_bitmap)
WRITE(an_spcr, spcr, &gic_console)
WRITE(an_spcr_of_none, spcr, &no_console)
WRITE(a_pc_spcr, spcr, &pc_console)
WRITE(an_spcr_at_0, spcr, &console_at_0)
WRITE(bad_console_space, spcr, &console_no_space)
WRITE(bad_console_access, spcr, &console_no_access)
WRITE(bad_console_present, spcr, &console_no_present)
WRITE(bad_no_controller, spcr, &console_no_controller)
WRITE(bad_8259, spcr, &console_of_8259)
WRITE(bad_bit_5, spcr, &console_of_bit_5)
WRITE(a_gtdt, gtdt, &all_timers)
WRITE(a_gtdt_of_the_platform, gtdt, &with_platform_timers)
WRITE(a_gtdt_without_virtual_el2, gtdt, &no_virtual_el2)
WRITE(a_gtdt_of_zeros, gtdt, &virtual_el2_of_zeros)
WRITE(a_gtdt_of_no_codes, gtdt, &virtual_el2_of_no_codes)
WRITE(a_gtdt_as_the_bus, gtdt, &timers_as_bus)
WRITE(a_gic, gic_madt, &whole_gic)
WRITE(a_small_gic, gic_madt, &small_gic)
WRITE(no_interface, gic_madt, &gic_without_processor)
WRITE(long_range, gic_madt, &gic_of_long_range)
WRITE(a_riscv_madt, riscv_madt, &whole_riscv)
WRITE(no_hart, riscv_madt, &riscv_without_hart)
WRITE(an_rhct, rhct, &whole_rhct)
WRITE(an_rhct_without_isa, rhct, &rhct_without_isa)
WRITE(an_rhct_without_hart, rhct, &rhct_without_hart)
WRITE(an_rhct_of_long_isa, rhct, &rhct_of_long_isa)
WRITE(a_fadt, fadt, &pc_fadt)
WRITE(a_reduced_fadt, fadt, &reduced_fadt)
WRITE(a_reset_fadt, fadt, &reset_fadt)
WRITE(a_fadt_without_dsdt, fadt, &fadt_without_dsdt)
WRITE(a_fadt_without_pm1a, fadt, &fadt_without_pm1a)
WRITE(a_fadt_without_control, fadt, &fadt_without_control)
WRITE(a_fadt_without_reset, fadt, &fadt_without_reset)
WRITE(a_fadt_without_events, fadt, &fadt_without_events)
WRITE(a_fadt_events_at_0, fadt, &fadt_events_at_0)
WRITE(a_fadt_of_a_timer, fadt, &fadt_of_a_timer)
WRITE(a_fadt_of_7_event_bits, fadt, &fadt_of_7_event_bits)
WRITE(a_fadt_of_7_control_bits, fadt, &fadt_of_7_control_bits)
static zacpi_status a_facs(uint8_t *to, size_t room, size_t *length) {
    return zacpi_write_facs(&facs, to, room, length);
}

/* What is written, or the error, whatever room there is; and the status if a name isn't UTF-8: that error comes after
 * those of what one table is to say, and of a machine after that of bytes that aren't a table. A FACS has no names. */
struct written_row {
    const char *name;
    zacpi_status (*run)(uint8_t *to, size_t room, size_t *length);
    const uint8_t *bytes;
    size_t length;
    zacpi_status status, badly_named;
};

#include "rows_read.h"
#include "rows_more.h"
#include "rows_long.h"
#include "rows_many.h"
#include "rows_truths.h"
#include "rows_addresses.h"
#include "rows_walks.h"
#include "rows_headers.h"

static const struct written_row written[] = {
#define WRITTEN(verb, bytes) {#verb, verb, bytes, sizeof bytes, ZACPI_OK, ZACPI_BAD_NAME}
#define NOT_WRITTEN(verb, status) {#verb, verb, NULL, 0, status, status}
    WRITTEN(an_rsdp, rsdp_bytes), WRITTEN(an_rsdt, rsdt_bytes), WRITTEN(an_xsdt, xsdt_bytes),
    WRITTEN(a_dsdt, dsdt_bytes), WRITTEN(an_ssdt, ssdt_bytes), WRITTEN(a_tpm2, tpm2_bytes),
    NOT_WRITTEN(a_dsdt_with_a_header, ZACPI_HAS_HEADER), NOT_WRITTEN(an_ssdt_with_a_header, ZACPI_HAS_HEADER),
    WRITTEN(a_dsdt_of_a_cut_dsdt, cut_dsdt_bytes),
    {"a_machine_of_a_whole_dsdt", a_machine_of_a_whole_dsdt, NULL, 0, ZACPI_HAS_HEADER, ZACPI_BAD_NAME},
    WRITTEN(a_bodiless_table, bodiless_bytes), WRITTEN(an_mcfg, mcfg_bytes),
    WRITTEN(an_mcfg_of_none, no_region_bytes), WRITTEN(an_hpet, hpet_bytes),
    WRITTEN(an_unprotected_hpet, unprotected_bytes), WRITTEN(an_hpet_of_64k, protected_64k_bytes),
    WRITTEN(a_reserved_hpet, reserved_hpet_bytes), WRITTEN(a_slit, slit_bytes), WRITTEN(a_madt, madt_bytes),
    WRITTEN(a_small_madt, small_madt_bytes), WRITTEN(a_srat, srat_bytes), WRITTEN(an_empty_srat, empty_srat_bytes),
    NOT_WRITTEN(domain_of_ids, ZACPI_ID_OF_ALL), NOT_WRITTEN(domain_of_uids, ZACPI_ID_OF_ALL),
    NOT_WRITTEN(range_of_no_byte, ZACPI_BAD_RANGE), NOT_WRITTEN(range_past_end, ZACPI_BAD_RANGE),
    NOT_WRITTEN(an_rsdp_to_0, ZACPI_NO_ADDRESS), NOT_WRITTEN(a_slit_of_3, ZACPI_BAD_MATRIX),
    NOT_WRITTEN(a_slit_of_many, ZACPI_BAD_MATRIX), /* 2^63 + 2, whose square is 4 modulo 2^64 */
    NOT_WRITTEN(a_slit_of_more, ZACPI_BAD_MATRIX), /* 2^32, whose square is 0 */
    NOT_WRITTEN(no_processor, ZACPI_NO_PROCESSOR), NOT_WRITTEN(all_uids, ZACPI_ID_OF_ALL),
    NOT_WRITTEN(all_ids, ZACPI_ID_OF_ALL), NOT_WRITTEN(all_lines, ZACPI_UID_OF_ALL),
    NOT_WRITTEN(bad_polarity, ZACPI_UNKNOWN_CODE), NOT_WRITTEN(bad_trigger, ZACPI_UNKNOWN_CODE),
    NOT_WRITTEN(bad_source_trigger, ZACPI_UNKNOWN_CODE), NOT_WRITTEN(bad_source_polarity, ZACPI_UNKNOWN_CODE),
    NOT_WRITTEN(bad_lint, ZACPI_UNKNOWN_CODE), NOT_WRITTEN(bad_bus, ZACPI_UNKNOWN_CODE),
    NOT_WRITTEN(bad_line_polarity, ZACPI_UNKNOWN_CODE), NOT_WRITTEN(bad_line_trigger, ZACPI_UNKNOWN_CODE),
    WRITTEN(a_bgrt, bgrt_bytes), WRITTEN(a_bgrt_at_0, bgrt_0_bytes), WRITTEN(a_bgrt_at_180, bgrt_180_bytes),
    WRITTEN(a_bgrt_at_270, bgrt_270_bytes), NOT_WRITTEN(bad_45, ZACPI_UNKNOWN_CODE),
    NOT_WRITTEN(bad_360, ZACPI_UNKNOWN_CODE), NOT_WRITTEN(bad_image_type, ZACPI_UNKNOWN_CODE),
    WRITTEN(an_spcr, spcr_bytes), WRITTEN(an_spcr_of_none, no_spcr_bytes), WRITTEN(a_pc_spcr, pc_spcr_bytes),
    NOT_WRITTEN(an_spcr_at_0, ZACPI_NO_ADDRESS), NOT_WRITTEN(bad_console_space, ZACPI_UNKNOWN_CODE),
    NOT_WRITTEN(bad_console_access, ZACPI_UNKNOWN_CODE), NOT_WRITTEN(bad_console_present, ZACPI_UNKNOWN_CODE),
    NOT_WRITTEN(bad_no_controller, ZACPI_UNKNOWN_CODE), NOT_WRITTEN(bad_8259, ZACPI_UNKNOWN_CODE),
    NOT_WRITTEN(bad_bit_5, ZACPI_UNKNOWN_CODE),
    WRITTEN(a_fadt, fadt_bytes), WRITTEN(a_reduced_fadt, reduced_fadt_bytes),
    WRITTEN(a_reset_fadt, reset_fadt_bytes),
    {"a_facs", a_facs, facs_bytes, sizeof facs_bytes, ZACPI_OK, ZACPI_OK},
    NOT_WRITTEN(a_fadt_without_dsdt, ZACPI_NO_ADDRESS), NOT_WRITTEN(a_fadt_without_pm1a, ZACPI_BAD_REGISTER),
    NOT_WRITTEN(a_fadt_without_control, ZACPI_BAD_REGISTER), NOT_WRITTEN(a_fadt_without_reset, ZACPI_BAD_REGISTER),
    NOT_WRITTEN(a_fadt_without_events, ZACPI_BAD_REGISTER), WRITTEN(a_fadt_events_at_0, small_fadt_bytes),
    WRITTEN(a_fadt_of_a_timer, timer_fadt_bytes),
    NOT_WRITTEN(a_fadt_of_7_event_bits, ZACPI_BAD_REGISTER), NOT_WRITTEN(a_fadt_of_7_control_bits, ZACPI_BAD_REGISTER),
    WRITTEN(a_machine, machine_bytes), WRITTEN(a_tree, tree_bytes), WRITTEN(an_empty_machine, empty_machine_bytes),
    WRITTEN(a_machine_of_a_facs, facs_machine_bytes),
    WRITTEN(a_machine_of_firmware, firmware_machine_bytes), WRITTEN(a_machine_of_an_oem, oem_machine_bytes),
    NOT_WRITTEN(no_byte_listed, ZACPI_BAD_TABLE), NOT_WRITTEN(half_a_header_listed, ZACPI_BAD_TABLE),
    NOT_WRITTEN(more_bytes_listed, ZACPI_BAD_TABLE), NOT_WRITTEN(fewer_bytes_listed, ZACPI_BAD_TABLE),
    NOT_WRITTEN(a_long_length_listed, ZACPI_BAD_TABLE), NOT_WRITTEN(a_bad_sum_listed, ZACPI_BAD_TABLE),
    NOT_WRITTEN(no_table_at_first, ZACPI_BAD_TABLE),
    WRITTEN(a_gtdt, gtdt_bytes), WRITTEN(a_gtdt_without_virtual_el2, gtdt_without_virtual_el2),
    WRITTEN(a_gtdt_of_the_platform, platform_gtdt_bytes),
    WRITTEN(a_gtdt_of_zeros, gtdt_without_virtual_el2), WRITTEN(a_gtdt_of_no_codes, gtdt_without_virtual_el2),
    WRITTEN(an_arm_machine, arm_machine_bytes),
    NOT_WRITTEN(a_gtdt_as_the_bus, ZACPI_SAME_AS_BUS),
    WRITTEN(a_gic, gic_bytes), WRITTEN(a_small_gic, small_gic_bytes),
    NOT_WRITTEN(no_interface, ZACPI_NO_PROCESSOR), NOT_WRITTEN(long_range, ZACPI_BAD_RANGE),
    WRITTEN(a_riscv_madt, riscv_bytes), NOT_WRITTEN(no_hart, ZACPI_NO_PROCESSOR),
    WRITTEN(an_rhct, rhct_bytes), WRITTEN(an_rhct_without_isa, rhct_of_no_isa_bytes),
    WRITTEN(an_empty_rsdt, empty_rsdt_bytes), WRITTEN(harts, harts_alone_bytes),
    WRITTEN(two_controllers, two_of_each_bytes), WRITTEN(a_gic_of_two, two_of_a_gic_bytes),
    WRITTEN(a_gtdt_of_other_flags, other_flags_bytes), WRITTEN(a_machine_of_no_aml, no_aml_bytes),
    WRITTEN(a_machine_of_no_length, no_length_bytes), WRITTEN(a_machine_of_other_length, other_length_bytes),
    WRITTEN(an_empty_tree, empty_tree_bytes),
    {"a_facs_of_s4bios", a_facs_of_s4bios, LISTED(facs_of_s4bios_bytes), ZACPI_OK, ZACPI_OK},
    {"a_facs_of_64_bits", a_facs_of_64_bits, LISTED(facs_of_64_bits_bytes), ZACPI_OK, ZACPI_OK},
    NOT_WRITTEN(an_rhct_without_hart, ZACPI_NO_PROCESSOR), NOT_WRITTEN(an_rhct_of_long_isa, ZACPI_TOO_LONG)};

static void check_written(const struct written_row *row, size_t room, zacpi_status status) {
    const size_t size = status ? 0 : row->length;
    size_t *length = paint_size(&out_count);
    const zacpi_status got = row->run((uint8_t *)paint(&out, room), room, length);
    result(got == status && *length == (status ? UNCOUNTED : row->length)
           && (!size || !memcmp(out.at, row->bytes, size)) && is_left_but(&out, size), row->name,
           (int)(row - written), room, got);
}

/* With each room that is less than a table needs, since each part of it has an error of its own, just enough, and room
 * to spare; then with each name made of bytes that aren't UTF-8. */
static void check_all_written(void) {
    static const struct zacpi_table_ids *const not_texts[] = {&no_oem, &no_table_id, &no_creator};
    size_t i, k;
    lay_machines();
    lay_arm_machine();
    lay_dsdts();
    for (i = 0; i < sizeof written / sizeof *written; i++) {
        const struct written_row *row = written + i;
        const size_t most = row->status ? 35 : row->length;
        for (k = 0; k <= most; k++)
            check_written(row, k, row->status ? row->status : k < most ? (zacpi_status)ZACPI_NO_ROOM : ZACPI_OK);
        check_written(row, most + 40, row->status);
        for (k = 0; k < 3; k++) {
            ids = not_texts[k];
            check_written(row, row->length, row->badly_named);
            check_written(row, 0, row->badly_named ? row->badly_named : (zacpi_status)ZACPI_NO_ROOM);
            ids = &makers;
        }
    }
    check_arm_codes();
    check_gic_codes();
    check_places();
    check_facs_places();
    check_bad_tables();
    check_too_long();
    if (SIZE_MAX > UINT32_MAX) check_written_to_all(LISTED(written));
    check_ports();
    check_machine_lengths();
    check_entries_written();
    check_all_many();
    check_truths();
    /* What is written, read again: a part that writes alone has no call for it. */
    if (is_there("open")) {
        check_all_codes(), check_addresses(), check_walks(), check_headers(), check_flags(), check_rintc_lengths();
        check_texts(), check_all_read();
    }
}
#endif
