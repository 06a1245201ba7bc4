/* tpm2: writes a TPM2 (TCG ACPI Specification), a table that has no writer of its own, to standard output: its fields
 * by the struct of zacpi_tables.h, the header by zacpi_write_table. */
#include "zacpi.h"
#include "zacpi_tables.h"
#include <stdio.h>

int main(void) {
    static const struct zacpi_table_ids ids = {.oem_id = "ZACPI",
                                               .oem_table_id = "GUEST",
                                               .oem_revision = 1,
                                               .creator_id = {'Z', 'F', 'I', 'R'},
                                               .creator_revision = 1};
    struct zacpi_raw_tpm2 tpm = {{{0}, 0, 0, 0, {0}, {0}, 0, {0}, 0}, 0, 0, 0, 0, {0}, 0, 0};
    const uint8_t *body = (const uint8_t *)&tpm + sizeof tpm.header;
    uint8_t table[sizeof tpm];
    size_t length;
    zacpi_status status;
    tpm.platform_class = ZACPI_RAW_TPM2_PLATFORM_CLASS_CLIENT;
    tpm.address_of_control_area = 0xfed40040;
    tpm.start_method = ZACPI_RAW_TPM2_START_METHODS_COMMAND_RESPONSE_BUFFER;
    tpm.log_area_minimum_length_laml = 0x10000;
    tpm.log_area_start_address_lasa = 0x7ffd0000;
    status = zacpi_write_table(&ids, ZACPI_SIGNATURE("TPM2"), 4, body, sizeof tpm - sizeof tpm.header, table,
                               sizeof table, &length);
    if (status) return fprintf(stderr, "%s\n", zacpi_status_name(status)), 1;
    return fwrite(table, 1, length, stdout) != length;
}
