/* tpm_log IMAGE START: where the log of a TPM is, by the TPM2 (TCG ACPI Specification), which an older one may not
 * have. */
#include "table.h"
#include "zacpi_tables.h"

int main(int argc, char **argv) {
    const struct zacpi_raw_tpm2 *tpm;
    open_table(argc, argv, "TPM2");
    tpm = (const void *)bytes;
    if (!ZACPI_RAW_HAS(zacpi_raw_tpm2, log_area_start_address_lasa, table.length) || !tpm->log_area_start_address_lasa)
        return puts("no log"), 0;
    printf("log 0x%llx bytes %u\n", (unsigned long long)tpm->log_area_start_address_lasa,
           tpm->log_area_minimum_length_laml);
    return 0;
}
