/* domains MADT SRAT: the processors of a machine and the domain of each, by these tables in files, of any number
 * with 64 places for each list. */
#include "zacpi_source.h"
#include <stdio.h>
#include <stdlib.h>

enum { PLACES = 64, MOST_BYTES = 4 << 20 };

/* Prints some processors, each with its domain: one pass over all affinities, of which the last of a processor counts,
 * where zacpi_domain_of_apic would open the tables for each processor. */
static zacpi_status print_some(const struct zacpi_source *source, const struct zacpi_processor *some, size_t length) {
    struct zacpi_processor_affinity near[PLACES];
    uint32_t domains[PLACES] = {0};
    int has_domain[PLACES] = {0};
    size_t from, count = 1, i, k;
    for (from = 0; from < count; from += PLACES) {
        zacpi_status status = zacpi_list_processor_affinities_from(source, from, near, PLACES, &count, NULL);
        if (status) return status;
        for (k = 0; k < PLACES && from + k < count; k++)
            for (i = 0; i < length; i++)
                if (near[k].entry_type != 3 && near[k].id == some[i].local_apic_id)
                    domains[i] = near[k].domain, has_domain[i] = 1;
    }
    for (i = 0; i < length; i++)
        if (has_domain[i]) printf("processor %u domain %u\n", some[i].local_apic_id, domains[i]);
        else printf("processor %u no domain\n", some[i].local_apic_id);
    return ZACPI_OK;
}

static zacpi_status print_domains(const struct zacpi_source *source) {
    struct zacpi_processor some[PLACES];
    size_t from, count = 1;
    for (from = 0; from < count; from += PLACES) {
        zacpi_status status = zacpi_list_processors_from(source, from, some, PLACES, &count, NULL);
        if (!status) status = print_some(source, some, count - from < PLACES ? count - from : PLACES);
        if (status) return status;
    }
    return ZACPI_OK;
}

int main(int argc, char **argv) {
    static struct zacpi_region regions[3]; /* of two tables, and one more for the root table */
    static uint8_t xsdt[36 + 8 * 2];
    struct zacpi_source source = {NULL, 0, 0, 0, ZACPI_ACCEPT_SUMS | ZACPI_ACCEPT_IDS};
    zacpi_status status;
    int i;
    if (argc != 3) return fputs("usage: domains MADT SRAT\n", stderr), 2;
    for (i = 0; i < 2; i++) {
        FILE *const file = fopen(argv[i + 1], "rb");
        uint8_t *const bytes = malloc(MOST_BYTES);
        if (!file || !bytes) return fprintf(stderr, "can't read %s\n", argv[i + 1]), 1;
        regions[i].bytes = bytes;
        regions[i].length = fread(bytes, 1, MOST_BYTES, file);
        fclose(file);
    }
    status = zacpi_source_of_tables(regions, 2, 3, xsdt, sizeof xsdt, &source);
    if (!status) status = print_domains(&source);
    if (status) return fprintf(stderr, "%s\n", zacpi_status_name(status)), 1;
    return 0;
}
