/* files FILE...: the processors of a machine, by its tables in files, as Linux has them in /sys/firmware/acpi/tables,
 * of which only root reads them. Of two MADTs the first that is named counts. */
#include "zacpi_source.h"
#include <stdio.h>
#include <stdlib.h>

enum { MOST_TABLES = 256, MOST_BYTES = 4 << 20 };

/* A file's bytes, which have no address. */
static int read_table(const char *name, struct zacpi_region *table) {
    FILE *const file = fopen(name, "rb");
    uint8_t *const bytes = malloc(MOST_BYTES);
    if (!file || !bytes) return 0;
    table->address = 0;
    table->bytes = bytes;
    table->length = fread(bytes, 1, MOST_BYTES, file);
    return fclose(file) == 0;
}

static zacpi_status print_processors(const struct zacpi_source *source) {
    static const char *const states[] = {"disabled", "waiting", "running"};
    static struct zacpi_processor processors[1024];
    size_t count, i;
    zacpi_status status = zacpi_list_processors(source, processors, 1024, &count, NULL);
    if (status) return status;
    for (i = 0; i < count && i < 1024; i++)
        printf("processor %u %u %s\n", processors[i].uid, processors[i].local_apic_id, states[processors[i].state]);
    return ZACPI_OK;
}

int main(int argc, char **argv) {
    static struct zacpi_region regions[MOST_TABLES + 1]; /* one more for the root table */
    static uint8_t xsdt[36 + 8 * MOST_TABLES];
    struct zacpi_source source = {NULL, 0, 0, 0, ZACPI_ACCEPT_SUMS | ZACPI_ACCEPT_IDS};
    const size_t count = argc > 0 ? (size_t)argc - 1 : 0;
    zacpi_status status;
    size_t i;
    for (i = 0; i < count && i < MOST_TABLES; i++)
        if (!read_table(argv[i + 1], &regions[i])) return fprintf(stderr, "can't read %s\n", argv[i + 1]), 1;
    status = zacpi_source_of_tables(regions, count, MOST_TABLES + 1, xsdt, sizeof xsdt, &source);
    if (!status) status = print_processors(&source);
    if (status) return fprintf(stderr, "%s\n", zacpi_status_name(status)), 1;
    return 0;
}
