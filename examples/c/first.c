#include "zacpi.h"
#include <stdio.h>

// Counts the processors, by the tables in 64 KiB of memory from the RSDP at 0x70000000 on.
int main(void) {
    static uint8_t bytes[65536]; // in a kernel: where it has mapped the firmware's tables
    struct zacpi_region region = {0x70000000, bytes, fread(bytes, 1, sizeof bytes, stdin)};
    // As Linux does, since firmware errs in sums and ids; a guest or a measured boot passes 0.
    const uint32_t accept = ZACPI_ACCEPT_SUMS | ZACPI_ACCEPT_IDS;
    struct zacpi_source source = {&region, 1, region.address, ZACPI_START_RSDP, accept};
    struct zacpi_processor processors[64];
    size_t count;
    zacpi_status status = zacpi_list_processors(&source, processors, 64, &count, NULL);
    if (status) return printf("%s\n", zacpi_status_name(status)), 1;
    return printf("%zu processors\n", count), 0;
}
