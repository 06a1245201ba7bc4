/* SPDX-License-Identifier: MIT */
/* The library in one unit with its caller, as SeaBIOS compiles all its files: after headers whose macros have other
 * names' words (macros.h) and that leave another packing open, and before code that still needs both. It reads memory
 * from the RSDP at 0x70000000 on, and prints the processors and the PM timer's port. */
#include <stddef.h>
#include <stdint.h>
#include <stdio.h>
#include "macros.h"
#pragma pack(1)
#include "zacpi_map.h"
#include "zacpi_source.h"
#include "zacpi_tables.h"
#include "zacpi.c"

/* The macros, and the packing, as they were. */
struct own {
    char letter;
    int number;
};
typedef char packing_is_open[sizeof(struct own) == 5 ? 1 : -1];
typedef char macros_are_there[AT && COLD && INLINE && IS_ALIGNED(16, 8) && ENTRY(1) ? 1 : -1];
static size_t own_memset(void *to, int byte, size_t count) { return to && !byte ? count : 0; }

static uint8_t bytes[65536];

int main(void) {
    struct zacpi_region region = {0x70000000, bytes, 0};
    struct zacpi_source source = {NULL, 1, 0x70000000, ZACPI_START_RSDP, 0};
    struct zacpi_processor processors[64];
    struct zacpi_fixed_hardware fadt;
    size_t count;
    region.length = fread(bytes, 1, sizeof bytes, stdin);
    source.regions = &region;
    if (memset(bytes, 0, 3) != 3 || zacpi_list_processors(&source, processors, 64, &count, NULL)) return 1;
    if (zacpi_get_fixed_hardware(&source, &fadt, NULL)) return 1;
    printf("%u processors\n", (unsigned)count);
    if (fadt.pm_timer.present == 1)
        printf("timer 0x%x in space %d\n", (unsigned)fadt.pm_timer.at.address, fadt.pm_timer.at.space);
    return 0;
}
