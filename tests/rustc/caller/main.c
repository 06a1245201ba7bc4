/* main IMAGE START..: prints what a sample image's tables contain, by caller.rs. START is as for acpi_view: rsdp ADDRESS,
 * rsdt REVISION ADDRESS, or bios. */
#include <stdint.h>
#include <stdio.h>
#include <stdlib.h>
#include <string.h>

struct region { uint64_t address; const unsigned char *bytes; size_t length; }; /* a Region of zacpi, which is repr(C) */

void show(const struct region *regions, size_t count, uint32_t start, uint64_t address, uint8_t revision);

void print(const char *text, size_t length) { fwrite(text, 1, length, stdout); }

static uint64_t number(const unsigned char *bytes) {
    uint64_t value = 0;
    for (int i = 7; i >= 0; i--) value = value << 8 | bytes[i];
    return value;
}

int main(int count, char **words) {
    static unsigned char file[1 << 22];
    static struct region regions[64];
    FILE *image = count > 2 ? fopen(words[1], "rb") : NULL;
    size_t length = image ? fread(file, 1, sizeof file, image) : 0, at = 0, many = 0;
    if (length == 0) return 2;
    while (length - at >= 16 && many < 64) {
        uint64_t size = number(file + at + 8);
        if (size > length - at - 16) return 3;
        regions[many].address = number(file + at);
        regions[many].bytes = file + at + 16;
        regions[many++].length = (size_t)size;
        at += 16 + (size_t)size;
    }
    uint64_t last = strtoull(words[count - 1], NULL, 0);
    unsigned revision = count > 4 ? (unsigned)strtoul(words[3], NULL, 0) : 0;
    if (strcmp(words[2], "rsdp") == 0) show(regions, many, 0, last, 0);
    else if (strcmp(words[2], "rsdt") == 0) show(regions, many, revision == 0 ? 1 : 2, last, (uint8_t)revision);
    else show(regions, many, 3, 0, 0);
    return 0;
}
