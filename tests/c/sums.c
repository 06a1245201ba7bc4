/* sums LENGTH: lists one table of so many bytes, at most 2^20, and ends with status 1 if it isn't found. Whoever counts
 * instructions sees by two lengths what a byte costs; this program itself looks at none. */
#include "zacpi.h"
#include <stdlib.h>
#include <string.h>

static unsigned char root[40], table[1 << 20]; /* the bytes after a header are 0 */

/* A header of 36 bytes in ASCII, and a sum of 0 with four bytes more. */
static void begin(unsigned char *at, const char *name, size_t length, unsigned char more) {
    unsigned char sum = more;
    int i;
    memcpy(at, name, 4);
    for (i = 0; i < 4; i++) at[4 + i] = (unsigned char)(length >> (8 * i));
    for (i = 0; i < 36; i++) sum = (unsigned char)(sum + at[i]);
    at[9] = (unsigned char)(0 - sum);
}

int main(int count, char **words) {
    const size_t length = count == 2 ? strtoul(words[1], NULL, 10) : 36;
    const struct zacpi_region regions[2] = {{0x1000, root, sizeof root}, {0x100000, table, sizeof table}};
    const struct zacpi_source source = {regions, 2, 0x1000, ZACPI_START_RSDT, 0};
    struct zacpi_table found;
    struct zacpi_signature named;
    size_t tables = 0;
    if (length < 36 || length > sizeof table) return 1;
    root[38] = 0x10; /* the table's address, 0x100000 */
    begin(root, "RSDT", sizeof root, root[38]);
    begin(table, "SSDT", length, 0);
    return zacpi_list_tables(&source, &found, 1, &tables, &named) || tables != 1 || found.length != length;
}
