/* show IMAGE rsdt REVISION ADDRESS | rsdp ADDRESS | bios: what acpi_view prints, through the library. */
#include "image.h"
#include "lines.h"
#include "start.h"

static void to_file(void *to, const char *bytes, size_t length) { fwrite(bytes, 1, length, (FILE *)to); }

int main(int argc, char **argv) {
    static struct zacpi_region regions[65536];
    struct printer out = {to_file, NULL}, err = {to_file, NULL};
    struct zacpi_signature named = {{0}};
    struct zacpi_source source = {regions, 0, 0, ZACPI_START_BIOS_SEARCH, 0};
    uint8_t *image, revision = 0;
    const uint8_t *given; /* a root table has no revision of an RSDP, so the one that is given is printed */
    const char *unread;
    size_t length = 0;
    zacpi_status refused;
    out.to = stdout;
    err.to = stderr;
    if (start_of(argc, argv, &source, &revision) != argc) {
        fputs("usage: show IMAGE rsdt REVISION ADDRESS | rsdp ADDRESS | bios\n", stderr);
        return 2;
    }
    given = argc == 5 ? &revision : NULL;
    image = contents(argv[1], &length);
    if (!image) return fputs("refused: Unreadable\n", stderr), 1;
    unread = regions_of(image, length, regions, sizeof regions / sizeof *regions, &source.regions_length);
    if (unread) return fprintf(stderr, "refused: %s\n", unread), 1;
    refused = print_lines(&source, given, &out, &err, &named);
    if (refused) say_refused(&err, "refused", refused, &named);
    free(image);
    return refused ? 1 : 0;
}
