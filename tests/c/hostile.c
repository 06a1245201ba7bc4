/* hostile IMAGE START N COPIES: what the library answers over N damaged copies of an image, the same each time: the
 * lines of acpi_view, and after them those of every other call that reads tables. It writes the copies into the file
 * COPIES, each after its length of eight bytes, so that another caller can be asked the same. With `end` or `begin`
 * after that, each region and what is written are at pages that can't be touched (edges.h). */
#define _DEFAULT_SOURCE
#include "answers.h"
#include "damage.h"
#include "edges.h"
#include "image.h"
#include "start.h"

static void to_file(void *to, const char *bytes, size_t length) { fwrite(bytes, 1, length, (FILE *)to); }

enum { MOST = 65536 };
static struct zacpi_region regions[MOST];

static void over(const uint8_t *image, size_t length, struct zacpi_source source, const uint8_t *revision) {
    struct printer out = {to_file, NULL}, err = {to_file, NULL};
    struct zacpi_signature named = {{0}};
    zacpi_status refused;
    const char *unread = regions_of(image, length, regions, MOST, &source.regions_length);
    out.to = stdout;
    err.to = stderr;
    source.regions = unread ? regions : again_all_at_edge(regions, (size_t)source.regions_length);
    if (unread) {
        fprintf(stderr, "refused: %s\n", unread);
        return;
    }
    refused = print_lines(&source, revision, &out, &err, &named);
    if (refused) say_refused(&err, "refused", refused, &named);
    print_missing(&source);
    if (!refused) print_answers(&source);
}

int main(int argc, char **argv) {
    struct zacpi_source source = {0};
    uint8_t revision = 0, *image, *copy;
    size_t length, i;
    zacpi_size count;
    FILE *copies;
    int taken;
    take_edge(&argc, argv);
    answer_at(edge);
    print_lines_at(edge);
    taken = start_of(argc, argv, &source, &revision);
    if (!taken || argc != taken + 2) return 2;
    image = contents(argv[1], &length);
    copies = fopen(argv[taken + 1], "wb");
    copy = image ? malloc(length + 1) : NULL;
    if (!copies || !copy) return 1;
    regions_of(image, length, regions, MOST, &count); /* of one that isn't read those that come before that */
    for (i = 0; i < count; i++) find_sums(image, (size_t)(regions[i].bytes - image), regions[i].length);
    count = strtoul(argv[taken], NULL, 10);
    seed += source.address + revision; /* other copies for each start */
    for (i = 0; i < count; i++) {
        const uint64_t eight_bytes = length;
        int k;
        memcpy(copy, image, length);
        if (i) damage(copy, length); /* the first copy is as the image is */
        for (k = 0; k < 8; k++) fputc((int)(eight_bytes >> 8 * k & 0xff), copies);
        fwrite(copy, 1, length, copies);
        printf("copy %lu\n", (unsigned long)i);
        over(copy, length, source, taken == 5 ? &revision : NULL);
    }
    free(copy);
    free(image);
    return fclose(copies) ? 1 : 0;
}
