/* blocks IMAGE START: the blocks of AML, in the order in which an interpreter takes them. */
#include "image.h"
#include "start.h"

static void load_block(const uint8_t *aml, uint32_t length, uint8_t revision) {
    printf("block from 0x%02x on bytes %u revision %u\n", length ? aml[0] : 0, length, revision);
}

/* Passes each block to the interpreter, with the DSDT's revision, which is that of all. */
static zacpi_status load_blocks(const struct zacpi_source *source) {
    struct zacpi_aml_table blocks[256];
    size_t ssdts = 0;
    zacpi_status status = zacpi_get_dsdt(source, blocks, NULL);
    if (!status) status = zacpi_list_ssdts(source, blocks + 1, 255, &ssdts, NULL);
    for (size_t i = 0; !status && i <= ssdts && i < 256; i++) {
        const struct zacpi_table block = {.address = blocks[i].address, .length = blocks[i].length};
        load_block(zacpi_table_bytes(source->regions, source->regions_length, &block), block.length,
                   blocks[0].revision);
    }
    return status;
}

int main(int argc, char **argv) {
    static struct zacpi_region regions[1024];
    struct zacpi_source source = {regions, 0, 0, ZACPI_START_RSDP, 0};
    uint8_t revision;
    size_t length = 0;
    const uint8_t *image = start_of(argc, argv, &source, &revision) ? contents(argv[1], &length) : NULL;
    if (!image || regions_of(image, length, regions, 1024, &source.regions_length)) return 2;
    return load_blocks(&source) ? 1 : 0;
}
