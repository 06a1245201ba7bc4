/* caches IMAGE START: the caches of each processor by the PPTT (section 5.2.30): of its node and of the nodes
 * above it, and after each its next levels. A cache is its offset in the table, and its size. */
#include "table.h"
#include "zacpi_tables.h"

typedef struct zacpi_raw_pptt_node_processor_hierarchy_node_structure node;
typedef struct zacpi_raw_pptt_node_cache_type_structure cache;
#define FLAG(name) ZACPI_RAW_PPTT_NODE_##name
enum { DEPTH = 8 }; /* at most */

/* The structure of a type at an offset, if it has this length: its Type and Length come first. */
static const void *structure(uint32_t offset, uint8_t type, size_t least) {
    const uint8_t *it = at(offset, 2);
    return it && offset && it[0] == type && it[1] >= least ? at(offset, it[1]) : NULL;
}
static void print_caches(const node *of) {
    uint32_t i, depth, offset;
    for (i = 0; i < of->number_of_private_resources && sizeof *of + 4 * (i + 1) <= of->length; i++) {
        const cache *it;
        memcpy(&offset, (const uint8_t *)of + sizeof *of + 4 * i, 4);
        for (depth = 0; depth < DEPTH && (it = structure(offset, 1, offsetof(cache, cache_id))); depth++) {
            if (it->flags & FLAG(CACHE_TYPE_STRUCTURE_FLAGS_SIZE_PROPERTY_VALID)) printf(" %u:%u", offset, it->size);
            offset = it->next_level_of_cache;
        }
    }
}
int main(int argc, char **argv) {
    uint32_t i, depth, up;
    size_t count;
    open_table(argc, argv, "PPTT");
    for (i = 0, count = walk_entries((struct zacpi_walk)ZACPI_WALK_PPTT); i < count; i++) {
        const node *it = structure(offsets[i], 0, sizeof *it);
        if (!it || !(it->flags & FLAG(PROCESSOR_HIERARCHY_NODE_STRUCTURE_FLAGS_ACPI_PROCESSOR_ID_VALID))) continue;
        printf("processor %u", it->acpi_processor_id);
        for (depth = 0, up = offsets[i]; depth < DEPTH && (it = structure(up, 0, sizeof *it)); depth++, up = it->parent)
            print_caches(it);
        puts("");
    }
}
