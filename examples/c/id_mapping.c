/* id_mapping IMAGE START ID: by which ids the nodes of the IORT (Arm DEN0049) know a PCI function of segment 0: its
 * root complex, an SMMU, and its ITSs. Its own is 256 times the bus, 8 times the device, and the function. */
#include "table.h"
#include "zacpi_tables.h"
typedef struct zacpi_raw_iort_node node;
typedef struct zacpi_raw_iort_mapping mapping;
static const node *node_at(uint32_t offset) {
    const node *it = at(offset, sizeof *it);
    return it && offset && it->length >= sizeof *it ? at(offset, it->length) : NULL;
}
/* The node that an id goes to, and the id there, by the first of a node's mappings that has it; 0 if none has it. A
 * mapping has one id more than its field has. */
static uint32_t next(const node *from, uint32_t *id) {
    uint32_t i, offset = from->reference_to_id_array;
    for (i = 0; i < from->number_of_id_mappings; i++, offset += sizeof(mapping)) {
        const mapping *it = (const void *)((const uint8_t *)from + offset);
        if (offset > from->length || from->length - offset < sizeof *it) return 0;
        if (*id < it->input_base || *id - it->input_base > it->number_of_ids) continue;
        *id += it->output_base - it->input_base;
        return it->output_reference;
    }
    return 0;
}
int main(int argc, char **argv) {
    const int taken = open_table(argc, argv, "IORT");
    const struct zacpi_raw_iort *iort = at(0, sizeof *iort);
    const struct zacpi_walk walk = ZACPI_WALK_IORT(iort ? iort->offset_to_array_of_iort_nodes : 0);
    const size_t count = iort ? walk_entries(walk) : 0;
    const node *it;
    uint32_t n, offset, id = argc == taken ? 0 : (uint32_t)strtoul(argv[taken], NULL, 16);
    for (n = 0; n < count && n < iort->number_of_iort_nodes; n++) {
        const struct zacpi_raw_iort_node_root_complex *root = (const void *)(it = node_at(offsets[n]));
        if (!it || it->length < sizeof *root || it->type != ZACPI_RAW_IORT_NODE_TYPE_ROOT_COMPLEX) continue;
        if (!root->pci_segment_number) break;
    }
    if (n == count || n == iort->number_of_iort_nodes || argc == taken) return 1;
    for (offset = offsets[n], n = 0; n < 4 && (it = node_at(offset)); n++, offset = next(it, &id))
        printf("node %u type %u id 0x%x\n", offset, it->type, id);
}
