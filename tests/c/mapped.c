/* mapped IMAGE rsdt REVISION ADDRESS N | rsdp ADDRESS N | bios N: whether zacpi_map_tables leads to the answers over
 * the whole memory of an image, and of N copies of it of which some bytes are changed and a part is missing, the same
 * each time. `bios` tries both searches.
 * mapped: whether the machines of mapped_rows.h are mapped as they have to be.
 * With `end` or `begin` as the last word, what is mapped, the whole memory, the lists of both and what calls write are
 * at pages that can't be touched. */
#define _DEFAULT_SOURCE
#include "chance.h"
#include "image.h"
#include "start.h"
#include "mapped_rows.h"

/* The memory: the pages of the image's records, zeros around the records, and those that touch as one. There is what of
 * it isn't missing. */
static struct zacpi_region records[MOST], memory[MOST], there[MOST + 1];
static zacpi_size records_count;
static size_t memory_count, there_count;
static uint8_t *bytes;

/* What calls of the library say: of each its status, then what it wrote. */
static struct said {
    zacpi_status status[10];
    struct zacpi_signature named[10];
    size_t count[10];
    struct zacpi_root root;
    struct zacpi_aml_table dsdt, ssdts[16];
    struct zacpi_hpet_info hpet;
    struct zacpi_table tables[64], fadt;
    struct zacpi_fault faults[64];
    struct zacpi_range ranges[64], missing[64];
    struct zacpi_processor processors[64];
} over_all, over_mapped;

/* A call: its outputs are at the edge (edges.h), painted, and then kept. */
#define ASK(n, to, CALL, ...) \
    do { \
        void *const at = painted_again(0, sizeof said->to); \
        struct zacpi_signature *const named = (struct zacpi_signature *)painted_again(1, sizeof *named); \
        size_t *const count = (size_t *)painted_again(2, sizeof *count); \
        said->status[n] = CALL(source, __VA_ARGS__, named); \
        memcpy(&said->to, at, sizeof said->to); \
        said->named[n] = *named, said->count[n] = *count; \
    } while (0)

static void ask(const struct zacpi_source *source, struct said *said) {
    const struct zacpi_signature facp = {{'F', 'A', 'C', 'P'}};
    ASK(0, root, zacpi_open, at);
    ASK(1, dsdt, zacpi_get_dsdt, at);
    ASK(2, hpet, zacpi_get_hpet, at);
    ASK(3, fadt, zacpi_find_table, facp, at);
    ASK(4, ssdts, zacpi_list_ssdts, at, 16, count);
    ASK(5, tables, zacpi_list_tables, at, 64, count);
    ASK(6, faults, zacpi_list_faults, facp, at, 64, count);
    ASK(7, ranges, zacpi_list_ranges, at, 64, count);
    ASK(8, missing, zacpi_list_missing_ranges, at, 64, count);
    ASK(9, processors, zacpi_list_processors, at, 64, count);
}
static int same(void) { return memcmp(&over_all, &over_mapped, sizeof over_all) == 0; }

/* Whether something was unmapped that isn't in a region, before all is. After a search its areas are. */
static int was_lost;

/* Whether each table that was found over what is mapped is one of all memory, by the same root table: the first ones
 * are, if there was no room for others. */
static int are_among(void) {
    size_t i, k;
    if (over_mapped.status[0] || over_all.status[0] || memcmp(&over_mapped.root, &over_all.root, sizeof over_all.root))
        return over_mapped.status[0] == over_all.status[0];
    for (i = 0; i < over_mapped.count[5] && i < 64; i++) {
        for (k = 0; k < over_all.count[5] && k < 64; k++)
            if (!memcmp(&over_mapped.tables[i], &over_all.tables[k], sizeof over_all.tables[k])) break;
        if (over_all.count[5] <= 64 && k == over_all.count[5]) return 0;
    }
    return over_mapped.count[5] <= over_all.count[5];
}

/* One run, with so much room. Nothing is mapped in the end, and nothing is written past the room. */
static zacpi_status run(struct zacpi_source source, size_t capacity, size_t room) {
    const struct zacpi_source found = after_search(source);
    const int searches = is_search(&source);
    struct zacpi_mapper mapper = {&mapped, map, unmap, 0};
    zacpi_status status;
    size_t i;
    if (unit != PAGE) mapper.page = unit;
    mapped_most = 0;
    is_searching = searches;
    are_kept = room == MOST;
    source.regions_length = 0;
    make_lists(capacity, room);
    if (edge != AT_END) regions[capacity].length = ranges[room].length = 12345;
    status = zacpi_map_tables(&mapper, &source, regions, capacity, ranges, room);
    was_lost = 0;
    for (i = 0; i < mapped_count && !searches; i++) was_lost |= !is_held(mapped[i].address, mapped[i].length);
    if (edge != AT_END && (regions[capacity].length != 12345 || ranges[room].length != 12345))
        end("something is written past the room");
    if (mapped_now != source.regions_length) end("more is mapped than there are regions");
    if (status != ZACPI_OK && mapped_now) end("an error, and something is mapped");
    if (mapped_now > mapped_most) mapped_most = mapped_now;
    for (i = 1; i < source.regions_length; i++)
        if (regions[i - 1].address + regions[i - 1].length >= regions[i].address) end("two regions touch");
    if (status == ZACPI_OK && (source.start != found.start || source.address != found.address)) end("another RSDP");
    if (status == ZACPI_OK) ask(&source, &over_mapped);
    zacpi_unmap_tables(&mapper, &source);
    if (mapped_now || source.regions_length) end("something is mapped in the end");
    forget();
    return status;
}
static int agrees(const struct zacpi_source *over) {
    const struct zacpi_source found = after_search(*over);
    size_t most, room;
    ask(&found, &over_all);
    if (run(*over, MOST, MOST) != ZACPI_OK) return wrong("no answer");
    if (!same()) return wrong("other answers than over the whole memory");
    if (was_lost) return wrong("memory was unmapped that isn't in a region");
    most = mapped_most;
    if (run(*over, most, MOST) != ZACPI_OK || !same() || was_lost) return wrong("as many regions as it takes");
    for (room = most; room > 0; room = room > 2 ? 2 : 0) {
        const zacpi_status status = run(*over, room - 1, MOST);
        if (status != ZACPI_NO_ROOM && !(status == ZACPI_OK && are_among())) return wrong("few regions");
    }
    for (room = 0; room < 4; room++) {
        const zacpi_status status = run(*over, MOST, room);
        if (status != ZACPI_NO_ROOM && !(status == ZACPI_OK && (room ? same() : are_among())))
            return wrong("few ranges");
    }
    if (is_search(over)) return 1;
    return run(*over, MOST, 8) == ZACPI_OK && same() ? 1 : wrong("eight ranges");
}

/* Changes one to four bytes of the records, and then as many bytes at the same places. */
static void damage(uint8_t *places[4], uint8_t was[4], size_t count) {
    size_t i;
    for (i = 0; i < count; i++) {
        const struct zacpi_region *record = &records[below(records_count)];
        /* Most of it in the first bytes, where headers and pointers are. */
        const size_t reach = below(2) && record->length > 64 ? 64 : record->length;
        size_t k;
        for (k = 0; k + 1 < memory_count && memory[k + 1].address <= record->address; k++) continue;
        places[i] = (uint8_t *)memory[k].bytes + (record->address - memory[k].address) + below(reach);
        was[i] = *places[i];
        *places[i] = (uint8_t)below(256);
    }
}

/* What is there, without `length` bytes at a place. */
static void without(size_t region, uint64_t offset, uint64_t length) {
    size_t i;
    there_count = 0;
    for (i = 0; i < memory_count; i++) {
        there[there_count] = memory[i];
        if (i == region) {
            there[there_count].length = (size_t)offset;
            if (offset) there_count++;
            offset += length;
            if (offset == memory[i].length) continue;
            there[there_count].address = memory[i].address + offset;
            there[there_count].bytes = memory[i].bytes + offset;
            there[there_count].length = memory[i].length - (size_t)offset;
        }
        there_count++;
    }
}

/* Lays the records out in pages. */
static int lay_out(void) {
    size_t i, size = 0;
    for (i = 0; i < records_count; i++) {
        const uint64_t low = records[i].address / PAGE * PAGE, last = records[i].address + records[i].length;
        const uint64_t high = last + (PAGE - last % PAGE) % PAGE;
        struct zacpi_region *before = memory_count ? &memory[memory_count - 1] : NULL;
        if (high < last) return 0;
        if (before && low <= before->address + before->length) before->length = (size_t)(high - before->address);
        else {
            memory[memory_count].address = low;
            memory[memory_count++].length = (size_t)(high - low);
        }
    }
    for (i = 0; i < memory_count; i++) size += memory[i].length;
    bytes = (uint8_t *)calloc(size + 1, 1);
    if (!bytes) return 0;
    for (i = size = 0; i < memory_count; size += memory[i++].length) memory[i].bytes = bytes + size;
    for (i = size = 0; i < records_count; i++) {
        while (memory[size].address + memory[size].length <= records[i].address) size++;
        memcpy((uint8_t *)memory[size].bytes + (records[i].address - memory[size].address), records[i].bytes,
               records[i].length);
    }
    return 1;
}

int main(int argc, char **argv) {
    struct zacpi_source whole = {0};
    uint8_t revision, *image, *places[4], was[4];
    size_t length, changed, i, runs;
    int agreed, taken;
    take_edge(&argc, argv);
    taken = start_of(argc, argv, &whole, &revision);
    if (argc == 1) return !(maps_wanted() && maps_searches() && maps_accepted());
    if (!taken || argc != taken + 1) return wrong("IMAGE START N") + 2;
    image = contents(argv[1], &length);
    if (!image) return wrong("no such file") + 1;
    if (regions_of(image, length, records, MOST, &records_count) || !lay_out()) {
        puts("0 runs");
        return 0;
    }
    runs = 1 + (records_count ? strtoul(argv[taken], NULL, 10) : 0);
    for (i = 0; i < runs; i++) {
        changed = i ? 1 + below(4) : 0;
        damage(places, was, changed);
        unit = i % 2 ? 64 : PAGE;
        whole.accept = i % 3 ? 0 : (uint32_t)below(8) * ZACPI_ACCEPT_RSDP_IDS; /* the bits of RSDPs */
        without(MOST, 0, 0);
        if (i % 4 > 1) {
            /* A search's areas are mapped by pages of at least 4 KiB. */
            const size_t region = below(memory_count), missing = is_search(&whole) ? PAGE : (size_t)unit;
            without(region, below(memory[region].length / missing) * missing, missing);
        }
        whole.regions = again_all_at_edge(there, there_count);
        whole.regions_length = there_count;
        agreed = agrees(&whole);
        if (agreed && whole.start == ZACPI_START_BIOS_SEARCH) {
            whole.start = ZACPI_START_SEARCH;
            agreed = agrees(&whole);
            whole.start = ZACPI_START_BIOS_SEARCH;
        }
        if (!agreed) {
            fprintf(stderr, "at run %lu\n", (unsigned long)i);
            return 1;
        }
        while (changed--) *places[changed] = was[changed];
    }
    printf("%lu runs\n", (unsigned long)runs);
    free(bytes);
    free(image);
    return 0;
}
