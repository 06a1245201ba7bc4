/* bench IMAGE rsdt REVISION ADDRESS [BATCHES] | rsdp ADDRESS [BATCHES] | bios [BATCHES]: how long calls of the library
 * take over an image.
 *
 * Each line has a call, how many items or bytes it returns, and the nanoseconds that it takes, those of
 * the fastest of a number of batches, 1000 by default, each of the calls that take 20 microseconds. Other work on
 * the machine only adds to the time. With 0 batches no clock is read. */
#define _POSIX_C_SOURCE 199309L
#include "image.h"
#include "start.h"
#include <time.h>

enum { MOST = 4096 }; /* how many items of a list are written */

static struct zacpi_source source;
static struct zacpi_signature wanted, named;

/* Each of these makes one call, and writes how many items or bytes it returns. */
static zacpi_status open_root(size_t *count) {
    struct zacpi_root root = {0};
    zacpi_status refused = zacpi_open(&source, &root, &named);
    *count = root.length;
    return refused;
}
static zacpi_status find_wanted(size_t *count) {
    struct zacpi_table table = {0};
    zacpi_status refused = zacpi_find_table(&source, wanted, &table, &named);
    *count = table.length;
    return refused;
}
static zacpi_status list_tables(size_t *count) {
    static struct zacpi_table out[MOST];
    return zacpi_list_tables(&source, out, MOST, count, &named);
}
static zacpi_status list_ssdts(size_t *count) {
    static struct zacpi_aml_table out[MOST];
    return zacpi_list_ssdts(&source, out, MOST, count, &named);
}
static zacpi_status dsdt(size_t *count) {
    struct zacpi_aml_table aml = {0};
    zacpi_status refused = zacpi_get_dsdt(&source, &aml, &named);
    *count = aml.length;
    return refused;
}
static zacpi_status interrupt_model(size_t *count) {
    struct zacpi_interrupt_model model = {0};
    zacpi_status refused = zacpi_get_interrupt_model(&source, &model, &named);
    *count = model.io_apics + model.overrides + model.nmi_sources + model.nmi_lines + model.processors;
    return refused;
}
static zacpi_status platform(size_t *count) {
    static struct zacpi_processor processors[MOST];
    static struct zacpi_io_apic io_apics[MOST];
    static struct zacpi_interrupt_source_override overrides[MOST];
    static struct zacpi_nmi_source sources[MOST];
    static struct zacpi_nmi_line lines[MOST];
    struct zacpi_platform_lists lists = {
        .processors = processors,
        .processors_capacity = MOST,
        .io_apics = io_apics,
        .io_apics_capacity = MOST,
        .overrides = overrides,
        .overrides_capacity = MOST,
        .nmi_sources = sources,
        .nmi_sources_capacity = MOST,
        .nmi_lines = lines,
        .nmi_lines_capacity = MOST,
    };
    struct zacpi_interrupt_model model = {0};
    zacpi_status refused = zacpi_get_platform(&source, &model, &lists, &named);
    *count = lists.io_apics_count + lists.overrides_count + lists.nmi_sources_count + lists.nmi_lines_count +
             lists.processors_count;
    return refused;
}
static zacpi_status list_isa_interrupts(size_t *count) {
    struct zacpi_isa_interrupts all;
    *count = 16;
    return zacpi_get_isa_interrupts(&source, &all, &named);
}
static zacpi_status list_processors(size_t *count) {
    static struct zacpi_processor out[MOST];
    return zacpi_list_processors(&source, out, MOST, count, &named);
}
static zacpi_status hpet(size_t *count) {
    struct zacpi_hpet_info block = {0};
    zacpi_status refused = zacpi_get_hpet(&source, &block, &named);
    *count = 1;
    return refused;
}
static zacpi_status list_pci_regions(size_t *count) {
    static struct zacpi_pci_region out[MOST];
    return zacpi_list_pci_regions(&source, out, MOST, count, &named);
}

/* What is timed: a call, the signature that it looks up if it is a lookup, and what it returns. */
static const struct call {
    const char *name, *letters, *what;
    zacpi_status (*make)(size_t *count);
} calls[] = {
    {"zacpi_open", "", "bytes", open_root},
    {"zacpi_find_table FACP", "FACP", "bytes", find_wanted},
    {"zacpi_find_table APIC", "APIC", "bytes", find_wanted},
    {"zacpi_find_table MCFG", "MCFG", "bytes", find_wanted},
    {"zacpi_find_table HPET", "HPET", "bytes", find_wanted},
    {"zacpi_find_table BGRT", "BGRT", "bytes", find_wanted},
    {"zacpi_find_table SPCR", "SPCR", "bytes", find_wanted},
    {"zacpi_list_tables", "", "items", list_tables},
    {"zacpi_list_ssdts", "", "items", list_ssdts},
    {"zacpi_get_dsdt", "", "bytes", dsdt},
    {"zacpi_get_interrupt_model", "", "items", interrupt_model},
    {"zacpi_get_platform", "", "items", platform},
    {"zacpi_get_isa_interrupts", "", "items", list_isa_interrupts},
    {"zacpi_list_processors", "", "items", list_processors},
    {"zacpi_get_hpet", "", "items", hpet},
    {"zacpi_list_pci_regions", "", "items", list_pci_regions},
};

static double now(void) {
    struct timespec time = {0};
    clock_gettime(CLOCK_MONOTONIC, &time);
    return 1e9 * (double)time.tv_sec + (double)time.tv_nsec;
}

/* The nanoseconds that `times` calls take. */
static double batch(const struct call *call, long times) {
    double start = now();
    size_t count = 0;
    while (times--) call->make(&count);
    return now() - start;
}

/* The nanoseconds that one call takes in the fastest of `batches`. */
static double least(const struct call *call, unsigned long batches) {
    long times = 1;
    double best = batch(call, times), next;
    for (; best < 20000 && times < 1L << 20; best = batch(call, times)) times *= 2;
    while (--batches)
        if ((next = batch(call, times)) < best) best = next;
    return best / (double)times;
}

int main(int argc, char **argv) {
    static struct zacpi_region regions[65536];
    uint8_t *image, revision = 0;
    int taken = start_of(argc, argv, &source, &revision);
    unsigned long batches = taken + 1 == argc ? strtoul(argv[taken], NULL, 10) : 1000;
    size_t i, length = 0, count = 0;
    const char *unread;
    if (!taken || taken + 1 < argc) {
        fputs("usage: bench IMAGE rsdt REVISION ADDRESS [BATCHES] | rsdp ADDRESS [BATCHES] | bios [BATCHES]\n", stderr);
        return 2;
    }
    image = contents(argv[1], &length);
    if (!image) return fputs("refused: Unreadable\n", stderr), 1;
    source.regions = regions;
    unread = regions_of(image, length, regions, sizeof regions / sizeof *regions, &source.regions_length);
    if (unread) return fprintf(stderr, "refused: %s\n", unread), 1;
    for (i = 0; i < sizeof calls / sizeof *calls; i++) {
        zacpi_status refused;
        memcpy(wanted.letters, calls[i].letters, strlen(calls[i].letters));
        refused = calls[i].make(&count);
        if (refused) {
            printf("%s refused %u\n", calls[i].name, (unsigned)refused);
            continue;
        }
        printf("%s %s %zu", calls[i].name, calls[i].what, count);
        if (batches) printf(" ns %.1f", least(&calls[i], batches));
        putchar('\n');
    }
    free(image);
    return 0;
}
