#include "loader.h"
#include "machine.h"
#include "plan.h"
#include "window.h"

extern uint8_t load_start[], bss_end[]; // where this kernel is, by link.ld
static const struct printer serial = {to_serial, 0};
static struct loaded loaded;
static struct zacpi_range kept[129], missing[256];
static struct zacpi_region regions[128];
static struct window_memory memory = {kept, 0};
static const struct zacpi_mapper mapper = {&memory, map_window, unmap_window, 4096};
static struct zacpi_processor processors[256];
static struct zacpi_plan plan;

static void stop(const char *why) {
    say(&serial, why), say(&serial, "\n");
    halt();
}
void on_fault(void) { stop("fault"); } // boot.s calls it

void kernel(uint32_t magic, uint32_t information) {
    const struct zacpi_range own = {(uint64_t)load_start, (uint64_t)(bss_end - load_start)};
    size_t count;
    open_serial();
    ask_loader(magic, information, &serial, &loaded);
    memory.length = pages_of(loaded.memory, loaded.memory_length, own, kept, 129); // what may be mapped
    struct zacpi_source source = {regions, 0, loaded.rsdp, ZACPI_START_RSDP, ZACPI_ACCEPT_SUMS | ZACPI_ACCEPT_IDS};
    if (!loaded.rsdp) source.start = ZACPI_START_SEARCH;
    zacpi_status status = zacpi_map_tables(&mapper, &source, regions, 128, missing, 256);
    if (!status) status = zacpi_list_processors(&source, processors, 256, &count, 0);
    if (status) stop(zacpi_status_name(status));
    say_number(&serial, count), say(&serial, " processors\n");

    status = zacpi_get_enable_plan(&source, &plan, 0);
    if (status || run_plan(&plan, map_register) < plan.count) stop("ACPI isn't enabled");
    status = zacpi_get_power_off_plan(&source, &plan, 0);
    if (status) stop(zacpi_status_name(status));
    run_plan(&plan, map_register);
    halt();
}
