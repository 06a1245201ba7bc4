/* examples/c/lines.c whose calls write at the edge (edges.h), painted before; what was written goes from there to where
 * lines.c has it. */
#define _DEFAULT_SOURCE
#include "answers.h"
#include "edges.h"

void print_lines_at(int where) { edge = where; }

#define OF_SOURCE const struct zacpi_source *source
#define OF_SIGNATURE const struct zacpi_source *source, struct zacpi_signature signature
#define SOURCE source
#define SIGNATURE source, signature

#define LIST(CALL, TYPE, TAKEN, PASSED) \
    static zacpi_status CALL##_at_edge(TAKEN, struct TYPE *to, size_t capacity, size_t *count, \
                                       struct zacpi_signature *named) { \
        struct TYPE *const items = (struct TYPE *)painted_again(0, capacity * sizeof *items); \
        struct zacpi_signature *const letters = (struct zacpi_signature *)painted_again(1, sizeof *letters); \
        size_t *const many = (size_t *)painted_again(2, sizeof *many); \
        const zacpi_status status = CALL(PASSED, items, capacity, many, letters); \
        if (status) return *named = *letters, status; \
        memcpy(to, items, (*many < capacity ? *many : capacity) * sizeof *to); \
        return *count = *many, status; \
    }
#define ONE(CALL, TYPE) \
    static zacpi_status CALL##_at_edge(OF_SOURCE, struct TYPE *to, struct zacpi_signature *named) { \
        struct TYPE *const item = (struct TYPE *)painted_again(0, sizeof *item); \
        struct zacpi_signature *const letters = (struct zacpi_signature *)painted_again(1, sizeof *letters); \
        const zacpi_status status = CALL(source, item, letters); \
        if (status) return *named = *letters, status; \
        return *to = *item, status; \
    }

LIST(zacpi_list_tables, zacpi_table, OF_SOURCE, SOURCE)
LIST(zacpi_list_ssdts, zacpi_aml_table, OF_SOURCE, SOURCE)
LIST(zacpi_list_faults, zacpi_fault, OF_SIGNATURE, SIGNATURE)
LIST(zacpi_list_io_apics, zacpi_io_apic, OF_SOURCE, SOURCE)
LIST(zacpi_list_overrides, zacpi_interrupt_source_override, OF_SOURCE, SOURCE)
LIST(zacpi_list_nmi_sources, zacpi_nmi_source, OF_SOURCE, SOURCE)
LIST(zacpi_list_nmi_lines, zacpi_nmi_line, OF_SOURCE, SOURCE)
LIST(zacpi_list_processors, zacpi_processor, OF_SOURCE, SOURCE)
LIST(zacpi_list_pci_regions, zacpi_pci_region, OF_SOURCE, SOURCE)
ONE(zacpi_open, zacpi_root)
ONE(zacpi_get_dsdt, zacpi_aml_table)
ONE(zacpi_get_interrupt_model, zacpi_interrupt_model)
ONE(zacpi_get_pm_timer, zacpi_pm_timer)
ONE(zacpi_get_fixed_hardware, zacpi_fixed_hardware)
ONE(zacpi_get_hpet, zacpi_hpet_info)
ONE(zacpi_get_boot_graphic, zacpi_boot_graphic)
ONE(zacpi_get_console, zacpi_console)

#define zacpi_list_tables zacpi_list_tables_at_edge
#define zacpi_list_ssdts zacpi_list_ssdts_at_edge
#define zacpi_list_faults zacpi_list_faults_at_edge
#define zacpi_list_io_apics zacpi_list_io_apics_at_edge
#define zacpi_list_overrides zacpi_list_overrides_at_edge
#define zacpi_list_nmi_sources zacpi_list_nmi_sources_at_edge
#define zacpi_list_nmi_lines zacpi_list_nmi_lines_at_edge
#define zacpi_list_processors zacpi_list_processors_at_edge
#define zacpi_list_pci_regions zacpi_list_pci_regions_at_edge
#define zacpi_open zacpi_open_at_edge
#define zacpi_get_dsdt zacpi_get_dsdt_at_edge
#define zacpi_get_interrupt_model zacpi_get_interrupt_model_at_edge
#define zacpi_get_pm_timer zacpi_get_pm_timer_at_edge
#define zacpi_get_fixed_hardware zacpi_get_fixed_hardware_at_edge
#define zacpi_get_hpet zacpi_get_hpet_at_edge
#define zacpi_get_boot_graphic zacpi_get_boot_graphic_at_edge
#define zacpi_get_console zacpi_get_console_at_edge
#include "lines.c"
