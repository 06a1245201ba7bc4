/* Which calls rows.c makes, each as a function of one shape, with the fields of what it returns that are compared. For
 * rows.c. */
#ifndef ROWS_CALLS_H
#define ROWS_CALLS_H

#include "fields.h"

struct row {
    const struct call *call;
    int machine;
    const char *letters; /* the signature that is passed, if the call takes one */
    uint64_t arguments[4];
    zacpi_status status;
    const char *named; /* the signature that the refusal carries, if it carries one */
    size_t count;      /* of items; 1 if the call doesn't answer a list */
    const uint64_t *values;
    size_t values_length;
};
struct call {
    const char *name;
    zacpi_status (*run)(const struct row *row, const struct zacpi_source *source, void *to, size_t room, size_t *count,
                       struct zacpi_signature *named);
    const struct field *fields;
    size_t size;
    int is_list;
};

static struct zacpi_signature signature(const struct row *row) {
    struct zacpi_signature made;
    memcpy(made.letters, row->letters, 4);
    return made;
}

#define RUN(verb) static zacpi_status run_##verb(const struct row *r, const struct zacpi_source *s, void *to, \
    size_t room, size_t *count, struct zacpi_signature *named)
/* A call whose answer is one item, or always as many as the row has, and one whose answer is a list. What comes last
 * are its arguments, each with a comma after it. */
#define ONE(verb, type, fields, ...) \
    RUN(verb) { (void)r, (void)room, (void)count; return zacpi_##verb(s, __VA_ARGS__ to, named); } \
    static const struct call call_##verb = {#verb, run_##verb, fields, sizeof(type), 0};
#define LIST(verb, type, fields, ...) \
    RUN(verb) { (void)r; return zacpi_##verb(s, __VA_ARGS__ to, room, count, named); } \
    static const struct call call_##verb = {#verb, run_##verb, fields, sizeof(type), 1};

typedef struct zacpi_arm_timers timers;
typedef struct zacpi_gt_frame gt_frame;
typedef struct zacpi_watchdog watchdog;
typedef struct zacpi_gic_distributor distributor;
typedef struct zacpi_gic_cpu_interface interface;
typedef struct zacpi_gic_translation_service service;
typedef struct zacpi_gic_msi_frame msi_frame;
typedef struct zacpi_rintc rintc;
typedef struct zacpi_imsic imsic;
typedef struct zacpi_aplic aplic;
typedef struct zacpi_plic plic;
typedef struct zacpi_memory_affinity affinity;
typedef struct zacpi_localities locality_count;
typedef struct zacpi_ecam_range ecam;
typedef struct zacpi_range range;
typedef struct zacpi_table table;
typedef struct zacpi_fault fault;
typedef struct zacpi_interrupt_source_override override;
typedef struct zacpi_interrupt interrupt;
typedef struct zacpi_io_apic_pin io_pin;
typedef struct zacpi_isa_route isa_route;
typedef struct zacpi_hpet_info hpet_block;
typedef struct zacpi_aml_table aml;
typedef struct zacpi_root root;
typedef struct zacpi_rsdp found_rsdp;
typedef struct zacpi_member member;
typedef struct zacpi_facs facs_record;
typedef struct zacpi_fixed_hardware fixed;
typedef struct zacpi_console console;
typedef struct zacpi_pm_timer pm_timer;
typedef struct zacpi_boot_graphic graphic;
typedef struct zacpi_pci_region pci_region;
typedef struct zacpi_interrupt_model model;
typedef struct zacpi_local_apic local_apic;
typedef struct zacpi_io_apic io_apic;
typedef struct zacpi_nmi_source nmi_source;
typedef struct zacpi_nmi_line nmi_line;
typedef struct zacpi_processor processor;
typedef struct zacpi_entry_fault entry_fault;
typedef struct { model model; zacpi_size counts[5]; processor processors[5]; io_apic io_apics[2]; override overrides[2];
                 nmi_source nmi_sources[3]; nmi_line nmi_lines[4]; } whole_model;

#include "rows_fields.h"

FIELDS(one_byte, {0, 1, 0});
FIELDS(four_bytes, {0, 4, 0});
FIELDS(eight_bytes, {0, 8, 0});

#define OF_PROCESSOR(n) F(whole_model, processors[n].uid), F(whole_model, processors[n].local_apic_id), \
    F(whole_model, processors[n].state), F(whole_model, processors[n].is_boot), \
    F(whole_model, processors[n].is_online_capable), F(whole_model, processors[n].is_x2apic)
#define OF_IO_APIC(n) F(whole_model, io_apics[n].address), F(whole_model, io_apics[n].global_system_interrupt_base), \
    F(whole_model, io_apics[n].id), ZERO(whole_model, io_apics[n].reserved)
#define OF_OVERRIDE(n) F(whole_model, overrides[n].global_system_interrupt), F(whole_model, overrides[n].isa_source), \
    F(whole_model, overrides[n].polarity), F(whole_model, overrides[n].trigger), F(whole_model, overrides[n].bus)
#define OF_NMI_SOURCE(n) F(whole_model, nmi_sources[n].global_system_interrupt), \
    F(whole_model, nmi_sources[n].polarity), F(whole_model, nmi_sources[n].trigger), \
    ZERO(whole_model, nmi_sources[n].reserved)
#define OF_NMI_LINE(n) F(whole_model, nmi_lines[n].processor_uid), F(whole_model, nmi_lines[n].of_all), \
    F(whole_model, nmi_lines[n].lint), F(whole_model, nmi_lines[n].polarity), F(whole_model, nmi_lines[n].trigger)
FIELDS(of_whole_model, F(whole_model, model.local_apic_address), F(whole_model, model.io_apics),
       F(whole_model, model.overrides), F(whole_model, model.nmi_sources), F(whole_model, model.nmi_lines),
       F(whole_model, model.processors), F(whole_model, model.known), F(whole_model, model.also_has_8259),
       ZERO(whole_model, model.reserved), F(whole_model, counts[0]), F(whole_model, counts[1]),
       F(whole_model, counts[2]), F(whole_model, counts[3]), F(whole_model, counts[4]),
       OF_PROCESSOR(0), OF_PROCESSOR(1), OF_PROCESSOR(2), OF_PROCESSOR(3), OF_PROCESSOR(4), OF_IO_APIC(0),
       OF_IO_APIC(1), OF_OVERRIDE(0), OF_OVERRIDE(1), OF_NMI_SOURCE(0), OF_NMI_SOURCE(1), OF_NMI_SOURCE(2),
       OF_NMI_LINE(0), OF_NMI_LINE(1), OF_NMI_LINE(2), OF_NMI_LINE(3));

#define ARGUMENT(n, type) (type)r->arguments[n],
#define PCI_FUNCTION ARGUMENT(0, uint16_t) ARGUMENT(1, uint8_t) ARGUMENT(2, uint8_t) ARGUMENT(3, uint8_t)
ONE(open, root, of_root, )
ONE(get_rsdp, found_rsdp, of_rsdp, )
LIST(list_missing_ranges, range, of_range, )
LIST(list_tables, table, of_table, )
LIST(list_members, member, of_member, )
ONE(find_table, table, of_table, signature(r), )
ONE(find_nth_table, table, of_table, signature(r), ARGUMENT(0, size_t))
LIST(list_faults, fault, of_fault, signature(r), )
LIST(list_ranges, range, of_range, )
ONE(get_dsdt, aml, of_aml_table, )
LIST(list_ssdts, aml, of_aml_table, )
ONE(get_fixed_hardware, fixed, of_fixed_hardware, )
ONE(get_console, console, of_console, )
ONE(get_pm_timer, pm_timer, of_pm_timer, )
ONE(get_facs, facs_record, of_facs, )
ONE(get_hpet, hpet_block, of_hpet_info, )
LIST(list_hpets, hpet_block, of_hpet_info, )
ONE(get_boot_graphic, graphic, of_boot_graphic, )
LIST(list_pci_regions, pci_region, of_pci_region, )
LIST(list_ecam_ranges, ecam, of_ecam_range, )
ONE(pci_ecam_address, uint64_t, eight_bytes, PCI_FUNCTION)
ONE(get_interrupt_model, model, of_interrupt_model, )
ONE(get_local_apic, local_apic, of_local_apic, )
/* Its argument is how many items less each list has room for; two lists of none are at no place. With 3 the lists have
 * room for all, and are passed as of 2^32 items. */
RUN(get_platform) {
    whole_model *all = to;
    const size_t less = (size_t)r->arguments[0] % 3;
    struct zacpi_platform_lists lists = {all->processors, 5 - less, all->counts[0],
        less < 2 ? all->io_apics : NULL, 2 - less, all->counts[1], less < 2 ? all->overrides : NULL, 2 - less,
        all->counts[2], all->nmi_sources, 3 - less, all->counts[3], all->nmi_lines, 4 - less, all->counts[4]};
    zacpi_status status;
    (void)room, (void)count;
    if (r->arguments[0] == 3 && SIZE_MAX > UINT32_MAX) {
        lists.processors_capacity = lists.io_apics_capacity = lists.overrides_capacity = (zacpi_size)1 << 16 << 16;
        lists.nmi_sources_capacity = lists.nmi_lines_capacity = lists.overrides_capacity;
    }
    status = zacpi_get_platform(s, &all->model, &lists, named);
    all->counts[0] = lists.processors_count;
    all->counts[1] = lists.io_apics_count;
    all->counts[2] = lists.overrides_count;
    all->counts[3] = lists.nmi_sources_count;
    all->counts[4] = lists.nmi_lines_count;
    return status;
}
static const struct call call_get_platform = {"get_platform", run_get_platform, of_whole_model, sizeof(whole_model), 0};
LIST(list_io_apics, io_apic, of_io_apic, )
LIST(list_overrides, override, of_interrupt_source_override, )
LIST(list_nmi_sources, nmi_source, of_nmi_source, )
LIST(list_nmi_lines, nmi_line, of_nmi_line, )
LIST(list_processors, processor, of_processor, )
LIST(list_madt_faults, entry_fault, of_entry_fault, )
ONE(get_mailbox_address, uint64_t, eight_bytes, )
ONE(get_isa_interrupt, interrupt, of_interrupt, ARGUMENT(0, uint8_t))
ONE(get_sci_interrupt, interrupt, of_interrupt, )
ONE(get_io_apic_pin, io_pin, of_io_apic_pin, ARGUMENT(0, uint32_t))
ONE(get_isa_interrupts, isa_route, of_isa_route, )
ONE(get_gic_distributor, distributor, of_gic_distributor, )
LIST(list_gic_cpu_interfaces, interface, of_gic_cpu_interface, )
LIST(list_gic_redistributors, range, of_range, )
LIST(list_gic_translation_services, service, of_gic_translation_service, )
LIST(list_gic_msi_frames, msi_frame, of_gic_msi_frame, )
ONE(get_arm_timers, timers, of_arm_timers, )
LIST(list_gt_frames, gt_frame, of_gt_frame, )
LIST(list_watchdogs, watchdog, of_watchdog, )
LIST(list_gtdt_faults, entry_fault, of_entry_fault, )
LIST(list_rintcs, rintc, of_rintc, )
LIST(list_imsics, imsic, of_imsic, )
LIST(list_aplics, aplic, of_aplic, )
LIST(list_plics, plic, of_plic, )
LIST(list_memory_affinities, affinity, of_memory_affinity, )
LIST(list_srat_faults, entry_fault, of_entry_fault, )
ONE(domain_of_address, uint32_t, four_bytes, ARGUMENT(0, uint64_t))
ONE(domain_of_apic, uint32_t, four_bytes, ARGUMENT(0, uint32_t))
ONE(domain_of_processor, uint32_t, four_bytes, ARGUMENT(0, uint32_t))
ONE(get_localities, locality_count, of_localities, )
ONE(distance, uint8_t, one_byte, ARGUMENT(0, uint64_t) ARGUMENT(1, uint64_t))
#endif
