#define _DEFAULT_SOURCE
#include "answers.h"
#include "answers_print.h"

typedef unsigned long long wide;

/* Outputs are at the edge (edges.h), painted before each call. */
void answer_at(int where) { edge = where; }

/* Bytes as one number, the first the highest. */
static wide number_of(const uint8_t *bytes, size_t length) {
    wide number = 0;
    while (length--) number = number << 8 | *bytes++;
    return number;
}

void print_missing(const struct zacpi_source *source) {
    LIST("missing", zacpi_range, zacpi_list_missing_ranges, ALL, "%llx %llx\n", (wide)it->address, (wide)it->length);
    ONE("rsdp", struct zacpi_rsdp, zacpi_get_rsdp, IT, "%llx %u %llx %x %u %llx\n", (wide)it->address, it->revision,
        number_of(it->oem_id, 6), it->rsdt_address, it->length, (wide)it->xsdt_address);
}

#define IDS "%llx %llx %x %llx %x"
#define IDS_OF(it) \
    number_of((it)->oem_id, 6), number_of((it)->oem_table_id, 8), (it)->oem_revision, number_of((it)->creator_id, 4), \
        (it)->creator_revision

static void print_tables(const struct zacpi_source *source) {
    static const char *const looked_up[] = {"SSDT", "SRAT", "GTDT", "DMAR", "OEM1"};
    size_t i, k;
    ONE("root", struct zacpi_root, zacpi_open, IT, "%llx %u %u %llx %u\n", (wide)it->address, it->length,
        it->pointer_width, (wide)it->rsdp_address, it->rsdp_length);
    ONE("there", struct zacpi_table, zacpi_get_table, (source, source->address, item, named), "%llx %u %u " IDS "\n",
        (wide)it->address, it->length, it->revision, IDS_OF(it));
    LIST("tables", zacpi_table, zacpi_list_tables, ALL, "%llx %u %u " IDS "\n", (wide)it->address, it->length,
         it->revision, IDS_OF(it));
    LIST("members", zacpi_member, zacpi_list_members, ALL, "%llx %s %u %u %u " IDS "\n", (wide)it->table.address,
         name_of(it->status), it->has_header, it->table.length, it->table.revision, IDS_OF(&it->table));
    LIST("ranges", zacpi_range, zacpi_list_ranges, ALL, "%llx %llx\n", (wide)it->address, (wide)it->length);
    for (i = 0; i < sizeof looked_up / sizeof *looked_up; i++) {
        const struct zacpi_signature wanted = zacpi_signature_of(looked_up[i]);
        ONE("find", struct zacpi_table, zacpi_find_table, (source, wanted, item, named), "%llx %u %u " IDS "\n",
            (wide)it->address, it->length, it->revision, IDS_OF(it));
        for (k = 0; k < 3; k++)
            ONE("nth", struct zacpi_table, zacpi_find_nth_table, (source, wanted, k, item, named), "%llx\n",
                (wide)it->address);
        LIST("faults", zacpi_fault, zacpi_list_faults, (source, wanted, items, MOST, count, named), "%llx %s\n",
             (wide)it->address, name_of(it->status));
    }
    ONE("aml", struct zacpi_aml_table, zacpi_get_dsdt, IT, "%u %llx\n", it->revision, (wide)it->table_address);
    LIST("ssdts", zacpi_aml_table, zacpi_list_ssdts, ALL, "%u %llx\n", it->revision, (wide)it->table_address);
}

/* The entries of each table of a kind, by a walk, and the sum of their bytes. */
static void print_entries(const struct zacpi_source *source, const char *letters, const struct zacpi_walk *walk) {
    static struct zacpi_entry items[MOST];
    struct zacpi_signature named = {{0}};
    struct zacpi_table table;
    size_t count = 0, i, k;
    uint8_t malformed = 0;
    zacpi_status refused = zacpi_find_table(source, zacpi_signature_of(letters), &table, &named);
    if (!refused) refused = zacpi_list_entries(source, table.address, walk, items, MOST, &count, &malformed, &named);
    if (is_missing("entries", refused, &named)) return;
    printf("entries %lu %u\n", (unsigned long)count, malformed);
    for (i = 0; i < count && i < MOST; i++) {
        struct zacpi_place at;
        unsigned sum = 0;
        if (zacpi_locate(source->regions, source->regions_length, items[i].address, items[i].length, &at)) return;
        for (k = 0; k < items[i].length; k++) sum += source->regions[at.region].bytes[at.offset + k];
        printf("  %llx %u %u %u\n", (wide)items[i].address, items[i].entry_type, items[i].length, sum);
    }
}

static void print_register(const char *name, const struct zacpi_register *r) {
    if (!r->present) printf("%s none\n", name);
    else if (r->present != 1) printf("%s: %s\n", name, name_of(ZACPI_INVALID_GENERIC_ADDRESS));
    else
        printf("%s %llx %u %u %u %u\n", name, (wide)r->at.address, r->at.space, r->at.bit_width, r->at.bit_offset,
               r->at.access_size);
}
static void print_block(const char *name, const struct zacpi_gpe_block *b) {
    if (!b->present) printf("%s none\n", name);
    else if (b->present != 1) printf("%s: %s\n", name, name_of(ZACPI_INVALID_GENERIC_ADDRESS));
    else printf("%s %llx %u %u\n", name, (wide)b->address, b->space, b->byte_length);
}

static void print_fixed_hardware(const struct zacpi_source *source) {
    struct zacpi_signature named = {{0}};
    struct zacpi_fixed_hardware f;
    if (is_missing("fixed", zacpi_get_fixed_hardware(source, &f, &named), &named)) return;
    printf("fixed %llx %llx %u %x %x %x %x\n", (wide)f.facs_address, (wide)f.dsdt_address, f.sci_interrupt,
           f.smi_command, f.flags, f.x86_boot_flags, f.arm_boot_flags);
    printf("fixed %u %u %u %u %u %u %u %u %u\n", f.power_profile, f.acpi_enable, f.acpi_disable, f.s4bios_request,
           f.pstate_control, f.c_state_control, f.gpe1_base, f.reset_value, f.century);
    printf("fixed %u %u %u %u %u %u %u %u\n", f.c2_latency, f.c3_latency, f.flush_size, f.flush_stride, f.duty_offset,
           f.duty_width, f.day_alarm, f.month_alarm);
    printf("fixed %u %u %llx\n", f.revision, f.minor_revision, (wide)f.hypervisor_id);
    print_register("pm1a_event", &f.pm1a_event);
    print_register("pm1b_event", &f.pm1b_event);
    print_register("pm1a_control", &f.pm1a_control);
    print_register("pm1b_control", &f.pm1b_control);
    print_register("pm2_control", &f.pm2_control);
    print_register("pm_timer", &f.pm_timer);
    print_register("gpe0", &f.gpe0);
    print_register("gpe1", &f.gpe1);
    print_block("gpe0_block", &f.gpe0_block);
    print_block("gpe1_block", &f.gpe1_block);
    print_register("reset", &f.reset);
    print_register("sleep_control", &f.sleep_control);
    print_register("sleep_status", &f.sleep_status);
}

/* A plan: how many steps it has, and a line for each. */
static void print_plan(const char *name, zacpi_status status, const struct zacpi_plan *plan,
                       const struct zacpi_signature *named) {
    const struct zacpi_step *it;
    if (is_missing(name, status, named)) return;
    printf("%s %u\n", name, plan->count);
    for (it = plan->steps; it < plan->steps + plan->count; it++) {
        print_register("  step", &it->at);
        printf("  %u %u %x %x\n", it->kind, it->width, it->mask, it->value);
    }
}
static void print_power(const struct zacpi_source *source) {
    unsigned i;
    struct zacpi_signature named = {{0}};
    struct zacpi_plan plan;
    for (i = 0; i < 7; i++)
        ONE("sleep_types", struct zacpi_sleep_types, zacpi_get_sleep_types, (source, i, item, named), "%u %u\n", it->a,
            it->b);
    for (i = 1; i < 7; i += 2) print_plan("sleep", zacpi_get_sleep_plan(source, i, &plan, &named), &plan, &named);
    print_plan("power_off", zacpi_get_power_off_plan(source, &plan, &named), &plan, &named);
    print_plan("reset_plan", zacpi_get_reset_plan(source, &plan, &named), &plan, &named);
    print_plan("enable", zacpi_get_enable_plan(source, &plan, &named), &plan, &named);
}

static void print_devices(const struct zacpi_source *source) {
    unsigned i;
    size_t count;
    struct zacpi_signature named = {{0}};
    struct zacpi_console console;
    ONE("facs", struct zacpi_facs, zacpi_get_facs, IT, "%llx %llx %u %x %x %x %u\n", (wide)it->address,
        (wide)it->waking_vector_64, it->length, it->hardware_signature, it->waking_vector, it->flags, it->version);
    ONE("timers", struct zacpi_hpet_info, zacpi_get_hpet, IT, "%x %u\n", it->event_timer_block_id, it->page_protection);
    LIST_WHOLE("hpets", zacpi_hpet_info, zacpi_list_hpets, ALL, of_hpet_info);
    ONE("image", struct zacpi_boot_graphic, zacpi_get_boot_graphic, IT, "%llx %u\n", (wide)it->address, it->image_type);
    if (!zacpi_get_console(source, &console, &named)) {
        print_register("console", &console.base);
        printf("console %u %u %u %u %x\n", console.interface_type, console.parity, console.stop_bits,
               console.clock_frequency, console.pci_flags);
        printf("console %x %x %u %u %u %u\n", console.pci_vendor_id, console.pci_device_id, console.pci_segment,
               console.pci_bus, console.pci_device, console.pci_function);
    }
    if (is_missing("pci", zacpi_list_pci_regions(source, NULL, 0, &count, &named), &named)) return;
    LIST("ecam", zacpi_ecam_range, zacpi_list_ecam_ranges, ALL, "%u %u %llx %llx\n", it->segment_group, it->present,
         (wide)it->address, (wide)it->length);
    for (i = 0; i < 256; i += 51)
        ONE("function", uint64_t, zacpi_pci_ecam_address,
            (source, i / 204, (uint8_t)i, (uint8_t)(i % 33), (uint8_t)(i % 9), item, named), "%llx\n", (wide)*it);
}

static void print_interrupts(const struct zacpi_source *source) {
    unsigned i;
    struct zacpi_isa_interrupts all;
    struct zacpi_signature named = {{0}};
    LIST("processors", zacpi_processor, zacpi_list_processors, ALL, "%u %u %u %u %u %u\n", it->uid, it->local_apic_id,
         it->state, it->is_boot, it->is_online_capable, it->is_x2apic);
    LIST("io_apics", zacpi_io_apic, zacpi_list_io_apics, ALL, "%u %x %u\n", it->id, it->address,
         it->global_system_interrupt_base);
    LIST("overrides", zacpi_interrupt_source_override, zacpi_list_overrides, ALL, "%u %u %u %u %u\n", it->bus,
         it->isa_source, it->global_system_interrupt, it->polarity, it->trigger);
    LIST("nmi_sources", zacpi_nmi_source, zacpi_list_nmi_sources, ALL, "%u %u %u\n", it->global_system_interrupt,
         it->polarity, it->trigger);
    LIST("nmi_lines", zacpi_nmi_line, zacpi_list_nmi_lines, ALL, "%u %u %u %u %u\n", it->of_all, it->processor_uid,
         it->lint, it->polarity, it->trigger);
    LIST("madt_faults", zacpi_entry_fault, zacpi_list_madt_faults, ALL, "%llx %u %s\n", (wide)it->address,
         it->entry_type, name_of(it->status));
    ONE("local_apic", struct zacpi_local_apic, zacpi_get_local_apic, IT, "%llx %u\n", (wide)it->address,
        it->also_has_8259);
    ONE("mailbox", uint64_t, zacpi_get_mailbox_address, IT, "%llx\n", (wide)*it);
    ONE("sci", struct zacpi_interrupt, zacpi_get_sci_interrupt, IT, "%u %u %u\n", it->global_system_interrupt,
        it->polarity, it->trigger);
    for (i = 0; i < 17; i++)
        ONE("isa", struct zacpi_interrupt, zacpi_get_isa_interrupt, (source, (uint8_t)i, item, named), "%u %u %u\n",
            it->global_system_interrupt, it->polarity, it->trigger);
    for (i = 0; i < 64; i += 9)
        ONE("pin", struct zacpi_io_apic_pin, zacpi_get_io_apic_pin, (source, i, item, named), "%u %u\n", it->io_apic.id,
            it->pin);
    if (zacpi_get_isa_interrupts(source, &all, &named)) return;
    for (i = 0; i < 16; i++) {
        const struct zacpi_isa_route *r = &all.routes[i];
        printf("route %u %u %u %u %u %u %u\n", r->present, r->interrupt.global_system_interrupt, r->interrupt.polarity,
               r->interrupt.trigger, r->has_pin, r->pin.io_apic.id, r->pin.pin);
    }
}

static void print_gic(const struct zacpi_source *source) {
    struct zacpi_signature named = {{0}};
    struct zacpi_gic_distributor gic;
    if (is_missing("gic", zacpi_get_gic_distributor(source, &gic, &named), &named)) return;
    printf("gic %llx %u %u %u\n", (wide)gic.address, gic.id, gic.system_vector_base, gic.version);
    LIST("interfaces", zacpi_gic_cpu_interface, zacpi_list_gic_cpu_interfaces, ALL,
         "%llx %llx %llx %llx %llx %llx %u %u %u %u %u %u %u %u %u %u %u %u\n", (wide)it->mpidr,
         (wide)it->parked_address, (wide)it->address, (wide)it->virtual_address, (wide)it->hypervisor_address,
         (wide)it->redistributor_address, it->number, it->processor_uid, it->performance_interrupt,
         it->performance_interrupt ? it->performance_trigger : 0, it->maintenance_interrupt,
         it->maintenance_interrupt ? it->maintenance_trigger : 0, it->parking_protocol_version,
         it->spe_overflow_interrupt, it->trace_buffer_interrupt, it->is_enabled, it->is_online_capable,
         it->efficiency_class);
    LIST("redistributors", zacpi_range, zacpi_list_gic_redistributors, ALL, "%llx %llx\n", (wide)it->address,
         (wide)it->length);
    LIST("services", zacpi_gic_translation_service, zacpi_list_gic_translation_services, ALL, "%llx %u\n",
         (wide)it->address, it->id);
    LIST("msi_frames", zacpi_gic_msi_frame, zacpi_list_gic_msi_frames, ALL, "%llx %u %u %u %u\n", (wide)it->address,
         it->id, it->has_spis, it->spi_base, it->spi_count);
}

static void print_riscv(const struct zacpi_source *source) {
    LIST("rintcs", zacpi_rintc, zacpi_list_rintcs, ALL, "%llx %llx %x %u %x %x %u\n", (wide)it->hart_id,
         (wide)it->imsic_address, it->flags, it->processor_uid, it->external_interrupt_controller_id, it->imsic_size,
         it->version);
    LIST("imsics", zacpi_imsic, zacpi_list_imsics, ALL, "%x %u %u %u %u %u %u %u\n", it->flags,
         it->supervisor_identities, it->guest_identities, it->guest_index_bits, it->hart_index_bits,
         it->group_index_bits, it->group_index_shift, it->version);
    LIST("aplics", zacpi_aplic, zacpi_list_aplics, ALL, "%llx %llx %x %u %x %u %u %u %u\n", (wide)it->address,
         (wide)it->hardware_id, it->flags, it->global_system_interrupt_base, it->size, it->idc_count, it->source_count,
         it->id, it->version);
    LIST("plics", zacpi_plic, zacpi_list_plics, ALL, "%llx %llx %x %u %x %u %u %u %u\n", (wide)it->address,
         (wide)it->hardware_id, it->flags, it->global_system_interrupt_base, it->size, it->source_count,
         it->max_priority, it->id, it->version);
}

static void print_timer(const struct zacpi_arm_timer *t) {
    if (!t->present) puts("timer none");
    else if (!t->interrupt) printf("timer %u\n", t->always_on);
    else printf("timer %u %u %u %u\n", t->always_on, t->interrupt, t->polarity, t->trigger);
}
static void print_timers(const struct zacpi_source *source) {
    struct zacpi_signature named = {{0}};
    struct zacpi_arm_timers timers;
    if (is_missing("gtdt", zacpi_get_arm_timers(source, &timers, &named), &named)) return;
    printf("gtdt %llx %llx %u\n", (wide)timers.control_base, (wide)timers.read_base, timers.platform_timers_malformed);
    print_timer(&timers.secure_el1);
    print_timer(&timers.non_secure_el1);
    print_timer(&timers.virtual_el1);
    print_timer(&timers.el2);
    print_timer(&timers.virtual_el2);
    LIST("frames", zacpi_gt_frame, zacpi_list_gt_frames, ALL, "%llx %llx %llx %u %u %u %u %u %u %u %u %u\n",
         (wide)it->block_address, (wide)it->address, (wide)it->el0_address, it->number, it->is_secure, it->is_always_on,
         it->physical_interrupt, it->physical_interrupt ? it->physical_polarity : 0,
         it->physical_interrupt ? it->physical_trigger : 0, it->virtual_interrupt,
         it->virtual_interrupt ? it->virtual_polarity : 0, it->virtual_interrupt ? it->virtual_trigger : 0);
    LIST("watchdogs", zacpi_watchdog, zacpi_list_watchdogs, ALL, "%llx %llx %u %u %u %u\n", (wide)it->refresh_frame,
         (wide)it->control_frame, it->interrupt, it->polarity, it->trigger, it->is_secure);
    LIST("gtdt_faults", zacpi_entry_fault, zacpi_list_gtdt_faults, ALL, "%llx %u %s\n", (wide)it->address,
         it->entry_type, error_name(it->status));
}

static void print_domains(const struct zacpi_source *source) {
    unsigned i, k;
    size_t count;
    struct zacpi_signature missing = {{0}};
    const zacpi_status status = zacpi_list_srat_faults(source, NULL, 0, &count, &missing);
    const int is_there = !is_missing("srat", status, &missing);
    if (is_there)
        LIST("memory", zacpi_memory_affinity, zacpi_list_memory_affinities, ALL, "%llx %llx %u %u %u\n",
             (wide)it->address, (wide)it->length, it->domain, it->is_hot_pluggable, it->is_non_volatile);
    if (is_there)
        LIST("near_processors", zacpi_processor_affinity, zacpi_list_processor_affinities, ALL, "%u %u %u %u\n", it->id,
             it->domain, it->clock_domain, it->entry_type);
    if (is_there)
        LIST("initiators", zacpi_generic_initiator, zacpi_list_generic_initiators, ALL, "%u %u %u %llx %llx\n",
             it->domain, it->is_architectural, it->handle_type, number_of(it->handle, 8), number_of(it->handle + 8, 8));
    if (is_there) LIST("its", zacpi_its_affinity, zacpi_list_its_affinities, ALL, "%u %u\n", it->domain, it->its_id);
    if (is_there)
        LIST("srat_faults", zacpi_entry_fault, zacpi_list_srat_faults, ALL, "%llx %u %s\n", (wide)it->address,
             it->entry_type, error_name(it->status));
    for (i = 0; is_there && i < 5; i++) {
        ONE("near", uint32_t, zacpi_domain_of_address, (source, (uint64_t)i << 30, item, named), "%u\n", *it);
        ONE("apic", uint32_t, zacpi_domain_of_apic, (source, i, item, named), "%u\n", *it);
        ONE("uid", uint32_t, zacpi_domain_of_processor, (source, i, item, named), "%u\n", *it);
    }
    ONE("slit", struct zacpi_localities, zacpi_get_localities, IT, "%llx %u\n", (wide)it->localities, it->is_sane);
    for (i = 0; i < 4; i++)
        for (k = 0; k < 4; k++) {
            struct zacpi_signature named = {{0}};
            uint8_t distance;
            if (!zacpi_distance(source, i, k, &distance, &named)) printf("distance %u %u %u\n", i, k, distance);
        }
}

/* A fault of a table of units, whose error the list's name tells the table of. */
static const char *error_of(zacpi_status status) { return strchr(name_of(status), ' ') + 1; }

static void print_dmar(const struct zacpi_source *source) {
    static const struct zacpi_hop paths[][2] = {{{0x1f, 2}, {0, 0}}, {{0, 0}, {3, 1}}, {{2, 0}, {0, 0}}};
    unsigned i;
    size_t count;
    struct zacpi_signature named = {{0}};
    const zacpi_status status = zacpi_list_dmar_reserved(source, 0, 0, NULL, 0, NULL, 0, &count, &named);
    if (status == ZACPI_TABLE_MISSING && is_missing("dmar", status, &named)) return;
    ONE("dmar_flags", struct zacpi_dmar_flags, zacpi_get_dmar_flags, IT, "%u %u\n", it->address_bits, it->flags);
    for (i = 0; i < 6; i++) {
        const struct zacpi_hop *hops = paths[i / 2];
        ONE("unit", struct zacpi_dmar_unit, zacpi_get_dmar_unit, (source, 0, 0, hops, 1 + i % 2, item, named),
            "%llx %llx %u %u\n", (wide)it->register_base, (wide)it->register_bytes, it->segment, it->includes_pci_all);
        LIST("reserved", zacpi_dmar_reserved, zacpi_list_dmar_reserved,
             (source, 0, 0, hops, 1 + i % 2, items, MOST, count, named), "%llx %llx %u\n", (wide)it->base,
             (wide)it->limit, it->segment);
    }
    LIST("units", zacpi_dmar_unit, zacpi_list_dmar_units, ALL, "%llx %llx %u %u %u %u\n", (wide)it->register_base,
         (wide)it->register_bytes, it->segment, it->includes_pci_all, it->flags, it->size);
    LIST("regions", zacpi_dmar_reserved, zacpi_list_dmar_regions, ALL, "%llx %llx %u\n", (wide)it->base,
         (wide)it->limit, it->segment);
    LIST("ports", zacpi_dmar_root_ports, zacpi_list_dmar_root_ports, ALL, "%u %u %u\n", it->segment, it->includes_all,
         it->flags);
    LIST("near_units", zacpi_dmar_affinity, zacpi_list_dmar_affinities, ALL, "%llx %u\n", (wide)it->register_base,
         it->domain);
    for (i = 0; i < 6; i++)
        LIST("scopes", zacpi_dmar_scope, zacpi_list_dmar_structure_scopes,
             (source, i % 3, i / 3, items, MOST, count, named), "%u %u %u %u %lu %u %u %u %u\n", it->scope_type,
             it->flags, it->enumeration_id, it->bus, (unsigned long)it->path_length, it->path[0].device,
             it->path[0].function, it->path[15].device, it->path[15].function);
    LIST("dmar_faults", zacpi_entry_fault, zacpi_list_dmar_faults, ALL, "%llx %u %s\n", (wide)it->address,
         it->entry_type, error_of(it->status));
    for (i = 0; i < 9; i++)
        ONE("of_io_apic", struct zacpi_dmar_source, zacpi_get_dmar_io_apic, (source, (uint8_t)i, item, named),
            "%llx %u %u %u %u\n", (wide)it->unit.register_base, it->bus, it->has_hop, it->hop.device, it->hop.function);
    for (i = 0; i < 2; i++)
        ONE("of_hpet", struct zacpi_dmar_source, zacpi_get_dmar_hpet, (source, (uint8_t)i, item, named),
            "%llx %u %u %u %u\n", (wide)it->unit.register_base, it->bus, it->has_hop, it->hop.device, it->hop.function);
}

static void print_ivrs(const struct zacpi_source *source) {
    unsigned i;
    size_t count;
    struct zacpi_signature named = {{0}};
    const zacpi_status status = zacpi_list_ivrs_memory(source, 0, NULL, 0, &count, &named);
    if (status == ZACPI_TABLE_MISSING && is_missing("ivrs", status, &named)) return;
    LIST("ivrs_units", zacpi_ivrs_unit, zacpi_list_ivrs_units, ALL, "%llx %llx %x %u %u %u %u %u %u %u\n",
         (wide)it->base, (wide)it->extended_features, it->features, it->segment, it->device_id, it->capability_offset,
         it->info, it->block_type, it->flags, it->has_extended_features);
    for (i = 0; i < 3; i++)
        LIST("ivrs_entries", zacpi_ivrs_entry, zacpi_list_ivrs_entries, (source, i, items, MOST, count, named),
             "%u %u %u %u %u %u %u %u %x %llx %llx %lu %llx %u\n", it->entry_type, it->settings, it->handle,
             it->variety, it->unique_id_format, it->first, it->last, it->source_id, it->extended_settings,
             number_of(it->hardware_id, 8), number_of(it->compatible_id, 8), (unsigned long)it->unique_id_length,
             number_of(it->unique_id, 8), it->unique_id[31]);
    LIST("ivrs_regions", zacpi_ivrs_memory, zacpi_list_ivrs_regions, ALL, "%llx %llx %u %u %u %u\n", (wide)it->start,
         (wide)it->length, it->device_id, it->auxiliary, it->block_type, it->flags);
    LIST("ivrs_faults", zacpi_entry_fault, zacpi_list_ivrs_faults, ALL, "%llx %u %s\n", (wide)it->address,
         it->entry_type, error_of(it->status));
    for (i = 0; i < 0x200; i += 0x28) {
        ONE("ivrs", struct zacpi_ivrs_device, zacpi_get_ivrs_unit, (source, 0, (uint16_t)i, item, named),
            "%llx %u %llx %x %u %u %u %u %u %u %u %u\n", (wide)it->unit.base, it->unit.has_extended_features,
            (wide)it->unit.extended_features, it->unit.features, it->unit.segment, it->unit.device_id,
            it->unit.capability_offset, it->unit.info, it->unit.block_type, it->unit.flags, it->source_id,
            it->settings);
        LIST("rules", zacpi_ivrs_memory, zacpi_list_ivrs_memory, (source, (uint16_t)i, items, MOST, count, named),
             "%llx %llx %u %u %u %u\n", (wide)it->start, (wide)it->length, it->device_id, it->auxiliary, it->block_type,
             it->flags);
    }
}

void print_answers(const struct zacpi_source *source) {
    static const struct {
        const char *letters;
        struct zacpi_walk walk;
    } walked[] = {{"APIC", {44, 0, 1, 1, 1}},
                  {"SRAT", {48, 0, 1, 1, 1}},
                  {"DMAR", {48, 0, 2, 2, 2}},
                  {"APIC", {0, 0, 4, 4, 4}}, /* one: its Signature and its Length */
                  {"APIC", {44, 3, 2, 1, 1}}};
    unsigned i;
    print_tables(source);
    for (i = 0; i < sizeof walked / sizeof *walked; i++) print_entries(source, walked[i].letters, &walked[i].walk);
    print_fixed_hardware(source);
    print_power(source);
    print_devices(source);
    print_interrupts(source);
    print_gic(source);
    print_riscv(source);
    print_timers(source);
    print_domains(source);
    print_dmar(source);
    print_ivrs(source);
}
