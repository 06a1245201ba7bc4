/* SPDX-License-Identifier: MIT */
#include "power.h"
#include "stick.h"

enum { MOST = 1024 }; /* items of a list that are printed */

static union {
    struct zacpi_processor processors[MOST];
    struct zacpi_gic_cpu_interface interfaces[MOST];
    struct zacpi_gic_translation_service services[MOST];
    struct zacpi_io_apic io_apics[MOST];
    struct zacpi_hpet_info hpets[MOST];
    struct zacpi_pci_region regions[MOST];
    struct zacpi_memory_affinity ranges[MOST];
    struct zacpi_range redistributors[MOST];
} list;
static struct zacpi_signature named;

static void number(const struct printer *p, const char *before, uint64_t x) { say(p, before), say_number(p, x); }
static void address(const struct printer *p, const char *before, uint64_t x) { say(p, before), say_address(p, x); }
static size_t shown(const struct printer *p, size_t count) {
    if (count <= MOST) return count;
    number(p, "left out\t", count - MOST), say(p, "\n");
    return MOST;
}
static void not_known(const struct printer *p, const char *what, zacpi_status status) {
    if (status == ZACPI_TABLE_MISSING) return;
    say(p, what), say_refused(p, "\tnot known", status, &named);
}

/* The domain of a processor; -1 if none is known. */
static int64_t domain_of(const struct zacpi_source *source, uint32_t local_apic_id) {
    uint32_t domain;
    return zacpi_domain_of_apic(source, local_apic_id, &domain, &named) ? -1 : (int64_t)domain;
}
/* The first and the last of processors whose numbers follow each other, and which are else alike. */
static void print_alike(const struct printer *p, const struct zacpi_processor *first,
                        const struct zacpi_processor *last, int64_t domain) {
    static const char *const states[] = {", disabled", ", waiting", ", running"};
    if (first == last) {
        number(p, "processor ", first->uid), number(p, "\tlocal APIC ", first->local_apic_id);
    } else {
        number(p, "processors ", first->uid), number(p, " to ", last->uid);
        number(p, "\tlocal APICs ", first->local_apic_id), number(p, " to ", last->local_apic_id);
    }
    say(p, states[first->state % 3]);
    if (domain >= 0) number(p, ", domain ", (uint64_t)domain);
    say(p, "\n");
}
static void print_processors(const struct zacpi_source *source, const struct printer *p) {
    const struct zacpi_processor *const all = list.processors;
    size_t count = 0, disabled = 0, first = 0, i, total;
    if (zacpi_list_processors(source, list.processors, MOST, &count, &named) || !count) return;
    total = count, count = shown(p, count);
    for (i = 1; i < count; i++) disabled += all[i].state == ZACPI_PROCESSOR_DISABLED;
    number(p, "processors\t", total), number(p, ", ", disabled), say(p, " of them disabled\n");
    for (i = 0; i < count; i++) {
        const struct zacpi_processor *const next = all + i + 1;
        const int64_t domain = domain_of(source, all[i].local_apic_id);
        if (i + 1 < count && next->state == all[i].state && next->uid == all[i].uid + 1 &&
            next->local_apic_id == all[i].local_apic_id + 1 && domain_of(source, next->local_apic_id) == domain)
            continue;
        print_alike(p, all + first, all + i, domain);
        first = i + 1;
    }
}

static void print_apics(const struct zacpi_source *source, const struct zacpi_interrupt_model *model,
                        const struct printer *p) {
    size_t count = 0;
    if (!model->known) {
        say(p, "interrupts\tnot described by local APICs\n");
        return;
    }
    print_processors(source, p);
    address(p, "interrupts\tlocal APICs at ", model->local_apic_address);
    say(p, model->also_has_8259 ? ", and a pair of 8259s\n" : ", no 8259s\n");
    count = zacpi_list_io_apics(source, list.io_apics, MOST, &count, &named) ? 0 : shown(p, count);
    for (size_t i = 0; i < count; i++) {
        number(p, "I/O APIC ", list.io_apics[i].id), address(p, "\tat ", list.io_apics[i].address);
        number(p, ", interrupts from ", list.io_apics[i].global_system_interrupt_base), say(p, " on\n");
    }
}

static void print_interfaces(const struct zacpi_source *source, const struct printer *p) {
    size_t count = 0;
    if (zacpi_list_gic_cpu_interfaces(source, list.interfaces, MOST, &count, &named)) return;
    number(p, "processors\t", count), say(p, "\n");
    count = shown(p, count);
    for (size_t i = 0; i < count; i++) {
        const struct zacpi_gic_cpu_interface *const one = list.interfaces + i;
        number(p, "processor ", one->processor_uid), address(p, "\tMPIDR ", one->mpidr);
        say(p, one->is_enabled ? ", enabled\n" : one->is_online_capable ? ", can be enabled\n" : ", disabled\n");
    }
}
static void print_gic(const struct zacpi_source *source, const struct zacpi_gic_distributor *distributor,
                      const struct printer *p) {
    size_t i, count = 0;
    print_interfaces(source, p);
    address(p, "interrupts\tGIC distributor at ", distributor->address);
    if (distributor->version) number(p, ", version ", distributor->version);
    say(p, "\n");
    count = zacpi_list_gic_redistributors(source, list.redistributors, MOST, &count, &named) ? 0 : shown(p, count);
    for (i = 0; i < count; i++) {
        address(p, "redistributors\tat ", list.redistributors[i].address);
        address(p, ", ", list.redistributors[i].length), say(p, " bytes\n");
    }
    count = zacpi_list_gic_translation_services(source, list.services, MOST, &count, &named) ? 0 : shown(p, count);
    for (i = 0; i < count; i++)
        number(p, "ITS ", list.services[i].id), address(p, "\tat ", list.services[i].address), say(p, "\n");
}

static void print_platform(const struct zacpi_source *source, const struct printer *p) {
    static const char *const profiles[] = {"Unspecified", "Desktop",           "Mobile",
                                           "Workstation", "EnterpriseServer",  "SohoServer",
                                           "AppliancePc", "PerformanceServer", "Tablet"};
    struct zacpi_gic_distributor distributor;
    struct zacpi_interrupt_model model;
    struct zacpi_fixed_hardware fixed;
    zacpi_status status;
    if (!zacpi_get_gic_distributor(source, &distributor, &named)) {
        print_gic(source, &distributor, p);
        return;
    }
    status = zacpi_get_interrupt_model(source, &model, &named);
    if (!status) status = zacpi_get_fixed_hardware(source, &fixed, &named);
    if (status) {
        say_refused(p, "platform\tnot known", status, &named);
        return;
    }
    if (fixed.power_profile < sizeof profiles / sizeof *profiles)
        say(p, "profile\t"), say(p, profiles[fixed.power_profile]), say(p, "\n");
    print_apics(source, &model, p);
}

static void print_arm_timer(const struct printer *p, const char *name, const struct zacpi_arm_timer *timer) {
    if (!timer->present || !timer->interrupt) return;
    say(p, name), number(p, "\tinterrupt ", timer->interrupt);
    say(p, timer->trigger == ZACPI_TRIGGER_EDGE ? ", edge" : ", level");
    say(p, timer->polarity == ZACPI_POLARITY_LOW ? ", active low" : ", active high");
    say(p, timer->always_on ? ", always on\n" : "\n");
}
static void print_timers(const struct zacpi_source *source, const struct printer *p) {
    struct zacpi_pm_timer timer;
    struct zacpi_arm_timers arm;
    struct zacpi_hpet_info hpet;
    zacpi_status status = zacpi_get_pm_timer(source, &timer, &named);
    if (status) not_known(p, "PM timer", status);
    else if (timer.present) {
        say(p, timer.is_32_bit ? "PM timer\t32 bits, " : "PM timer\t24 bits, ");
        say(p, timer.base.space == ZACPI_SPACE_SYSTEM_IO ? "SystemIo " : "SystemMemory ");
        say_address(p, timer.base.address), say(p, ", 3579545 Hz\n");
    }
    status = zacpi_get_hpet(source, &hpet, &named);
    if (status) not_known(p, "HPET", status);
    else {
        const uint32_t block = hpet.event_timer_block_id;
        number(p, "HPET ", hpet.number), address(p, "\tat ", hpet.base_address);
        say(p, block & ZACPI_HPET_COUNT_SIZE_CAP ? ", 64 bits, " : ", 32 bits, ");
        say_number(p, ((block & ZACPI_HPET_NUMBER_OF_COMPARATORS) >> 8) + 1), say(p, " comparators, periods of ");
        say_number(p, hpet.clock_tick_unit), say(p, " ticks or more\n");
    }
    if (zacpi_get_arm_timers(source, &arm, &named)) return;
    print_arm_timer(p, "timer EL1 secure", &arm.secure_el1), print_arm_timer(p, "timer EL1", &arm.non_secure_el1);
    print_arm_timer(p, "timer EL1 virtual", &arm.virtual_el1), print_arm_timer(p, "timer EL2", &arm.el2);
    print_arm_timer(p, "timer EL2 virtual", &arm.virtual_el2);
}

static void print_pci(const struct zacpi_source *source, const struct printer *p) {
    size_t count = 0;
    const zacpi_status status = zacpi_list_pci_regions(source, list.regions, MOST, &count, &named);
    if (status) not_known(p, "PCI", status);
    count = status ? 0 : shown(p, count);
    for (size_t i = 0; i < count; i++) {
        number(p, "PCI segment ", list.regions[i].segment_group), number(p, "\tbuses ", list.regions[i].first_bus);
        number(p, " to ", list.regions[i].last_bus), address(p, ", from ", list.regions[i].base_address);
        say(p, " on\n");
    }
}

static void print_size(const struct printer *p, uint64_t bytes) {
    static const char *const units[] = {" B", " KiB", " MiB", " GiB"};
    int unit = 0;
    for (; unit < 3 && bytes && !(bytes & 1023); unit++) bytes >>= 10;
    say_number(p, bytes), say(p, units[unit]);
}
static void print_memory(const struct zacpi_source *source, const struct printer *p) {
    size_t count = 0;
    count = zacpi_list_memory_affinities(source, list.ranges, MOST, &count, &named) ? 0 : shown(p, count);
    for (size_t i = 0; i < count; i++) {
        number(p, "memory domain ", list.ranges[i].domain), say(p, "\t"), print_size(p, list.ranges[i].length);
        address(p, " from ", list.ranges[i].address);
        say(p, list.ranges[i].is_hot_pluggable ? " on, hot pluggable\n" : " on\n");
    }
}

void print_machine(const struct zacpi_source *source, const struct printer *p) {
    say(p, "\fThe machine:\n");
    print_platform(source, p);
    print_timers(source, p);
    print_pci(source, p);
    print_memory(source, p);
}

void print_power(const struct zacpi_source *source, const struct printer *p) {
    struct zacpi_fixed_hardware fixed;
    struct zacpi_sleep_types types;
    struct zacpi_plan enable;
    say(p, "\fPower:\n");
    if (!zacpi_get_fixed_hardware(source, &fixed, &named) && fixed.arm_boot_flags & ZACPI_ARM_PSCI_COMPLIANT)
        say(p, fixed.arm_boot_flags & ZACPI_ARM_PSCI_USE_HVC ? "power\tby PSCI, HVC\n" : "power\tby PSCI, SMC\n");
    for (uint32_t state = 1; state < 6; state++)
        if (!zacpi_get_sleep_types(source, state, &types, &named)) {
            number(p, "sleep state S", state), number(p, "\tSLP_TYPa ", types.a), number(p, ", SLP_TYPb ", types.b);
            say(p, "\n");
        }
    (void)print_plans(source, p, &enable);
}
