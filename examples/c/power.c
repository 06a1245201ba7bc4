#include "power.h"

static void print_step(const struct printer *p, const char *name, const struct zacpi_step *step) {
    say(p, "plan "), say(p, name), say(p, step->kind == ZACPI_STEP_WRITE ? " write space " : " wait space ");
    say_number(p, step->at.at.space), say(p, " address "), say_address(p, step->at.at.address);
    say(p, " width "), say_number(p, step->width), say(p, " mask "), say_address(p, step->mask);
    say(p, " value "), say_address(p, step->value), say(p, "\n");
}
static void print_plan(const struct printer *p, const char *name, zacpi_status status, const struct zacpi_plan *plan,
                       const struct zacpi_signature *named) {
    say(p, "plan "), say(p, name);
    if (status) {
        say_refused(p, "", status, named);
        return;
    }
    say(p, " steps "), say_number(p, plan->count), say(p, "\n");
    for (uint32_t i = 0; i < plan->count; i++) print_step(p, name, plan->steps + i);
}

zacpi_status print_plans(const struct zacpi_source *source, const struct printer *p, struct zacpi_plan *enable) {
    struct zacpi_signature named = {{0}};
    struct zacpi_plan plan;
    zacpi_status status = zacpi_get_power_off_plan(source, &plan, &named);
    print_plan(p, "off", status, &plan, &named);
    status = zacpi_get_reset_plan(source, &plan, &named);
    print_plan(p, "reset", status, &plan, &named);
    status = zacpi_get_enable_plan(source, enable, &named);
    print_plan(p, "enable", status, enable, &named);
    return status;
}

void enable_acpi(const struct zacpi_source *source, const struct printer *p, plan_map *map) {
    struct zacpi_plan plan;
    if (!print_plans(source, p, &plan)) say(p, "enabled by steps "), say_number(p, run_plan(&plan, map)), say(p, "\n");
}
