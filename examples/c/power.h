/* Prints and runs the library's plans. */
#ifndef POWER_H
#define POWER_H
#include "lines.h"
#include "plan.h"
#ifdef __cplusplus
extern "C" {
#endif

/* Prints each plan's steps, or why there is none, and returns the plan that enables ACPI, or its error. */
zacpi_status print_plans(const struct zacpi_source *source, const struct printer *p, struct zacpi_plan *enable);
/* The same, and runs that plan. */
void enable_acpi(const struct zacpi_source *source, const struct printer *p, plan_map *map);

#ifdef __cplusplus
}
#endif
#endif
