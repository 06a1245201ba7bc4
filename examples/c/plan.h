/* SPDX-License-Identifier: MIT */
/* Runs a plan of zacpi.h: the steps that enable ACPI, and power off or reset a machine. Take it over as it is. */
#ifndef PLAN_H
#define PLAN_H
#include "zacpi.h"
#ifdef __cplusplus
extern "C" {
#endif

/* Where a kernel has the memory of a device's register: mapped to be written, uncached; null if it can't be mapped. */
typedef volatile void *plan_map(uint64_t address);

/* Runs the steps in order, and returns how many were run. If the last one waits for bits that are there already, as
 * SCI_EN is where firmware has enabled ACPI, nothing is written, and all count as run. All are run, unless a
 * register is in a space other than memory and x86's ports, isn't aligned, or isn't mapped, or a wait doesn't end within
 * a million reads: nothing is run after such a step. A plan that powers off or resets the machine may return too, since
 * a machine takes its time: halt then. Call it with interrupts disabled, on one processor. */
uint32_t run_plan(const struct zacpi_plan *plan, plan_map *map);

#ifdef __cplusplus
}
#endif
#endif
