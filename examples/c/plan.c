/* SPDX-License-Identifier: MIT */
#include "plan.h"

enum { MOST_READS = 1000000 };

/* A register of 8 or 16 bits: of memory if it is at a pointer, else of a port. */
struct place {
    volatile void *memory;
    uint16_t port;
    uint8_t width;
};

#if defined __x86_64__ || defined __i386__
enum { HAS_PORTS = 1 };
static uint32_t read_port(uint16_t port, uint8_t width) {
    uint16_t x = 0;
    if (width == 16) __asm__ volatile("inw %1, %0" : "=a"(x) : "Nd"(port));
    else __asm__ volatile("inb %1, %b0" : "+a"(x) : "Nd"(port));
    return x;
}
static void write_port(uint16_t port, uint8_t width, uint16_t x) {
    if (width == 16) __asm__ volatile("outw %0, %1" ::"a"(x), "Nd"(port) : "memory");
    else __asm__ volatile("outb %b0, %1" ::"a"(x), "Nd"(port) : "memory");
}
static void relax(void) { __asm__ volatile("pause"); }
#else
enum { HAS_PORTS = 0 };
static uint32_t read_port(uint16_t port, uint8_t width) { return (void)port, (void)width, 0; }
static void write_port(uint16_t port, uint8_t width, uint16_t x) { (void)port, (void)width, (void)x; }
static void relax(void) {}
#endif

static uint32_t read_place(const struct place *place) {
    if (!place->memory) return read_port(place->port, place->width);
    return place->width == 16 ? *(volatile uint16_t *)place->memory : *(volatile uint8_t *)place->memory;
}
static void write_place(const struct place *place, uint32_t x) {
    if (!place->memory) write_port(place->port, place->width, (uint16_t)x);
    else if (place->width == 16) *(volatile uint16_t *)place->memory = (uint16_t)x;
    else *(volatile uint8_t *)place->memory = (uint8_t)x;
}

/* Whether a step's register can be reached, and then how. */
static int find_place(const struct zacpi_step *step, plan_map *map, struct place *out) {
    const struct zacpi_generic_address *at = &step->at.at;
    const int is_memory = at->space == ZACPI_SPACE_SYSTEM_MEMORY, is_port = at->space == ZACPI_SPACE_SYSTEM_IO;
    if (step->at.present != 1 || (step->width != 8 && step->width != 16) || (at->address & (step->width / 8 - 1)))
        return 0;
    if (!is_memory && !(is_port && HAS_PORTS && at->address <= UINT16_MAX)) return 0;
    *out = (struct place){is_memory ? map(at->address) : 0, (uint16_t)at->address, step->width};
    return !is_memory || out->memory;
}

/* The bits that the mask hasn't are written back as they were; a register that is written whole isn't read. */
static void write_bits(const struct place *place, const struct zacpi_step *step) {
    const uint32_t all = step->width == 16 ? UINT16_MAX : UINT8_MAX;
    const uint32_t kept = (step->mask & all) == all ? 0 : read_place(place) & ~step->mask;
    write_place(place, kept | (step->value & step->mask));
}
static int has_bits(const struct place *place, const struct zacpi_step *step) {
    return (read_place(place) & step->mask) == (step->value & step->mask);
}
static int wait_for_bits(const struct place *place, const struct zacpi_step *step) {
    for (uint32_t reads = 0; reads < MOST_READS; reads++, relax())
        if (has_bits(place, step)) return 1;
    return 0;
}

/* Whether the last step waits for bits that are there before the first. */
static int is_reached(const struct zacpi_plan *plan, plan_map *map) {
    const struct zacpi_step *last = plan->steps + plan->count - 1;
    struct place place;
    return plan->count && last->kind == ZACPI_STEP_WAIT && find_place(last, map, &place) && has_bits(&place, last);
}

uint32_t run_plan(const struct zacpi_plan *plan, plan_map *map) {
    struct place place;
    if (is_reached(plan, map)) return plan->count;
    for (uint32_t i = 0; i < plan->count; i++) {
        const struct zacpi_step *step = plan->steps + i;
        if (!find_place(step, map, &place)) return i;
        if (step->kind == ZACPI_STEP_WRITE) write_bits(&place, step);
        else if (!wait_for_bits(&place, step)) return i;
    }
    return plan->count;
}
