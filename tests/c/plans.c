/* plans: examples/c/plan.c over registers in an array, which no map of a kernel's is between. Run with `end` or
 * `begin`, the registers and each plan are at pages that can't be touched (edges.h). */
#define _DEFAULT_SOURCE
#include "edges.h"
#include "plan.h"

enum { MAPPED = 14 };
static uint16_t *registers;
static int failed;

static volatile void *map(uint64_t address) {
    return address < MAPPED ? (volatile uint8_t *)registers + address : NULL;
}
static struct zacpi_step step(uint64_t address, uint8_t width, uint32_t mask, uint32_t value, uint8_t kind) {
    struct zacpi_step made;
    memset(&made, 0, sizeof made);
    made.at.at.address = address, made.at.at.space = ZACPI_SPACE_SYSTEM_MEMORY, made.at.present = 1;
    made.mask = mask, made.value = value, made.width = width, made.kind = kind;
    return made;
}
/* Runs a step between two others: so many of the three have to be run, and the first register has to be this then. */
static void check(const char *name, struct zacpi_step tried, uint32_t run, uint16_t first) {
    struct zacpi_plan plan;
    uint32_t done;
    plan.count = 3;
    registers[0] = 0x8a05, registers[1] = 0, registers[2] = 0;
    plan.steps[0] = step(2, 16, 0xffff, 0x1234, ZACPI_STEP_WRITE);
    plan.steps[1] = tried;
    plan.steps[2] = step(4, 8, 0xff, 0x56, ZACPI_STEP_WRITE);
    done = run_plan(COPIED(plan), map);
    if (done == run && registers[0] == first && registers[1] == 0x1234 && registers[2] == (run == 3 ? 0x56 : 0)) return;
    printf("%s: %u steps, %x %x %x\n", name, done, registers[0], registers[1], registers[2]);
    failed = 1;
}

/* Runs a plan that writes 0x56 and then waits for bit 0: so many steps are run, and this has to be written. */
static void check_last(const char *name, uint16_t bit, uint32_t run, uint16_t written) {
    struct zacpi_plan plan;
    uint32_t done;
    plan.count = 2;
    registers[0] = bit, registers[2] = 0;
    plan.steps[0] = step(4, 8, 0xff, 0x56, ZACPI_STEP_WRITE);
    plan.steps[1] = step(0, 16, 1, 1, ZACPI_STEP_WAIT);
    done = run_plan(COPIED(plan), map);
    if (done == run && registers[2] == written) return;
    printf("%s: %u steps, %x\n", name, done, registers[2]);
    failed = 1;
}

int main(int argc, char **argv) {
    struct zacpi_step other = step(0, 16, 1, 1, ZACPI_STEP_WRITE);
    if (!edge_of(argc, argv)) return 2;
    registers = painted_at_edge(MAPPED);
    check("bits 10 to 13 of 16", step(0, 16, 0x3c00, 0x3400, ZACPI_STEP_WRITE), 3, 0xb605);
    check("bits of the value that the mask hasn't", step(0, 16, 0x3c00, 0xffff, ZACPI_STEP_WRITE), 3, 0xbe05);
    check("bits 2 to 5 of 8", step(0, 8, 0x3c, 0x34, ZACPI_STEP_WRITE), 3, 0x8a35);
    check("all of 8", step(1, 8, 0xff, 6, ZACPI_STEP_WRITE), 3, 0x0605);
    check("a bit that is set", step(0, 16, 1, 1, ZACPI_STEP_WAIT), 3, 0x8a05);
    check("a bit that is clear", step(0, 16, 0x102, 0, ZACPI_STEP_WAIT), 3, 0x8a05);
    check("a bit that stays clear", step(0, 16, 2, 2, ZACPI_STEP_WAIT), 1, 0x8a05);
    check("a register that isn't aligned", step(1, 16, 1, 1, ZACPI_STEP_WRITE), 1, 0x8a05);
    check("a register that isn't mapped", step(14, 16, 1, 1, ZACPI_STEP_WRITE), 1, 0x8a05);
    check("a width of 32", step(0, 32, 1, 0, ZACPI_STEP_WRITE), 1, 0x8a05);
    other.at.at.space = ZACPI_SPACE_EMBEDDED_CONTROLLER;
    check("another space", other, 1, 0x8a05);
    other.at.at.space = ZACPI_SPACE_SYSTEM_IO, other.at.at.address = 0x10000;
    check("a port above 0xffff", other, 1, 0x8a05);
    other = step(0, 16, 1, 0, ZACPI_STEP_WRITE), other.at.present = 0;
    check("no register", other, 1, 0x8a05);
    check_last("a last bit that is set before", 1, 2, 0);
    check_last("a last bit that stays clear", 0, 1, 0x56);
    return failed;
}
