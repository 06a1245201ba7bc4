/* SPDX-License-Identifier: MIT */
/* The program by a BIOS, whose calls have the screen, the keys, the memory map and the drive, on which fat.c finds the
 * file. */
#include "bios.h"
#include "plan.h"
#include "stick.h"

enum { TICKS = 0x46c, TICKS_PER_SECOND = 18 };

const char *firmware_name(void) { return "BIOS"; }

/* Memory in low memory that the compiler knows no object in. */
static uint32_t low(uint32_t address, int bytes) {
    const volatile uint8_t *p;
    uint32_t x = 0;
    __asm__("" : "=r"(p) : "0"(address));
    while (bytes--) x = x << 8 | p[bytes];
    return x;
}

/* What a search looks at (section 5.2.5.1): the segment of the extended BIOS data area (EBDA), its first KiB as far as
 * that is below video memory, and the BIOS area with the 16 bytes after it, in which an RSDP may end. */
static size_t add_areas(struct zacpi_range *out) {
    struct zacpi_range ebda = {low(0x40e, 2) << 4, 0x400};
    if (ebda.address < 0x400 || ebda.address >= 0xa0000) ebda.length = 0;
    else if (ebda.length > 0xa0000 - ebda.address) ebda.length = 0xa0000 - ebda.address;
    out[0] = (struct zacpi_range){0x400, 0x100}, out[1] = ebda, out[2] = (struct zacpi_range){0xe0000, 0x20010};
    return 3;
}
/* The memory map by int 0x15, eax 0xe820 (section 15.1): types 2, 3 and 4 are reserved, ACPI's and ACPI's NVS. */
size_t firmware_memory(struct zacpi_range *out, size_t capacity) {
    const uint32_t smap = 0x534d4150;
    struct registers r = {0};
    size_t n = add_areas(out);
    do {
        r.eax = 0xe820, r.edx = smap, r.ecx = sizeof piece, r.edi = (uint32_t)(uintptr_t)&piece;
        run_in_real_mode(&r, INT(0x15));
        if (r.eax != smap || r.flags & CARRY) break;
        if (piece.type >= 2 && piece.type <= 4) out[n++] = (struct zacpi_range){piece.address, piece.length};
    } while (r.ebx && n < capacity);
    return n;
}

uint32_t rows_of_screen(void) { return 25; }
void clear_screen(void) {
    struct registers r = {0};
    r.eax = 3; /* text of 80 columns and 25 rows, which clears it */
    run_in_real_mode(&r, INT(0x10));
}
static void show_byte(uint8_t byte) {
    struct registers r = {0};
    r.eax = 0x0e00 | byte, r.ebx = 7;
    run_in_real_mode(&r, INT(0x10));
}
void show_text(const char *text, size_t length) {
    while (length--) {
        if (*text == '\n') show_byte('\r');
        show_byte((uint8_t)*text++);
    }
}

int wait_for_key(uint32_t seconds) {
    const uint32_t from = low(TICKS, 4);
    while (low(TICKS, 4) - from < seconds * TICKS_PER_SECOND) {
        struct registers r = {0};
        r.eax = 0x100; /* is there one? */
        run_in_real_mode(&r, INT(0x16));
        if (!(r.flags & ZERO)) {
            r.eax = 0;
            run_in_real_mode(&r, INT(0x16));
            return 1;
        }
        run_in_real_mode(&r, HLT_NOP);
    }
    return 0;
}

int transfer(uint32_t function, uint8_t *block, uint32_t sector, uint32_t sectors) {
    const uint32_t at = (uint32_t)(uintptr_t)block;
    struct registers r = {0};
    packet = (struct packet){16, 0, (uint16_t)sectors, at & 15, (uint16_t)(at >> 4), sector};
    r.eax = function << 8, r.edx = drive, r.esi = (uint32_t)(uintptr_t)&packet;
    run_in_real_mode(&r, INT(0x13));
    return r.flags & CARRY;
}

/* Memory is at its own address. */
static volatile void *map_register(uint64_t address) { return address >> 32 ? 0 : (volatile void *)(uintptr_t)address; }
/* Enables ACPI and powers the machine off, by the tables. */
void power_off(const struct zacpi_source *source) {
    struct zacpi_plan plan;
    if (!zacpi_get_enable_plan(source, &plan, 0)) run_plan(&plan, map_register);
    if (!zacpi_get_power_off_plan(source, &plan, 0)) run_plan(&plan, map_register);
}

/* Lets addresses have their bit 20, which some machines keep clear. */
static void enable_a20(void) {
    struct registers r = {0};
    r.eax = 0x2401;
    run_in_real_mode(&r, INT(0x15));
}

void bios_main(void);
void bios_main(void) {
    enable_a20();
    stick(ZACPI_START_SEARCH, 0);
}
