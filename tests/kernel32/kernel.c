/* A kernel for processors of 32 bits that counts the processors and powers the machine off by zacpi.c. It has no paging,
 * so an address below 4 GiB is its pointer, and searches for the RSDP, since multiboot doesn't pass it. It is linked
 * without the compiler's library. */
#include "lines.h"
#include "plan.h"
#include "zacpi_map.h"

static void out8(uint16_t port, uint8_t value) { __asm__ volatile("outb %0, %1" : : "a"(value), "Nd"(port)); }
static uint8_t in8(uint16_t port) {
    uint8_t value;
    __asm__ volatile("inb %1, %0" : "=a"(value) : "Nd"(port));
    return value;
}
static void to_serial(void *to, const char *bytes, size_t length) {
    (void)to;
    for (; length--; bytes++) {
        while (!(in8(0x3fd) & 0x20)) {}
        out8(0x3f8, (uint8_t)*bytes);
    }
}
/* What a C compiler calls. */
void *memcpy(void *to, const void *from, size_t count) {
    void *next = to;
    __asm__ volatile("rep movsb" : "+D"(next), "+S"(from), "+c"(count) : : "memory");
    return to;
}
void *memmove(void *to, const void *from, size_t count) {
    volatile uint8_t *a = to;
    const volatile uint8_t *b = from;
    if ((uintptr_t)a <= (uintptr_t)b) return memcpy(to, from, count);
    while (count--) a[count] = b[count];
    return to;
}
void *memset(void *to, int value, size_t count) {
    void *next = to;
    __asm__ volatile("rep stosb" : "+D"(next), "+c"(count) : "a"(value) : "memory");
    return to;
}

/* Memory at an address, of which the compiler doesn't see the number. */
static void *at(uint32_t address) {
    __asm__("" : "+r"(address));
    return (void *)address;
}
static volatile void *map_register(uint64_t address) { return address >> 32 ? NULL : at((uint32_t)address); }
static const void *map(void *context, uint64_t address, uint64_t length) {
    (void)context;
    return address < 0xfffff000 && length < 0xfffff000 - address ? at((uint32_t)address) : NULL;
}
static void unmap(void *context, const void *at, uint64_t address, uint64_t length) {
    (void)context, (void)at, (void)address, (void)length;
}

void kernel(void);
void kernel(void) {
    static const struct printer serial = {to_serial, NULL};
    static struct zacpi_processor processors[256];
    static struct zacpi_plan plan;
    static struct zacpi_region regions[64];
    static struct zacpi_range ranges[64];
    const struct zacpi_mapper mapper = {NULL, map, unmap, 1}; /* nothing is at a null pointer then */
    struct zacpi_source source = {regions, 0, 0, ZACPI_START_SEARCH, 0};
    size_t count;
    zacpi_status status = zacpi_map_tables(&mapper, &source, regions, 64, ranges, 64);
    if (!status) status = zacpi_list_processors(&source, processors, 256, &count, NULL);
    if (!status) say_number(&serial, count), say(&serial, " processors\n");
    if (!status) status = zacpi_get_enable_plan(&source, &plan, NULL);
    if (!status && run_plan(&plan, map_register) < plan.count) say(&serial, "ACPI isn't enabled\n");
    if (!status) status = zacpi_get_power_off_plan(&source, &plan, NULL);
    if (status) say(&serial, zacpi_status_name(status)), say(&serial, "\n");
    else run_plan(&plan, map_register);
}
