#include "machine.h"
extern uint8_t stack[], stubs[];

static void out8(uint16_t port, uint8_t x) { __asm__ volatile("outb %0, %1" ::"a"(x), "Nd"(port)); }
static void out32(uint16_t port, uint32_t x) { __asm__ volatile("outl %0, %1" ::"a"(x), "Nd"(port)); }
static uint8_t in8(uint16_t port) {
    uint8_t x;
    __asm__ volatile("inb %1, %0" : "=a"(x) : "Nd"(port));
    return x;
}

/* What the library calls. */
void *memcpy(void *to, const void *from, size_t n) {
    void *answer = to;
    __asm__ volatile("rep movsb" : "+D"(to), "+S"(from), "+c"(n)::"memory");
    return answer;
}
void *memmove(void *to, const void *from, size_t n) {
    volatile uint8_t *t = to; /* or the compiler could make a call of this function out of the loop */
    const volatile uint8_t *f = from;
    if (t <= f) return memcpy(to, from, n);
    while (n--) t[n] = f[n];
    return to;
}
void *memset(void *to, int x, size_t n) {
    void *answer = to;
    __asm__ volatile("rep stosb" : "+D"(to), "+c"(n) : "a"(x) : "memory");
    return answer;
}
/* The first serial port, a 16550 at 0x3f8: no interrupts (IER), 115200 baud by the divisor 1 between two writes of LCR,
 * the last of which sets eight bits, no parity and one stop bit, queues emptied (FCR), and DTR and RTS set (MCR). */
void open_serial(void) {
    static const uint8_t writes[][2] = {{1, 0}, {3, 0x80}, {0, 1}, {1, 0}, {3, 3}, {2, 7}, {4, 3}};
    for (size_t i = 0; i < sizeof writes / sizeof *writes; i++) out8(0x3f8 + writes[i][0], writes[i][1]);
}
void to_serial(void *to, const char *bytes, size_t length) {
    (void)to;
    for (; length--; bytes++) {
        while (!(in8(0x3fd) & 0x20)) {} /* bit 5 of LSR: it can take a byte */
        out8(0x3f8, (uint8_t)*bytes);
    }
}
/* Waits until a byte has come: bit 0 of LSR. */
void wait_for_byte(void) {
    while (!(in8(0x3fd) & 1)) {}
}

void halt(void) {
    for (;;) __asm__ volatile("cli; hlt");
}
void leave(uint32_t status) {
    out32(0xf4, status);
    halt();
}

/* The clock's memory (CMOS): the number of a byte goes to port 0x70, and the byte is read and written by 0x71. QEMU's
 * firmware doesn't use byte 0x70. */
uint8_t kept_byte(void) {
    out8(0x70, 0x70);
    return in8(0x71);
}
void keep_byte(uint8_t x) { out8(0x70, 0x70), out8(0x71, x); }

/* One gate for each exception: without them a fault is a silent end of the machine. */
void catch_faults(void) {
    static struct {
        uint16_t low, selector, kind, middle;
        uint32_t high, zero;
    } gates[32];
    struct {
        uint16_t limit;
        uint64_t base;
    } __attribute__((packed)) idt = {sizeof gates - 1, (uint64_t)gates};
    for (int i = 0; i < 32; i++) {
        uint64_t a = (uint64_t)stubs + 16 * i;
        gates[i].low = (uint16_t)a, gates[i].selector = 8, gates[i].kind = 0x8e00;
        gates[i].middle = (uint16_t)(a >> 16), gates[i].high = (uint32_t)(a >> 32);
    }
    __asm__ volatile("lidt %0" ::"m"(idt));
}

uint64_t cycles(void) {
    uint32_t a, d;
    __asm__ volatile("lfence; rdtsc" : "=a"(a), "=d"(d)::"memory");
    return (uint64_t)d << 32 | a;
}
const volatile uint8_t *at(uint64_t address) {
    __asm__("" : "+r"(address));
    return (const volatile uint8_t *)(address + 0xffffffff80000000); /* where boot.s maps the first GiB */
}
uint64_t low(const volatile uint8_t *p, int bytes) {
    uint64_t x = 0;
    while (bytes--) x = x << 8 | p[bytes];
    return x;
}

#define PAINT 0x5ca1ab1e5ca1ab1e /* what the stack is filled with, to see how deep a call goes */
uint64_t paint(void) {
    uint64_t sp;
    __asm__ volatile("mov %%rsp, %0" : "=r"(sp));
    for (uint64_t p = (uint64_t)stack; p < sp - 64; p += 8) *(volatile uint64_t *)p = PAINT;
    return sp;
}
uint64_t painted_depth(uint64_t from) {
    uint64_t p = (uint64_t)stack;
    while (p < from && *(volatile uint64_t *)p == PAINT) p += 8;
    return from - p;
}
