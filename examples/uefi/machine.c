#include "machine.h"
void on_fault(void);

#if defined __x86_64__
/* The first serial port, a 16550 at 0x3f8: the firmware has set it up. Of LSR, bit 5: it can take a byte. */
static uint8_t in8(uint16_t port) {
    uint8_t x;
    __asm__ volatile("inb %1, %0" : "=a"(x) : "Nd"(port));
    return x;
}
static void put(uint8_t c) {
    while (!(in8(0x3fd) & 0x20)) {}
    __asm__ volatile("outb %0, %1" ::"a"(c), "Nd"((uint16_t)0x3f8));
}

void wait_for_byte(void) {
    __asm__ volatile("cli");
    while (!(in8(0x3fd) & 1)) {} /* bit 0 of LSR */
}

/* The example kernel does this. */
void forbid_vectors(void) {}
#else
/* The PL011 of QEMU's virt at 0x9000000. Of UARTFR, bit 5: it can take no byte. */
static volatile uint32_t *const uart = (volatile uint32_t *)0x9000000;
static void put(uint8_t c) {
    while (uart[6] & 0x20) {}
    uart[0] = c;
}

void wait_for_byte(void) {
    __asm__ volatile("msr daifset, #15");
    while (uart[6] & 0x10) {} /* bit 4 of UARTFR */
}

/* The firmware's handler of exceptions uses vector registers, so it couldn't print what happened: this one can. */
__asm__(".text\n .balign 2048\nvectors: .rept 16\n .balign 128\n b on_fault\n .endr\n");
extern const uint8_t vectors[] __attribute__((visibility("hidden")));
void on_fault(void) {
    uint64_t syndrome;
    __asm__ volatile("mrs %0, esr_el1" : "=r"(syndrome));
    to_serial(0, syndrome >> 26 == 7 ? "fault vectors\n" : "fault other\n", syndrome >> 26 == 7 ? 14 : 12);
    for (;;) {}
}

void forbid_vectors(void) {
    __asm__ volatile("msr daifset, #15\n msr vbar_el1, %0\n msr cpacr_el1, xzr\n isb" ::"r"(vectors)
                     : "memory"); /* FPEN is 0 */
}
#endif

void to_serial(void *to, const char *bytes, size_t length) {
    (void)to;
    while (length--) put((uint8_t)*bytes++);
}
