/* A program without a C library, that prints the lines of the image it is built with. For Linux on x86-64:
 * cc -std=c99 -ffreestanding -nostdlib -static -DIMAGE='"FILE"' bare.c lines.c zacpi.c. The image's tables are
 * found as on a BIOS system. */
#include "image.h"
#include "lines.h"

extern const uint8_t image[], image_end[];
__asm__(".section .rodata\nimage: .incbin \"" IMAGE "\"\nimage_end: .byte 0\n.text\n"
        ".globl _start\n_start: xor %ebp, %ebp\n and $-16, %rsp\n call begin\n");

/* The four functions that a compiler may call, also for the library. The loops are through
 * volatile pointers, or the compiler could make calls of these functions out of them. */
void *memmove(void *to, const void *from, size_t n) {
    volatile uint8_t *t = to;
    const volatile uint8_t *f = from;
    size_t i;
    if (t < f)
        for (i = 0; i < n; i++) t[i] = f[i];
    else
        while (n--) t[n] = f[n];
    return to;
}
void *memcpy(void *to, const void *from, size_t n) { return memmove(to, from, n); }
void *memset(void *to, int x, size_t n) {
    volatile uint8_t *t = to;
    while (n--) *t++ = (uint8_t)x;
    return to;
}
int memcmp(const void *a, const void *b, size_t n) {
    const volatile uint8_t *x = a, *y = b;
    for (; n--; x++, y++)
        if (*x != *y) return *x - *y;
    return 0;
}

/* A system call of Linux on x86-64: 1 writes, and 60 ends the program. */
static long system_call(long number, long a, long b, long c) {
    long answer;
    __asm__ volatile("syscall" : "=a"(answer) : "a"(number), "D"(a), "S"(b), "d"(c) : "rcx", "r11", "memory");
    return answer;
}

static void to_output(void *to, const char *bytes, size_t length) {
    system_call(1, *(long *)to, (long)bytes, (long)length);
}

/* Where the program begins: _start calls it. */
void begin(void) {
    static struct zacpi_region regions[1024];
    static long one = 1, two = 2;
    struct printer out, err;
    struct zacpi_signature named = {{0}};
    struct zacpi_source source;
    const char *unread;
    zacpi_status refused;
    out.write = err.write = to_output;
    out.to = &one;
    err.to = &two;
    source.regions = regions;
    unread = regions_of(image, (size_t)(image_end - image), regions, 1024, &source.regions_length);
    source.address = 0;
    source.start = ZACPI_START_BIOS_SEARCH;
    if (unread) {
        say(&err, "refused: ");
        say(&err, unread);
        say(&err, "\n");
        system_call(60, 1, 0, 0);
    }
    refused = print_lines(&source, NULL, &out, &err, &named);
    if (refused) say_refused(&err, "refused", refused, &named);
    system_call(60, refused ? 1 : 0, 0, 0);
}
