/* A C library just large enough for tests/c/rows.c and helpers.c, and the entry of a program, over two calls of Linux:
 * for RISC-V of 32 bits and LoongArch, whose compilers come without one. */
#include <stdarg.h>
#include <stdint.h>
#include <stdio.h>
#include <string.h>

enum { WRITE = 64, EXIT = 93 }; /* the same numbers on both */

static long linux_call(long number, long a, long b, long c) {
#if defined(__loongarch__)
    register long how __asm__("$a7") = number, first __asm__("$a0") = a, second __asm__("$a1") = b,
                      third __asm__("$a2") = c;
    __asm__ volatile("syscall 0"
                     : "+r"(first)
                     : "r"(how), "r"(second), "r"(third)
                     : "memory", "$t0", "$t1", "$t2", "$t3", "$t4", "$t5", "$t6", "$t7", "$t8");
#else
    register long how __asm__("a7") = number, first __asm__("a0") = a, second __asm__("a1") = b,
                      third __asm__("a2") = c;
    __asm__ volatile("ecall" : "+r"(first) : "r"(how), "r"(second), "r"(third) : "memory");
#endif
    return first;
}

/* Through volatile, so that no compiler makes a call of itself of a loop. */
void *memcpy(void *to, const void *from, size_t count) {
    volatile uint8_t *a = to;
    const volatile uint8_t *b = from;
    while (count--) *a++ = *b++;
    return to;
}
void *memmove(void *to, const void *from, size_t count) {
    volatile uint8_t *a = to;
    const volatile uint8_t *b = from;
    if ((uintptr_t)a <= (uintptr_t)b) return memcpy(to, from, count);
    while (count--) a[count] = b[count];
    return to;
}
void *memset(void *to, int value, size_t count) {
    volatile uint8_t *a = to;
    while (count--) *a++ = (uint8_t)value;
    return to;
}
int memcmp(const void *one, const void *other, size_t count) {
    const volatile uint8_t *a = one, *b = other;
    for (; count--; a++, b++)
        if (*a != *b) return *a - *b;
    return 0;
}
size_t strlen(const char *text) {
    size_t length = 0;
    while (((const volatile char *)text)[length]) length++;
    return length;
}

static void write_out(const char *bytes, size_t length) { linux_call(WRITE, 1, (long)bytes, (long)length); }

/* A number in hexadecimal, which takes no division of 64 bits. */
static void write_number(unsigned long long number) {
    char digits[18];
    size_t at = sizeof digits;
    do digits[--at] = "0123456789abcdef"[number & 15];
    while (number >>= 4);
    digits[--at] = 'x';
    if (at) digits[--at] = '0';
    write_out(digits + at, sizeof digits - at);
}
/* Takes %s, and any number as one in hexadecimal. */
int printf(const char *format, ...) {
    va_list all;
    va_start(all, format);
    for (; *format; format++) {
        int longs = 0;
        if (*format != '%') {
            write_out(format, 1);
            continue;
        }
        for (format++; *format == 'l' || *format == 'z'; format++) longs++;
        if (*format == 's') {
            const char *text = va_arg(all, const char *);
            write_out(text, strlen(text));
        } else if (longs > 1) write_number(va_arg(all, unsigned long long));
        else write_number(longs ? va_arg(all, unsigned long) : va_arg(all, unsigned));
    }
    va_end(all);
    return 0;
}

/* Pages of a pool, each request after the ones before. */
void *mmap(void *at, size_t length, int protection, int flags, int file, long offset) {
    static union {
        unsigned char bytes[1 << 26];
        unsigned long long aligned;
    } pool;
    static size_t used;
    (void)at, (void)protection, (void)flags, (void)file, (void)offset;
    if (length > sizeof pool.bytes - used) return (void *)-1;
    used += length;
    return pool.bytes + used - length;
}
int mprotect(void *at, size_t length, int protection) {
    (void)at, (void)length, (void)protection;
    return 0;
}
void exit(int status) {
    linux_call(EXIT, status, 0, 0);
    for (;;) {}
}

int main(int count, char **words);
void begin(void);
void begin(void) {
    linux_call(EXIT, main(0, (char **)0), 0, 0);
    for (;;) {}
}
#if defined(__loongarch__)
__asm__(".globl _start\n_start: bstrins.d $sp, $zero, 3, 0\n bl begin\n");
#else
__asm__(".globl _start\n_start: andi sp, sp, -16\n call begin\n");
#endif
