/* SPDX-License-Identifier: MIT */
/* child FILE: makes calls over memory that is another process's too, the file descriptor FILE at SHARED. It reads the
 * number of a call and twelve words, makes the call (calls.c), and writes the status. For x86 of 32 bits it needs no C
 * library. */
#include <stddef.h>
#include <stdint.h>

enum { SHARED = 0x20000000, SHARED_LENGTH = 0x1000000, SECONDS = 30 };
struct request {
    uint64_t what, words[12];
};
uint32_t make_call(uint64_t index, const uint64_t *words); /* calls.c */

#if defined(__i386__)
enum { EXIT = 1, READ = 3, WRITE = 4, SETITIMER = 104, MPROTECT = 125, MMAP2 = 192 };
static long linux_call(long number, long a, long b, long c, long d, long e) {
    long result;
    __asm__ volatile("int $0x80" : "=a"(result) : "a"(number), "b"(a), "c"(b), "d"(c), "S"(d), "D"(e) : "memory");
    return result;
}
/* Through volatile, so that no compiler makes a call of itself of a loop. */
void *memcpy(void *to, const void *from, size_t count) {
    volatile uint8_t *a = to;
    const volatile uint8_t *b = from;
    while (count--) *a++ = *b++;
    return to;
}
void *memmove(void *to, const void *from, size_t count) {
    volatile uint8_t *a = to;
    const volatile uint8_t *b = from;
    if ((uintptr_t)a <= (uintptr_t)b) return memcpy(to, from, count);
    while (count--) a[count] = b[count];
    return to;
}
void *memset(void *to, int value, size_t count) {
    volatile uint8_t *a = to;
    while (count--) *a++ = (uint8_t)value;
    return to;
}
static void stop(int status) {
    for (;;) linux_call(EXIT, status, 0, 0, 0, 0);
}
static long read_some(void *to, size_t length) { return linux_call(READ, 0, (long)to, (long)length, 0, 0); }
static long write_all(const void *from, size_t length) { return linux_call(WRITE, 1, (long)from, (long)length, 0, 0); }
static void protect(uint64_t at, uint64_t length) { linux_call(MPROTECT, (long)at, (long)length, 0, 0, 0); }
static void limit(void) {
    static const long interval[4] = {0, 0, SECONDS, 0};
    linux_call(SETITIMER, 1, (long)interval, 0, 0, 0);
}
/* The sixth word, an offset of 0, is in a register that compilers keep. */
static int map(long file) {
    long result;
    __asm__ volatile("push %%ebp\n xor %%ebp, %%ebp\n int $0x80\n pop %%ebp"
                     : "=a"(result)
                     : "a"(MMAP2), "b"(SHARED), "c"(SHARED_LENGTH), "d"(3), "S"(0x11), "D"(file)
                     : "memory");
    return result == SHARED;
}
#else
#include <sys/mman.h>
#include <sys/time.h>
#include <unistd.h>
static void stop(int status) { _exit(status); }
static long read_some(void *to, size_t length) { return read(0, to, length); }
static long write_all(const void *from, size_t length) { return write(1, from, length); }
static void protect(uint64_t at, uint64_t length) {
    if (mprotect((void *)(uintptr_t)at, (size_t)length, PROT_NONE)) stop(2);
}
static void limit(void) {
    const struct itimerval interval = {{0, 0}, {SECONDS, 0}};
    setitimer(ITIMER_VIRTUAL, &interval, NULL);
}
static int map(long file) {
    void *const at = (void *)(uintptr_t)SHARED;
    return mmap(at, SHARED_LENGTH, PROT_READ | PROT_WRITE, MAP_SHARED | MAP_FIXED, (int)file, 0) == at;
}
#endif

static void answer(long file) {
    struct request request;
    if (!map(file)) stop(2);
    for (;;) {
        size_t length = 0;
        uint32_t status = 0;
        while (length < sizeof request) {
            const long more = read_some((uint8_t *)&request + length, sizeof request - length);
            if (more <= 0) stop(more < 0);
            length += (size_t)more;
        }
        limit();
        if (request.what == UINT64_MAX) protect(request.words[0], request.words[1]);
        else status = make_call(request.what, request.words);
        if (write_all(&status, sizeof status) != (long)sizeof status) stop(1);
    }
}
static long number_of(const char *text) {
    long number = 0;
    while (*text) number = 10 * number + (*text++ - '0');
    return number;
}

#if defined(__i386__)
void begin(long *stack);
void begin(long *stack) { answer(number_of((const char *)stack[2])); } /* the number of words, the program, FILE */
__asm__(".globl _start\n_start: mov %esp, %eax\n and $-16, %esp\n sub $12, %esp\n push %eax\n call begin\n");
#else
int main(int count, char **words) {
    if (count == 2) answer(number_of(words[1]));
    return 2;
}
#endif
