/* SPDX-License-Identifier: MIT */
/* Macros that headers of Linux, Xen, U-Boot, SeaBIOS, Windows or EDK2 define, or a compiler itself, which come before a
 * file of their trees: the names that are words of C's, of the compiler's attributes, or short, with what they mean
 * there. */
#ifndef MACROS_H
#define MACROS_H

/* Attributes, and words of C. */
#define noinline __attribute__((__noinline__))
#define always_inline __inline__ __attribute__((__always_inline__))
#undef __always_inline
#define __always_inline inline __attribute__((__always_inline__))
#define inline inline __attribute__((__gnu_inline__)) __attribute__((__unused__))
#define gnu_inline __inline__ __attribute__((__gnu_inline__))
#define noreturn __attribute__((__noreturn__))
#define cold __attribute__((__cold__))
#define aligned(n) __attribute__((__aligned__(n)))
#define packed __attribute__((__packed__))
#define unused __attribute__((__unused__))
#define used __attribute__((__used__))
#define section(name) __attribute__((__section__(name)))
#define visibility(kind) __attribute__((__visibility__(kind)))
#define vector_size(n) __attribute__((__vector_size__(n)))
#define fallthrough __attribute__((__fallthrough__))
#define __packed __attribute__((__packed__))
#define __weak __attribute__((__weak__))
#define __init __attribute__((__section__(".init.text"), __cold__))
#define __used __attribute__((__used__))
#define __maybe_unused __attribute__((__unused__))
#define cf_check
#define nocall __attribute__((__error__("no call")))
#undef bool
#undef true
#undef false
#define bool _Bool
#define true 1
#define false 0
#define TRUE (1 == 1)
#define FALSE (1 == 0)
#undef offsetof
#define offsetof(type, field) ((size_t) & ((type *)0)->field)
#undef static_assert
#define static_assert(holds, ...) _Static_assert(holds, #holds)

/* What is short. */
#define likely(x) __builtin_expect(!!(x), 1)
#define unlikely(x) __builtin_expect(!!(x), 0)
#define barrier() __asm__ __volatile__("" : : : "memory")
#define unreachable() __builtin_unreachable()
#define min(x, y) ((x) < (y) ? (x) : (y))
#define max(x, y) ((x) > (y) ? (x) : (y))
#define min_t(type, x, y) min((type)(x), (type)(y))
#define max_t(type, x, y) max((type)(x), (type)(y))
#define clamp(x, low, high) min(max(x, low), high)
#define abs(x) ((x) < 0 ? -(x) : (x))
#define swap(a, b) \
    do { \
        __typeof__(a) swapped = (a); \
        (a) = (b); \
        (b) = swapped; \
    } while (0)
#define roundup(x, y) (((x) + (y)-1) / (y) * (y))
#define rounddown(x, y) ((x) - (x) % (y))
#define round_up(x, y) ((((x)-1) | ((y)-1)) + 1)
#define DIV_ROUND_UP(x, y) (((x) + (y)-1) / (y))
#define ALIGN(x, n) (((x) + (n)-1) & ~((n)-1))
#define ALIGN_DOWN(x, n) ((x) & ~((n)-1))
#define IS_ALIGNED(x, n) (((x) & ((n)-1)) == 0)
#define BIT(n) (1UL << (n))
#define GENMASK(high, low) ((~0UL << (low)) & (~0UL >> (8 * sizeof(long) - 1 - (high))))
#define ARRAY_SIZE(list) (sizeof(list) / sizeof((list)[0]))
#define FIELD_SIZEOF(type, field) (sizeof(((type *)0)->field))
#define sizeof_field(type, field) FIELD_SIZEOF(type, field)
#define container_of(at, type, field) ((type *)((char *)(at)-offsetof(type, field)))
#define READ_ONCE(x) (*(const volatile __typeof__(x) *)&(x))
#define WRITE_ONCE(x, value) (*(volatile __typeof__(x) *)&(x) = (value))
#define ASSERT(x) ((void)(x))
#define BUG_ON(x) ((void)(x))
#define WARN_ON(x) ((void)(x))
#define ENTRY(name) name
#define AT 1
#define COLD 1
#define INLINE 1
#define current (get_current())
#define interface struct
#define near
#define far
#define small char
#define hyper long long
#define pascal
#define cdecl
#define IN
#define OUT
#define OPTIONAL
#define CONST const
#define VOID void
#define STATIC static
#define EFIAPI
#define ERROR 0
#define DELETE 0x10000
#define NO_ERROR 0
#define NO_ADDRESS 11004
#define INTERFACE IUnknown
#define REGISTERED 1
#define unix 1
#define linux 1
#define i386 1
#define arm 1
#define mips 1
#define sun 1
#define errno (*errno_at())
#define stdin stdin
#define major(device) ((device) >> 8)
#define minor(device) ((device)&0xff)
#define cpu_to_le32(x) (x)
#define le32_to_cpu(x) (x)
#define xchg(at, value) __atomic_exchange_n(at, value, __ATOMIC_SEQ_CST)
#define memcpy(to, from, count) own_memcpy(to, from, count)
#define memmove(to, from, count) own_memmove(to, from, count)
#define memset(to, byte, count) own_memset(to, byte, count)
#endif
