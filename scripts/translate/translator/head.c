/* What the C of scripts/translate/ir2c stands on. That script copies this file to the front of what it makes, and
 * leaves out the paragraphs whose first function nobody calls; tests/c/helpers.c takes it as it is. Numbers are
 * unsigned, so nothing overflows; an address is a number until memory is read or written, which memcpy alone does. */
#if defined(__BYTE_ORDER__) && __BYTE_ORDER__ != __ORDER_LITTLE_ENDIAN__
#error "zacpi.c is for processors that are little endian"
#endif
/* Where the proof says that nobody comes the program stops, or with ZACPI_ASSUME compilers leave that code out. LLVM's
 * memcpy may be of a place to itself, as that of gcc and clang may by their documents; others use memmove. */
/* All code is in the section that ZACPI_SECTION names, as ".init.text". Without it compilers choose, and put what is
 * rarely run into .text.unlikely. A call isn't made a part of its caller in one unit with this file: what it returned is
 * then a number to the compiler, which warns that it may not be set. */
#if defined(__GNUC__)
#pragma GCC diagnostic push
#pragma GCC diagnostic ignored "-Wdeclaration-after-statement"
#if !defined(__clang__) /* A record is copied as a whole, also where a part of it has no value. */
#pragma GCC diagnostic ignored "-Wmaybe-uninitialized"
#endif
#define memcpy __builtin_memcpy
#define memmove __builtin_memmove
#define memset __builtin_memset
#if defined(ZACPI_SECTION)
#define SECTION __attribute__((__section__(ZACPI_SECTION)))
#else
#define SECTION
#endif
#define ALIGNED(n) __attribute__((__aligned__(n)))
#define COLD __attribute__((__cold__))
#define APART static SECTION __attribute__((__noinline__))
#define ENTRY SECTION __attribute__((__noinline__))
#define INLINE static inline __attribute__((__always_inline__))
#define LOCAL static SECTION
#define IS_ALIGNED(at, n) __builtin_assume_aligned(at, n)
#if defined(ZACPI_ASSUME)
#define UNREACHABLE() __builtin_unreachable()
#else
#define UNREACHABLE() __builtin_trap()
#endif
#else
#include <string.h>
#undef memcpy
#define memcpy memmove
#if defined(_MSC_VER)
#define ALIGNED(n) __declspec(align(n))
#define INLINE static __inline
#else
#define ALIGNED(n) _Alignas(n)
#define INLINE static inline
#endif
#define COLD
#define APART static
#define ENTRY
#define LOCAL static
#define IS_ALIGNED(at, n) (at)
#define UNREACHABLE() for (;;) { }
#endif

/* What a caller that is compiled without vector registers refers to (zacpi.h). */
#if defined(ZACPI_NO_VECTORS)
const uint8_t zacpi_needs_kernel_archive = 0;
#endif

/* Whether sums of bytes are made in vectors; the library is proved for either. */
#if defined(__GNUC__) && (defined(__SSE2__) || defined(__ARM_NEON))
#define HAS_VECTORS 1
#else
#define HAS_VECTORS 0
#endif

/* For a caller that never passes the start of a search: such a start is then an unknown one. */
#if defined(ZACPI_NO_SEARCH)
#define KNOWN_START(start) ((start) < 3 ? (start) : ~(u32)0)
#else
#define KNOWN_START(start) (start)
#endif

typedef uint8_t u8;
typedef uint16_t u16;
typedef uint32_t u32;
typedef uint64_t u64;
typedef int8_t s8;
typedef int16_t s16;
typedef int32_t s32;
typedef int64_t s64;
typedef uintptr_t uptr;

/* The memory at an address. */
#define AT(number) ((u8 *)(number))

/* The alignment of words of 8 bytes, where a processor of 32 bits has no use for more than 4. */
#if ZACPI_IS_64_BIT
#define EIGHT 8
#else
#define EIGHT 4
#endif

INLINE u16 load16(const void *at) { u16 value; memcpy(&value, IS_ALIGNED(at, 2), 2); return value; }

INLINE u32 load32(const void *at) { u32 value; memcpy(&value, IS_ALIGNED(at, 4), 4); return value; }

INLINE u64 load64(const void *at) { u64 value; memcpy(&value, IS_ALIGNED(at, EIGHT), 8); return value; }

/* The same at any address. */
INLINE u16 load16u(const void *at) { u16 value; memcpy(&value, at, 2); return value; }

INLINE u32 load32u(const void *at) { u32 value; memcpy(&value, at, 4); return value; }

INLINE u64 load64u(const void *at) { u64 value; memcpy(&value, at, 8); return value; }

/* Numbers of 3, 5, 6 or 7 bytes. */
INLINE u64 load_bytes(const void *at, unsigned count) { u64 value = 0; memcpy(&value, at, count); return value; }

INLINE void store16(void *at, u16 value) { memcpy(IS_ALIGNED(at, 2), &value, 2); }

INLINE void store32(void *at, u32 value) { memcpy(IS_ALIGNED(at, 4), &value, 4); }

INLINE void store64(void *at, u64 value) { memcpy(IS_ALIGNED(at, EIGHT), &value, 8); }

INLINE void store16u(void *at, u16 value) { memcpy(at, &value, 2); }

INLINE void store32u(void *at, u32 value) { memcpy(at, &value, 4); }

INLINE void store64u(void *at, u64 value) { memcpy(at, &value, 8); }

INLINE void store_bytes(void *at, u64 value, unsigned count) { memcpy(at, &value, count); }

/* A pointer in memory has 8 bytes, of which one of 32 bits is in the first 4, and the others are 0. */
INLINE uptr load_address(const void *at) { return (uptr)load64u(at); }

INLINE void store_address(void *at, uptr value) { store64u(at, value); }

/* C wants a pointer to memory even for no bytes. */
INLINE void copy(uptr to, uptr from, size_t count) { if (count) memcpy(AT(to), AT(from), count); }

/* The same of no more bytes than so many, which mostly are there. */
APART COLD void copy_few(uptr to, uptr from, size_t count) { copy(to, from, count); }
INLINE void copy_most(uptr to, uptr from, u64 count, size_t most) {
    if (count >= most) memcpy(AT(to), AT(from), most);
    else copy_few(to, from, (size_t)count);
}

INLINE void move(uptr to, uptr from, size_t count) { if (count) memmove(AT(to), AT(from), count); }

INLINE void fill(uptr to, u8 value, size_t count) { if (count) memset(AT(to), value, count); }

INLINE u8 umin8(u8 a, u8 b) { return a < b ? a : b; }

INLINE u16 umin16(u16 a, u16 b) { return a < b ? a : b; }

INLINE u32 umin32(u32 a, u32 b) { return a < b ? a : b; }

INLINE u64 umin64(u64 a, u64 b) { return a < b ? a : b; }

INLINE u8 umax8(u8 a, u8 b) { return a > b ? a : b; }

INLINE u16 umax16(u16 a, u16 b) { return a > b ? a : b; }

INLINE u32 umax32(u32 a, u32 b) { return a > b ? a : b; }

INLINE u64 umax64(u64 a, u64 b) { return a > b ? a : b; }

/* A difference that is 0 rather than below, and a sum that is all ones rather than above. */
INLINE u8 usub_sat8(u8 a, u8 b) { return a > b ? (u8)(a - b) : 0; }

INLINE u16 usub_sat16(u16 a, u16 b) { return a > b ? (u16)(a - b) : 0; }

INLINE u32 usub_sat32(u32 a, u32 b) { return a > b ? a - b : 0; }

INLINE u64 usub_sat64(u64 a, u64 b) { return a > b ? a - b : 0; }

INLINE u32 uadd_sat32(u32 a, u32 b) { return a > 0xffffffff - b ? 0xffffffff : a + b; }

INLINE u64 uadd_sat64(u64 a, u64 b) { return a > ~(u64)0 - b ? ~(u64)0 : a + b; }

/* The upper half of two numbers beside each other that are shifted to the left by n modulo their bits. */
INLINE u16 fshl16(u16 a, u16 b, u16 n) { return n & 15 ? (u16)((u32)a << (n & 15) | b >> (16 - (n & 15))) : a; }

INLINE u32 fshl32(u32 a, u32 b, u32 n) { return n & 31 ? a << (n & 31) | b >> (32 - (n & 31)) : a; }

INLINE u64 fshl64(u64 a, u64 b, u64 n) { return n & 63 ? a << (n & 63) | b >> (64 - (n & 63)) : a; }

/* A shift to the right that copies the sign. */
INLINE u8 ashr8(u8 a, u8 n) { return a >> 7 ? (u8)~((u8)~a >> n) : (u8)(a >> n); }

INLINE u16 ashr16(u16 a, u16 n) { return a >> 15 ? (u16)~((u16)~a >> n) : (u16)(a >> n); }

INLINE u32 ashr32(u32 a, u32 n) { return a >> 31 ? ~(~a >> n) : a >> n; }

INLINE u64 ashr64(u64 a, u64 n) { return a >> 63 ? ~(~a >> n) : a >> n; }

/* How many zeros are below the lowest bit that is set, or 64. */
INLINE u64 cttz64(u64 value) {
    u64 count = 0;
    unsigned step;
    if (!value) return 64;
    for (step = 32; step; step /= 2) {
        if (value & (((u64)1 << step) - 1)) continue;
        value >>= step;
        count += step;
    }
    return count;
}

/* How many bits are set. */
INLINE u64 ctpop64(u64 value) { u64 count = 0; for (; value; value &= value - 1) count++; return count; }

/* Sum and product, and whether they have more than 64 bits: with no number of 128 bits, and no division. */
struct pair_64_1 { u64 a; _Bool b; };

INLINE struct pair_64_1 uadd_over64(u64 a, u64 b) {
    struct pair_64_1 made;
    made.a = a + b;
    made.b = made.a < a;
    return made;
}

INLINE struct pair_64_1 umul_over64(u64 a, u64 b) {
    const u64 low = (a & 0xffffffff) * (b & 0xffffffff);
    const u64 one = (a >> 32) * (b & 0xffffffff), other = (a & 0xffffffff) * (b >> 32);
    const u64 middle = (low >> 32) + (one & 0xffffffff) + (other & 0xffffffff);
    struct pair_64_1 made;
    made.a = a * b;
    made.b = ((a >> 32) * (b >> 32) + (one >> 32) + (other >> 32) + (middle >> 32)) != 0;
    return made;
}

/* Division with no call of the compiler's library, which kernels of 32 bits don't link: a bit at a time. */
#if ZACPI_IS_64_BIT
INLINE u64 udiv64(u64 a, u64 b) { return a / b; }
#else
APART u64 udiv64(u64 a, u64 b) {
    u64 rest = 0;
    int place;
    for (place = 0; place < 64; place++) {
        rest = rest << 1 | a >> 63; /* of a's bits so far, at most 64 */
        a <<= 1;
        if (rest >= b) {
            rest -= b;
            a |= 1;
        }
    }
    return a;
}
#endif

INLINE u64 urem64(u64 a, u64 b) { return a - udiv64(a, b) * b; }

/* The rest modulo 65535, of which 2^16 is 1: each two bytes count alike. */
#if ZACPI_IS_64_BIT
INLINE u64 modulo_65535(u64 a) { return a % 65535; }
#else
INLINE u64 modulo_65535(u64 a) {
    u32 rest;
    a = (a >> 32) + (a & 0xffffffff);
    rest = (u32)(a >> 32) + (u32)(a >> 16 & 0xffff) + (u32)(a & 0xffff);
    rest = (rest >> 16) + (rest & 0xffff);
    rest = (rest >> 16) + (rest & 0xffff);
    return rest == 65535 ? 0 : rest;
}
#endif

/* The sum of eight words, of each the bits of the mask. */
INLINE u64 sum_words(const u8 *at, u64 mask) {
    return (load64u(at) & mask) + (load64u(at + 8) & mask) + (load64u(at + 16) & mask) + (load64u(at + 24) & mask) +
           (load64u(at + 32) & mask) + (load64u(at + 40) & mask) + (load64u(at + 48) & mask) + (load64u(at + 56) & mask);
}

/* Sixteen bytes, each of which is a number of its own. Without vectors this is compiled, but never runs. */
#if HAS_VECTORS
typedef u8 lanes __attribute__((__vector_size__(16)));
INLINE lanes lanes_load(const void *at) { lanes value; memcpy(&value, at, 16); return value; }
INLINE lanes lanes_add(lanes a, lanes b) { return a + b; }
INLINE lanes lanes_and(lanes a, lanes b) { return a & b; }
#else
typedef struct { u8 at[16]; } lanes;
INLINE lanes lanes_load(const void *at) { lanes value; memcpy(&value, at, 16); return value; }
INLINE lanes lanes_add(lanes a, lanes b) { int i; for (i = 0; i < 16; i++) a.at[i] = (u8)(a.at[i] + b.at[i]); return a; }
INLINE lanes lanes_and(lanes a, lanes b) { int i; for (i = 0; i < 16; i++) a.at[i] &= b.at[i]; return a; }
#endif

/* The sum of the sixteen modulo 256: on x86 by its instruction for each half, on others with vectors by a loop that
 * compilers have one for, else in four lanes of 16 bits, which a product adds up in its upper one. */
INLINE u8 lanes_sum(lanes value) {
#if HAS_VECTORS && defined(__SSE2__)
    typedef char signed_lanes __attribute__((__vector_size__(16)));
    typedef long long halves __attribute__((__vector_size__(16)));
    const signed_lanes none = {0};
    const halves sums = (halves)__builtin_ia32_psadbw128((signed_lanes)value, none);
    return (u8)(sums[0] + sums[1]);
#elif HAS_VECTORS
    u8 sum = 0;
    int i;
    for (i = 0; i < 16; i++) sum = (u8)(sum + value[i]);
    return sum;
#else
    const u64 mask = 0x00ff00ff00ff00ff;
    u64 half[2], four;
    memcpy(half, &value, 16);
    four = (half[0] & mask) + (half[0] >> 8 & mask) + (half[1] & mask) + (half[1] >> 8 & mask);
    return (u8)((four * 0x0001000100010001) >> 48);
#endif
}
