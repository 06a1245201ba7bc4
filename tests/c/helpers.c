/* Calls what the C of scripts/translate/ir2c stands on, with results that were worked out by hand: rows of the library
 * see few of these numbers. Where a processor of 32 bits has a way of its own, that is what is called there. Ends with
 * status 1 if a result is another. Run with `end` or `begin`, memory is at pages that can't be touched (edges.h). */
#define _DEFAULT_SOURCE
#include "edges.h"

#include "../../scripts/translate/translator/head.c"

#define ALL (~(u64)0)
#define HIGH ((u64)1 << 63)

static int calls, failures;

static void expect(int line, u64 found, u64 wanted) {
    calls++;
    if (found == wanted) return;
    failures++;
    printf("line %d: 0x%llx, not 0x%llx\n", line, (unsigned long long)found, (unsigned long long)wanted);
}
#define IS(found, wanted) expect(__LINE__, found, wanted)

static void check_division(void) {
    IS(udiv64(0, 1), 0);
    IS(udiv64(1, 1), 1);
    IS(udiv64(99, 100), 0);
    IS(udiv64(100, 100), 1);
    IS(udiv64(1000, 7), 142); /* 994 */
    IS(udiv64(ALL, 1), ALL);
    IS(udiv64(ALL, ALL), 1);
    IS(udiv64(ALL - 1, ALL), 0);
    IS(udiv64(ALL, HIGH), 1);
    IS(udiv64(ALL, HIGH + 1), 1);
    IS(udiv64(ALL, 3), 0x5555555555555555);
    IS(udiv64(ALL, 24), 0xaaaaaaaaaaaaaaa); /* 2^64 - 16 is 24 times that, and 15 are left */
    IS(udiv64((u64)1 << 32, 2), (u64)1 << 31);
    IS(udiv64(0x123456789abcdef0, (u64)1 << 32), 0x12345678);
    IS(urem64(24, 24), 0);
    IS(urem64(1000, 7), 6);
    IS(urem64(ALL, 10), 5);  /* 18446744073709551615 */
    IS(urem64(HIGH, 12), 8); /* 0 modulo 4, and 2 modulo 3, as each odd power of 2 */
    IS(modulo_65535(0), 0);
    IS(modulo_65535(1), 1);
    IS(modulo_65535(65534), 65534);
    IS(modulo_65535(65535), 0);
    IS(modulo_65535(65536), 1);
    IS(modulo_65535(131070), 0);
    IS(modulo_65535(ALL), 0); /* four times 65535 in base 65536 */
    IS(modulo_65535(ALL - 1), 65534);
    IS(modulo_65535(0x0001000200030004), 10);
    IS(modulo_65535(0xfffe000100000000), 0); /* 0xfffe and 1 */
    IS(modulo_65535(0x00000001fffffffe), 0); /* twice 65535 times 65537 */
    IS(modulo_65535(0xffff00000000ffff), 0);
    IS(modulo_65535(0x8000800080008000), 2); /* four times 32768, 131072, less twice 65535 */
}

static void check_sums_and_products(void) {
    IS(umin8(255, 1), 1);
    IS(umin8(1, 255), 1);
    IS(umin16(0x100, 0xff), 0xff);
    IS(umin32(0x80000000, 0x7fffffff), 0x7fffffff);
    IS(umin64(HIGH, HIGH - 1), HIGH - 1);
    IS(umin64(0, ALL), 0);
    IS(umax8(255, 1), 255);
    IS(ctpop64(0), 0);
    IS(ctpop64(1), 1);
    IS(ctpop64(HIGH), 1);
    IS(ctpop64(0xf0f0), 8);
    IS(ctpop64(ALL), 64);
    IS(umax16(0x100, 0xff), 0x100);
    IS(umax32(0x7fffffff, 0x80000000), 0x80000000);
    IS(umax64(HIGH, HIGH - 1), HIGH);
    IS(usub_sat8(3, 5), 0);
    IS(usub_sat8(5, 3), 2);
    IS(usub_sat16(0, 65535), 0);
    IS(usub_sat16(65535, 1), 65534);
    IS(usub_sat32(0, 1), 0);
    IS(usub_sat32(0x80000000, 1), 0x7fffffff);
    IS(usub_sat64(36, 36), 0);
    IS(usub_sat64(35, 36), 0);
    IS(usub_sat64(ALL, HIGH), HIGH - 1);
    IS(uadd_sat32(0xfffffffe, 1), 0xffffffff);
    IS(uadd_sat32(0xfffffffe, 2), 0xffffffff);
    IS(uadd_sat32(1, 2), 3);
    IS(uadd_sat64(ALL - 1, 1), ALL);
    IS(uadd_sat64(ALL, 1), ALL);
    IS(uadd_sat64(HIGH, HIGH), ALL);
    IS(uadd_sat64(0xffffffff, 1), 0x100000000);
    IS(uadd_over64(ALL, 1).a, 0);
    IS(uadd_over64(ALL, 1).b, 1);
    IS(uadd_over64(ALL, 0).b, 0);
    IS(uadd_over64(HIGH, HIGH - 1).a, ALL);
    IS(uadd_over64(HIGH, HIGH - 1).b, 0);
    IS(uadd_over64(ALL, ALL).b, 1);
    IS(umul_over64(0, ALL).b, 0);
    IS(umul_over64(1, ALL).a, ALL);
    IS(umul_over64(1, ALL).b, 0);
    IS(umul_over64(2, HIGH).a, 0);
    IS(umul_over64(2, HIGH).b, 1);
    IS(umul_over64(HIGH, 2).b, 1);
    IS(umul_over64(2, HIGH - 1).a, ALL - 1);
    IS(umul_over64(2, HIGH - 1).b, 0);
    IS(umul_over64(0x100000000, 0x100000000).b, 1);
    IS(umul_over64(0x100000000, 0xffffffff).a, 0xffffffff00000000);
    IS(umul_over64(0x100000000, 0xffffffff).b, 0);
    IS(umul_over64(0xffffffff, 0x100000000).b, 0);
    /* 2^64 - 1 is the product of 2^32 - 1 and 2^32 + 1, with nothing above; one more is above by the lower halves. */
    IS(umul_over64(0xffffffff, 0x100000001).a, ALL);
    IS(umul_over64(0xffffffff, 0x100000001).b, 0);
    IS(umul_over64(0x100000001, 0xffffffff).b, 0);
    IS(umul_over64(0xffffffff, 0x100000002).b, 1);
    IS(umul_over64(0x100000002, 0xffffffff).b, 1);
    IS(umul_over64(0xffffffff, 0x100000002).a, 0xfffffffe); /* 2^64 - 1 + 2^32 - 1 */
    /* 2.25 times 2^64: above are 1, of the upper halves, and 1, of the sum of the other products. */
    IS(umul_over64(0x180000000, 0x180000000).b, 1);
    IS(umul_over64(0x100010000, 0x10000).a, 0x1000100000000); /* 2^48 and 2^32 */
    IS(umul_over64(0x100010000, 0x10000).b, 0);
    IS(umul_over64(0x10000, 0x100010000).b, 0);
    IS(umul_over64(24, 0x0aaaaaaaaaaaaaaa).a, ALL - 15);
    IS(umul_over64(24, 0x0aaaaaaaaaaaaaaa).b, 0);
    IS(umul_over64(24, 0x0aaaaaaaaaaaaaab).b, 1);
    IS(umul_over64(ALL, ALL).a, 1);
    IS(umul_over64(ALL, ALL).b, 1);
}

static void check_bits(void) {
    int place;
    IS(ashr8(0x80, 0), 0x80);
    IS(ashr8(0x80, 3), 0xf0);
    IS(ashr8(0x7f, 3), 0x0f);
    IS(ashr8(0xff, 7), 0xff);
    IS(ashr16(0x8001, 1), 0xc000);
    IS(ashr16(0x7fff, 15), 0);
    IS(ashr16(0xffff, 15), 0xffff);
    IS(ashr32(0x80000000, 31), 0xffffffff);
    IS(ashr32(0x40000000, 30), 1);
    IS(ashr64(HIGH, 63), ALL);
    IS(ashr64(HIGH, 1), (u64)3 << 62);
    IS(ashr64(HIGH - 1, 62), 1);
    IS(cttz64(0), 64);
    for (place = 0; place < 64; place++) {
        IS(cttz64((u64)1 << place), place);
        IS(cttz64(ALL << place), place);
        IS(cttz64(HIGH | (u64)1 << place), place);
    }
    IS(fshl16(0x1234, 0x5678, 0), 0x1234);
    IS(fshl16(0x1234, 0x5678, 4), 0x2345);
    IS(fshl16(0x1234, 0x5678, 8), 0x3456);
    IS(fshl16(0x1234, 0x5678, 15),
       0x2b3c); /* no bit of 0x1234, of which the lowest is 0, and 0x5678 without its lowest */
    IS(fshl16(0x1234, 0x5678, 20), 0x2345);
    IS(fshl32(0x12345678, 0x9abcdef0, 8), 0x3456789a);
    IS(fshl32(0x12345678, 0x9abcdef0, 0), 0x12345678);
    IS(fshl32(0x12345678, 0x9abcdef0, 20), 0x6789abcd);
    IS(fshl32(0x12345678, 0x9abcdef0, 36), 0x23456789);
    IS(fshl64(1, HIGH, 1), 3);
    IS(fshl64(1, HIGH, 64), 1);
    IS(fshl64(0x0123456789abcdef, 0xfedcba9876543210, 16), 0x456789abcdeffedc);
    IS(fshl64(0x0123456789abcdef, 0xfedcba9876543210, 40), 0xabcdeffedcba9876);
}

/* The last bytes, each by what has its width, and the first ones. */
static void check_edges(u8 *bytes, u8 *copied) {
    IS(load16(bytes + 70), 0x4847);
    IS(load32(bytes + 68), 0x48474645);
    IS(load64(bytes + 64), 0x4847464544434241);
    IS(load16u(bytes + 70), 0x4847);
    IS(load32u(bytes + 68), 0x48474645);
    IS(load64u(bytes + 64), 0x4847464544434241);
    IS(load_address(bytes + 64), (uptr)0x4847464544434241);
    IS(load_bytes(bytes + 69, 3), 0x484746);
    IS(load_bytes(bytes + 65, 7), 0x48474645444342);
    copy_most((uptr)copied, (uptr)(bytes + 64), 8, 8);
    IS(load64(copied), 0x4847464544434241);
    copy((uptr)(bytes + 64), (uptr)bytes, 8);
    IS(load64(bytes + 64), 0x0807060504030201);
    move((uptr)(bytes + 65), (uptr)(bytes + 64), 7);
    IS(load64(bytes + 64), 0x0706050403020101);
    fill((uptr)(bytes + 69), 9, 3);
    IS(load64(bytes + 64), 0x0909090403020101);
    fill((uptr)copied, 9, 1);
    IS(load64(copied), 0x4847464544434209);
    store16(bytes + 70, 0x1211);
    IS(load32(bytes + 68), 0x12110904);
    store16u(bytes + 70, 0x2221);
    IS(load32(bytes + 68), 0x22210904);
    store32u(bytes + 68, 0x34333231);
    IS(load64(bytes + 64), 0x3433323103020101);
    store32(bytes + 68, 0x44434241);
    IS(load64(bytes + 64), 0x4443424103020101);
    store_bytes(bytes + 69, 0x535251, 3);
    IS(load64(bytes + 64), 0x5352514103020101);
    store64u(bytes + 64, 7);
    IS(load64(bytes + 64), 7);
    store_address(bytes + 64, 8);
    IS(load64(bytes + 64), 8);
}

static void check_memory(void) {
    u8 *const bytes = (u8 *)painted_at_edge(72), *const copied = (u8 *)painted_at_edge(8);
    int i;
    for (i = 0; i < 72; i++) bytes[i] = (u8)(i + 1);
    check_edges(bytes, copied);
    for (i = 0; i < 72; i++) bytes[i] = (u8)(i + 1);
    IS(load16(bytes), 0x0201);
    IS(load32(bytes), 0x04030201);
    IS(load64(bytes), 0x0807060504030201);
    IS(load16u(bytes + 1), 0x0302);
    IS(load32u(bytes + 1), 0x05040302);
    IS(load64u(bytes + 1), 0x0908070605040302);
    IS(load_bytes(bytes + 1, 3), 0x040302);
    IS(load_bytes(bytes, 7), 0x07060504030201);
    store_bytes(copied, 0x1122334455667788, 8);
    store_bytes(copied + 1, 0xaabbcc, 3);
    IS(load64u(copied), 0x11223344aabbcc88);
    store16(bytes + 2, 0xbeef);
    store32(bytes + 4, 0xfeedface);
    IS(load64(bytes), 0xfeedfacebeef0201);
    store64u(bytes + 1, 0);
    IS(load64(bytes), 1);
    IS(bytes[8], 0);
    IS(bytes[9], 10);
    store64(bytes + 8, ALL);
    store16u(bytes + 9, 0x1234);
    store32u(bytes + 11, 0x56789abc);
    IS(load64(bytes + 8), 0xff56789abc1234ff);
    /* The whole slot of a pointer is written, and the first bytes of it are read. */
    memset(bytes, 0xff, 16);
    store_address(bytes, (uptr)0x12345678);
    IS(load64(bytes), 0x12345678);
    bytes[7] = 0x80;
    IS(load_address(bytes), (uptr)0x8000000012345678);
    copy((uptr)copied, (uptr)(bytes + 16), 8);
    IS(load64u(copied), 0x1817161514131211);
    copy(16, 16, 0); /* no memory is there, and none is touched */
    copy_most((uptr)copied, (uptr)(bytes + 32), 3, 4);
    IS(load64u(copied), 0x1817161514232221);
    copy_most((uptr)copied, (uptr)(bytes + 32), 9, 4);
    IS(load64u(copied), 0x1817161524232221);
    copy_most((uptr)copied, (uptr)(bytes + 40), 4, 4);
    IS(load64u(copied), 0x181716152c2b2a29);
    copy_most((uptr)copied, 16, 0, 4);
    IS(load64u(copied), 0x181716152c2b2a29);
    move((uptr)(bytes + 17), (uptr)(bytes + 16), 4);
    IS(load64(bytes + 16), 0x1817161413121111);
    move((uptr)(bytes + 16), (uptr)(bytes + 17), 4);
    IS(load64(bytes + 16), 0x1817161414131211);
    move(16, 17, 0);
    fill((uptr)(bytes + 24), 7, 3);
    IS(load32(bytes + 24), 0x1c070707);
    fill(16, 7, 0);
}

static void check_lanes(void) {
    u8 *const bytes = (u8 *)painted_at_edge(64), *const ones = (u8 *)painted_at_edge(16);
    lanes sum;
    int i;
    for (i = 0; i < 64; i++) bytes[i] = (u8)(255 - i);
    memset(ones, 1, 16);
    IS(lanes_sum(lanes_load(ones)), 16);
    /* 255 down to 240: sixteen times 255, less 0 + 1 + .. + 15, which is 120; 3960 modulo 256 */
    IS(lanes_sum(lanes_load(bytes)), 3960 - 15 * 256);
    sum = lanes_add(lanes_load(bytes), lanes_load(ones)); /* the first lane is 0, and nothing goes to the second */
    IS(lanes_sum(sum), 3960 + 16 - 15 * 256);
    ones[15] = 0xf0;
    IS(lanes_sum(lanes_and(lanes_load(bytes), lanes_load(ones))),
       0xf0 + 8); /* 255, 253, .. 241 are odd; 240 has 0xf0 */
    for (i = 0; i < 64; i++) bytes[i] = i % 8 ? 0 : (u8)(i / 8 + 1);
    IS(sum_words(bytes, ALL), 36);
    IS(sum_words(bytes, 6), 24); /* 0, 2, 2, 4, 4, 6, 6 and 0 */
}

int main(int argc, char **argv) {
    if (!edge_of(argc, argv)) return 2;
    check_division();
    check_sums_and_products();
    check_bits();
    check_memory();
    check_lanes();
    printf("%d results of helpers\n", calls);
    return failures != 0;
}
