/* Damages copies of an image, the same each time. */
#ifndef DAMAGE_H
#define DAMAGE_H
#include "chance.h"
#include <string.h>

/* What sums to 0 in an image: where it begins, how many bytes its record has from there on, how many of these are its
 * head and how many come first after that, and where its length and its checksum stand. */
static struct sum { size_t at, left, head, after, length_at, checksum_at; } sums[256];
static size_t sums_count;

static size_t four(const uint8_t *p) { return p[0] | (size_t)p[1] << 8 | (size_t)p[2] << 16 | (size_t)p[3] << 24; }

static uint8_t sum_of(const uint8_t *bytes, size_t length) {
    uint8_t sum = 0;
    while (length--) sum = (uint8_t)(sum + bytes[length]);
    return sum;
}

static void add_sum(size_t at, size_t left, size_t head, size_t after, size_t length_at, size_t checksum_at) {
    const struct sum sum = {at, left, head, after < 128 ? after : 128, length_at, checksum_at};
    if (sums_count < sizeof sums / sizeof *sums) sums[sums_count++] = sum;
}

/* Finds the tables of a record that begins at a place in an image (Length at 4, Checksum at 9, section 5.2.6), and its
 * RSDPs (Checksum at 8, of 20 bytes; Length at 20 and Extended Checksum at 32, section 5.2.5.3). */
static void find_sums(const uint8_t *image, size_t at, size_t left) {
    for (; left >= 20; at++, left--) {
        const uint8_t *p = image + at;
        size_t letters = 0, k;
        if (!memcmp(p, "RSD PTR ", 8)) {
            add_sum(at, left, 20, 0, 0, 8);
            if (left >= 36 && p[15]) add_sum(at, left, 36, 0, 20, 32);
            continue;
        }
        for (k = 0; k < 4; k++) letters += (p[k] >= 'A' && p[k] <= 'Z') || (p[k] >= '0' && p[k] <= '9');
        if (letters == 4 && four(p + 4) >= 36 && four(p + 4) <= left && !sum_of(p, four(p + 4)))
            add_sum(at, left, 36, four(p + 4) - 36, 4, 9);
    }
}

/* Sets the checksums of what still lies in its record by its length. */
static void sum_again(uint8_t *image) {
    const struct sum *it;
    for (it = sums; it < sums + sums_count; it++) {
        uint8_t *p = image + it->at;
        const size_t length = it->length_at ? four(p + it->length_at) : 20;
        if (length > it->checksum_at && length <= it->left)
            p[it->checksum_at] = (uint8_t)(p[it->checksum_at] - sum_of(p, length));
    }
}

/* Changes one to four bytes: most in the first bytes after the head of a table, where its fields and first entries are,
 * some in a head, and a few anywhere. Seven of eight copies have sums that are right again. */
static void damage(uint8_t *image, size_t length) {
    size_t changes = 1 + below(4);
    if (!length) return;
    while (changes--) {
        size_t at = below(length);
        if (sums_count && below(16)) {
            const struct sum *it = &sums[below(sums_count)];
            at = it->at + (it->after && below(4) ? it->head + below(it->after) : below(it->head));
        }
        /* Small numbers are lengths and types, so every other byte becomes one. */
        image[at] = (uint8_t)below(below(2) ? 256 : 32);
    }
    if (below(8)) sum_again(image);
}
#endif
