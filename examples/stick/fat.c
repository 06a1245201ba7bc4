/* SPDX-License-Identifier: MIT */
/* BIOS.TXT, by its entry in the root folder and its chain of clusters as they are now, in the FAT32 file system of the
 * stick's first partition (Microsoft's FAT32 File System Specification, 1.03). Nothing is written unless each of these
 * clusters is the file's and no other file's. */
#include "bios.h"
#include "stick.h"

enum { SECTOR = 512, NUMBERS = SECTOR / 4, PIECE = 16, MOST_CLUSTERS = 1 << 17, MOST_FOLDERS = 1024, STEPS = 4096 };
enum { UNREAD = 1, CHAIN_END = 0xffffff8 };     /* numbers of a table: of no cluster, and from which on a chain ends */
enum { READ_ONLY = 1, LABEL = 8, FOLDER = 16 }; /* attributes; a part of a long name has LABEL too */

static const char unreadable[] = "the stick can't be read", damaged[] = "the stick's file system is damaged",
                  shared[] = "another file shares its clusters", many[] = "the stick has too many folders";
static uint8_t there[BLOCK] __attribute__((aligned(16)));          /* what was read */
static uint8_t table[PIECE * SECTOR] __attribute__((aligned(16))); /* of the first table, from `table_sector` on */
static uint32_t table_sector, tables, table_sectors, data, each, clusters, root; /* `each`: sectors of a cluster */
static uint32_t first, length, starts, waiting, steps, folders[MOST_FOLDERS];
static uint8_t ours[MOST_CLUSTERS / 8]; /* a bit for each cluster: whether it is the file's */
static uint32_t cluster, within;        /* the file's next sector is this one of this cluster */

static uint32_t number(const uint8_t *bytes, int count) {
    uint32_t x = 0;
    while (count--) x = x << 8 | bytes[count];
    return x;
}
static int is_cluster(uint32_t at) { return at >= 2 && at < clusters + 2; }
static int is_ours(uint32_t at) { return is_cluster(at) && ours[at / 8] >> at % 8 & 1; }
static uint32_t sector_of(uint32_t at) { return data + (at - 2) * each; }

/* What the first table has for a cluster: the next one of its chain. */
static uint32_t after(uint32_t at) {
    const uint32_t sector = tables + at / NUMBERS / PIECE * PIECE;
    if (sector != table_sector) {
        table_sector = 0;
        if (transfer(READ, table, sector, PIECE)) return UNREAD;
        table_sector = sector;
    }
    return number(table + at % (PIECE * NUMBERS) * 4, 4) & 0xfffffff;
}

/* Reads where the file system has its parts: two tables that are the same, and then the clusters. What FAT12 and FAT16
 * have at 17 to 20 and at 22 is 0, as are flags and version at 40. */
static const char *open_volume(void) {
    uint32_t begin, size, reserved, sectors;
    if (transfer(READ, there, 0, 1)) return unreadable;
    begin = number(there + 454, 4), size = number(there + 458, 4);
    if (transfer(READ, there, begin, 1)) return unreadable;
    each = there[13], reserved = number(there + 14, 2), sectors = number(there + 32, 4);
    table_sectors = number(there + 36, 4), root = number(there + 44, 4);
    if (number(there + 510, 2) != 0xaa55 || number(there + 11, 2) != SECTOR || !each || each & (each - 1) ||
        !reserved || there[16] != 2 || number(there + 17, 4) || number(there + 22, 2) || number(there + 40, 4) ||
        begin > UINT32_MAX - size || sectors > size || table_sectors > MOST_CLUSTERS ||
        reserved + 2 * table_sectors >= sectors)
        return "the stick's file system isn't the image's";
    tables = begin + reserved, data = tables + 2 * table_sectors;
    clusters = (sectors - reserved - 2 * table_sectors) / each;
    return clusters > MOST_CLUSTERS - 2 || clusters + 2 > table_sectors * NUMBERS ? damaged : 0;
}

/* Passes the entries of a folder to a function, up to its first error. Folders of more than STEPS clusters aren't read:
 * they could be a loop. */
static const char *walk(uint32_t at, const char *(*take)(const uint8_t *entry)) {
    for (; is_cluster(at); at = after(at)) {
        if (!steps--) return many;
        for (uint32_t i = 0; i < each; i++) {
            if (transfer(READ, there, sector_of(at) + i, 1)) return unreadable;
            for (const uint8_t *entry = there; entry < there + SECTOR; entry += 32) {
                const char *why = 0;
                if (!*entry) return 0;
                if (*entry != 0xe5 && !(entry[11] & LABEL)) why = take(entry);
                if (why) return why;
            }
        }
    }
    return at < CHAIN_END ? damaged : 0;
}
static uint32_t cluster_of(const uint8_t *entry) { return number(entry + 20, 2) << 16 | number(entry + 26, 2); }

static const char *take_file(const uint8_t *entry) {
    for (int i = 0; i < 11; i++)
        if (entry[i] != "BIOS    TXT"[i]) return 0;
    if (first) return "it is there twice";
    if (entry[11] & (READ_ONLY | FOLDER)) return "it is read-only, or a folder";
    first = cluster_of(entry), length = number(entry + 28, 4);
    return 0;
}
/* Marks the clusters of the file's chain, which has to end where its length does. */
static const char *mark_chain(void) {
    const uint32_t size = each * SECTOR;
    uint32_t at = first;
    for (uint32_t left = length / size + (length % size != 0); left; left--) {
        if (!is_cluster(at) || is_ours(at)) return "its chain of clusters is damaged";
        ours[at / 8] |= (uint8_t)(1 << at % 8);
        at = after(at);
    }
    return at < CHAIN_END ? "its chain of clusters is longer than it is" : 0;
}
/* Both tables are the same, and lead to each cluster of the file but its first once. */
static const char *check_tables(void) {
    uint32_t links = 0, marked = 0;
    for (uint32_t at = 0; at < clusters + 2; at++) {
        const uint32_t next = after(at), i = at % (PIECE * NUMBERS);
        if (!i && transfer(READ, there, table_sector + table_sectors, PIECE)) return unreadable;
        if (at < 2) continue;
        if (next != (number(there + i * 4, 4) & 0xfffffff)) return damaged;
        links += (uint32_t)is_ours(next), marked += (uint32_t)is_ours(at);
    }
    return links + 1 == marked ? 0 : shared;
}
static const char *take_any(const uint8_t *entry) {
    starts += (uint32_t)is_ours(cluster_of(entry));
    if (!(entry[11] & FOLDER) || *entry == '.') return 0;
    if (waiting == MOST_FOLDERS) return many;
    folders[waiting++] = cluster_of(entry);
    return 0;
}
/* In all folders the file's entry is the only one that begins with one of its clusters. */
static const char *check_folders(void) {
    steps = STEPS, folders[0] = root, waiting = 1;
    while (waiting) {
        const char *const why = walk(folders[--waiting], take_any);
        if (why) return why;
    }
    return starts == 1 && !is_ours(root) ? 0 : shared;
}

const char *file_name(void) { return "BIOS.TXT"; }
const char *open_file(size_t needed) {
    const char *why = open_volume();
    steps = STEPS;
    if (!why) why = walk(root, take_file);
    if (why) return why;
    if (!first) return "it isn't there, or is empty";
    if (length < needed) return "it is too short";
    why = mark_chain();
    if (!why) why = check_tables();
    if (!why) why = check_folders();
    if (why) return why;
    if (transfer(READ, there, sector_of(first), 1)) return unreadable;
    for (int i = 0; i < 8; i++)
        if (there[i] != "# zacpi "[i]) return "it is another text";
    cluster = first, within = 0;
    return 0;
}

/* The file's next sectors, at most so many, that are one after the other on the stick: from which on, and how many. */
static uint32_t next_sectors(uint32_t most, uint32_t *from) {
    uint32_t count = 0;
    *from = sector_of(cluster) + within;
    while (count < most && is_ours(cluster) && sector_of(cluster) + within == *from + count) {
        count++;
        if (++within == each) within = 0, cluster = after(cluster);
    }
    return count;
}
static const char *write_sectors(uint8_t *bytes, uint32_t from, uint32_t count) {
    if (transfer(WRITE, bytes, from, count)) return "the stick can't be written";
    if (transfer(READ, there, from, count)) return unreadable;
    for (uint32_t i = 0; i < count * SECTOR; i++)
        if (there[i] != bytes[i]) return "the stick hasn't kept what was written";
    return 0;
}
const char *write_block(uint8_t *block, size_t used) {
    uint32_t left = (uint32_t)(used + SECTOR - 1) / SECTOR, from;
    while (used < left * SECTOR) block[used++] = '\n';
    while (left) {
        const uint32_t count = next_sectors(left, &from);
        const char *const why = count ? write_sectors(block, from, count) : damaged;
        if (why) return why;
        block += count * SECTOR, left -= count;
    }
    return 0;
}
/* What an earlier text left in the rest of the file goes. */
const char *close_file(uint8_t *block) {
    uint32_t from, count;
    for (size_t i = 0; i < BLOCK; i++) block[i] = '\n';
    while ((count = next_sectors(BLOCK / SECTOR, &from)) != 0) {
        const char *why = 0;
        if (transfer(READ, there, from, count)) return unreadable;
        for (uint32_t i = 0; i < count * SECTOR && !why; i++)
            if (there[i] != '\n') why = write_sectors(block, from, count);
        if (why) return why;
    }
    return cluster < CHAIN_END ? unreadable : 0;
}
