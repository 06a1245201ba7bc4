/* raw: the inlines over bytes. Whether zacpi_wake_processor writes a mailbox as it has to, byte by byte, without a
 * firmware and with one, which is another process over the same memory; which accesses it makes, in which order; the
 * lengths of a HEST's structures; what the structs of an RHCT have of one that was written; and a table that is changed
 * in place. A mailbox is between pages that can't be touched, and with `end` or `begin` all else is beside one too
 * (edges.h). */
#define _GNU_SOURCE
#include "edges.h"
#include "zacpi_tables.h"
#include <sys/wait.h>
#include <unistd.h>

static int failed;
#define EXPECT(holds) \
    do { \
        if (!(holds)) failed = 1, printf("FAILED: line %d: %s\n", __LINE__, #holds); \
    } while (0)

enum { SIZE = 4096, MOST_READS = 1000000000 };
/* Command 1 and two reserved bytes, which stay; ApicId; WakeupVector, the lowest byte first. */
static const uint8_t written[16] = {1, 0, 0xa5, 0xa5, 0x07, 0x03, 0x02, 0x01, 0x00, 0x80, 0x09, 0, 0x0b, 0, 0, 0x0d};
static const uint32_t id = 0x01020307;
static const uint64_t vector = 0x0d00000b00098000;

static int is_left(const uint8_t *bytes, uint8_t command) {
    size_t i;
    for (i = 16; i < SIZE && bytes[i] == 0xa5; i++) continue;
    return i == SIZE && bytes[0] == command && !memcmp(bytes + 1, written + 1, 15);
}
/* Nobody takes the command: it is read so often, and stays. */
static void wakes_nobody(uint8_t *bytes) {
    uint64_t most;
    for (most = 0; most < 4; most++) {
        memset(bytes, 0xa5, SIZE);
        EXPECT(!zacpi_wake_processor((volatile struct zacpi_raw_mailbox *)bytes, id, vector, most));
        EXPECT(is_left(bytes, 1));
    }
}
/* The firmware looks at the mailbox when Command is 1, and takes it by 0. */
static int takes(const volatile uint8_t *bytes) {
    uint64_t reads = 0;
    size_t i = 0;
    while (bytes[0] != 1 && reads++ < MOST_READS) continue;
    while (i < 16 && bytes[i] == written[i]) i++;
    return i == 16;
}
static void wakes(uint8_t *bytes) {
    int status = 1;
    pid_t firmware;
    memset(bytes, 0xa5, SIZE);
    firmware = fork();
    if (firmware == 0) {
        status = !takes(bytes);
        *(volatile uint8_t *)bytes = 0;
        _exit(status);
    }
    EXPECT(firmware > 0 && zacpi_wake_processor((volatile struct zacpi_raw_mailbox *)bytes, id, vector, MOST_READS));
    EXPECT(waitpid(firmware, &status, 0) == firmware && status == 0);
    EXPECT(is_left(bytes, 0));
}

/* A mailbox without access, on Linux for x86-64: each access faults, and the instruction is run alone then, between two
 * changes of the page's protection. The firmware takes the command right before one of the reads. */
#if defined(__linux__) && defined(__x86_64__)
#include <signal.h>
#include <ucontext.h>
enum { IS_WRITE = 2, STEP = 0x100, MOST_ACCESSES = 16 };
struct access {
    int is_write;
    size_t offset;
    uint8_t after[16];
};
/* What the handlers write is read anew each time. */
static struct access kept[MOST_ACCESSES], *volatile accesses = kept;
static uint8_t *watched;
static volatile size_t accesses_made, reads_made, read_taken;

static void before_access(int number, siginfo_t *info, void *context) {
    greg_t *const registers = ((ucontext_t *)context)->uc_mcontext.gregs;
    struct access *const access = &accesses[accesses_made];
    (void)number;
    access->offset = (size_t)((uint8_t *)info->si_addr - watched);
    access->is_write = (registers[REG_ERR] & IS_WRITE) != 0;
    if (access->offset >= SIZE || accesses_made == MOST_ACCESSES - 1) _exit(2);
    mprotect(watched, SIZE, PROT_READ | PROT_WRITE);
    if (!access->is_write && ++reads_made == read_taken) watched[0] = 0;
    registers[REG_EFL] |= STEP;
}
static void after_access(int number, siginfo_t *info, void *context) {
    (void)number;
    (void)info;
    memcpy(accesses[accesses_made++].after, watched, 16);
    mprotect(watched, SIZE, PROT_NONE);
    ((ucontext_t *)context)->uc_mcontext.gregs[REG_EFL] &= ~STEP;
}
/* What is returned if the firmware takes the command at this read, of `most`, after so many accesses. */
static void wakes_in_order(uint64_t most, size_t taken, int is_woken, size_t reads) {
    static const size_t offsets[] = {0, 4, 8, 0}; /* Command, ApicId, WakeupVector, Command */
    size_t i;
    int woken;
    accesses_made = 0, reads_made = 0, read_taken = taken;
    mprotect(watched, SIZE, PROT_NONE);
    woken = zacpi_wake_processor((volatile struct zacpi_raw_mailbox *)watched, id, vector, most);
    mprotect(watched, SIZE, PROT_READ | PROT_WRITE);
    EXPECT(woken == is_woken && accesses_made == 4 + reads);
    for (i = 0; i < accesses_made; i++)
        EXPECT(accesses[i].is_write == (i < 4) && accesses[i].offset == (i < 4 ? offsets[i] : 0));
    EXPECT(accesses[0].after[0] == 0 && accesses[0].after[1] == 0 && accesses[0].after[4] == 0xa5);
    EXPECT(!memcmp(accesses[1].after + 4, written + 4, 4) && accesses[1].after[0] == 0 && accesses[1].after[8] == 0xa5);
    EXPECT(!memcmp(accesses[2].after + 4, written + 4, 12) && accesses[2].after[0] == 0);
    EXPECT(!memcmp(accesses[3].after, written, 16));
}
static void wakes_by_a_script(uint8_t *bytes) {
    static const struct {
        uint64_t most;
        size_t taken, reads;
        int is_woken;
    } rows[] = {{5, 1, 1, 1}, {5, 5, 5, 1}, {5, 6, 5, 0}, {1, 0, 1, 0}, {0, 1, 0, 0}};
    struct sigaction before = {0}, after = {0};
    uint8_t command;
    size_t i;
    before.sa_sigaction = before_access, after.sa_sigaction = after_access;
    before.sa_flags = after.sa_flags = SA_SIGINFO;
    sigaction(SIGSEGV, &before, NULL);
    sigaction(SIGTRAP, &after, NULL);
    watched = bytes;
    /* A mailbox that is free, and one in which another processor's command is left. */
    for (command = 0; command < 2; command++)
        for (i = 0; i < sizeof rows / sizeof *rows; i++) {
            memset(bytes, 0xa5, SIZE);
            bytes[0] = command, bytes[1] = 0;
            wakes_in_order(rows[i].most, rows[i].taken, rows[i].is_woken, rows[i].reads);
        }
    signal(SIGSEGV, SIG_DFL);
    signal(SIGTRAP, SIG_DFL);
}
#else
static void wakes_by_a_script(uint8_t *bytes) { (void)bytes; }
#endif

static size_t source_length(const uint8_t *bytes, size_t length) {
    return zacpi_raw_hest_source_length((const uint8_t *)at_edge(bytes, length), length);
}
/* After the count, at 36, of four structures (section 18.3.2): type 2, NMI, of 20 bytes; type 0 with two banks, at 32,
 * of 40 and 28 bytes each; type 9 of 64; and type 3, which is reserved, with 5 bytes left. */
static void walks_a_hest(void) {
    enum { SIZE_OF_HEST = 40 + 20 + 96 + 64 + 5 };
    static const size_t lengths[] = {20, 96, 64, 0};
    uint8_t hest[SIZE_OF_HEST] = {0};
    size_t at = 40, i;
    hest[40] = 2;
    hest[60 + 32] = 2;
    hest[156] = 9;
    hest[220] = 3;
    for (i = 0; i < 4; at += lengths[i++]) EXPECT(source_length(hest + at, sizeof hest - at) == lengths[i]);
    /* Too few bytes are left for the structure, for the number of its banks, and for its type. */
    EXPECT(source_length(hest + 40, 19) == 0 && source_length(hest + 40, 20) == 20);
    EXPECT(source_length(hest + 60, 95) == 0 && source_length(hest + 60, 32) == 0);
    EXPECT(source_length(hest + 40, 1) == 0 && source_length(hest + 40, 0) == 0);
    /* The type has two bytes. */
    hest[41] = 1;
    EXPECT(source_length(hest + 40, 20) == 0);
}
/* A field of a table is read by the struct that has it: bytes have no alignment. */
#define RAW(type, from) (memcpy(&(type), table + (from), sizeof(type)), (type))
/* An RHCT that was written (RISC-V Hart Capabilities Table, ACPI 6.6), as no call reads it: an ISA String Node of 14
 * bytes, whose string ends with a zero and has an even length with it, and two Hart Info Nodes of 16, whose one offset
 * is that node's. */
static void reads_an_rhct(void) {
    static const struct zacpi_table_ids ids = {{'G'}, {'M'}, {0}, 1, {'Z'}, 1};
    static const uint32_t harts[] = {7, 0x01020304};
    const struct zacpi_rhct_contents contents = {
        (const uint8_t *)at_edge("rv64i", 5), 5, COPIED(harts), 2, 10000000, 1, {0}};
    enum { SIZE_OF_RHCT = 56 + 14 + 2 * 16 };
    uint8_t *const table = (uint8_t *)painted_at_edge(SIZE_OF_RHCT);
    size_t *const length = PAINTED(size_t), at = 56, i;
    struct zacpi_raw_rhct rhct;
    struct zacpi_raw_rhct_node_isa_string_node isa;
    struct zacpi_raw_rhct_node_hart_info_node hart;
    uint32_t offset;
    EXPECT(!zacpi_write_rhct(COPIED(ids), COPIED(contents), table, SIZE_OF_RHCT, length) && *length == SIZE_OF_RHCT);
    EXPECT(RAW(rhct, 0).flags == ZACPI_RAW_RHCT_FLAGS_TIMER_CANNOT_WAKE_THE_PROCESSOR);
    EXPECT(rhct.time_base_frequency == 10000000 && rhct.number_of_rhct_nodes == 3);
    EXPECT(rhct.offset_to_the_rhct_node_array == at && rhct.header.length == *length);
    EXPECT(RAW(isa, at).type == ZACPI_RAW_RHCT_NODE_TYPE_ISA_STRING_NODE && isa.revision == 1 && isa.length == 14);
    EXPECT(isa.isa_length == 6 && !memcmp(table + at + sizeof isa, "rv64i", 6));
    for (at += isa.length, i = 0; i < 2; at += hart.length, i++) {
        EXPECT(RAW(hart, at).type == ZACPI_RAW_RHCT_NODE_TYPE_HART_INFO_NODE && hart.revision == 1);
        EXPECT(hart.length == 16 && hart.number_of_offsets == 1 && hart.acpi_processor_uid == harts[i]);
        EXPECT(RAW(offset, at + sizeof hart) == 56);
    }
    EXPECT(at == *length);
}
/* A DMAR's Signature, which sums to 0x44 + 0x4d + 0x41 + 0x52 = 0x124, and its Length, 0x30: 0x154, with Checksum 0xac.
 * Of "XMAR" they sum to 0x168, with Checksum 0x98. */
static void sums_bytes(void) {
    static const uint8_t head[48] = {'D', 'M', 'A', 'R', 48, 0, 0, 0, 0, 0xac};
    uint8_t *const table = (uint8_t *)COPIED(head);
    EXPECT(zacpi_byte_sum((uint8_t *)at_edge(table, 4), 4) == 0x24);
    EXPECT(zacpi_byte_sum((uint8_t *)at_edge(table, 5), 5) == 0x54 && zacpi_byte_sum(table, 0) == 0);
    EXPECT(zacpi_byte_sum(table, sizeof head) == 0);
    table[0] = 'X';
    EXPECT(zacpi_byte_sum(table, sizeof head) == 0x14);
    zacpi_set_checksum(table, sizeof head);
    EXPECT(table[9] == 0x98 && zacpi_byte_sum(table, sizeof head) == 0);
    zacpi_set_checksum(table, sizeof head);
    EXPECT(table[9] == 0x98);
}

/* Memory that another process shares, of a page. */
static uint8_t *shared(void) {
    uint8_t *base = (uint8_t *)mmap(NULL, 3 * SIZE, PROT_NONE, MAP_SHARED | MAP_ANONYMOUS, -1, 0);
    if (base == MAP_FAILED || mprotect(base + SIZE, SIZE, PROT_READ | PROT_WRITE)) exit(2);
    return base + SIZE;
}

int main(int argc, char **argv) {
    uint8_t *const bytes = shared();
    if (!edge_of(argc, argv)) return 2;
    wakes_nobody(bytes);
    wakes(bytes);
    wakes_by_a_script(bytes);
    walks_a_hest();
    reads_an_rhct();
    sums_bytes();
    return failed;
}
