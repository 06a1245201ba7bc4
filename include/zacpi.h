/* SPDX-License-Identifier: MIT */
/* zacpi.h: reads and writes a machine's ACPI tables, for C and C++. The least that a caller does:
 *
 *     #include "zacpi.h"
 *     #include <stdio.h>
 *
 *     // Counts the processors, by the tables in 64 KiB of memory from the RSDP at 0x70000000 on.
 *     int main(void) {
 *         static uint8_t bytes[65536]; // in a kernel: where it has mapped the firmware's tables
 *         struct zacpi_region region = {0x70000000, bytes, fread(bytes, 1, sizeof bytes, stdin)};
 *         // As Linux does, since firmware errs in sums and ids; a guest or a measured boot passes 0.
 *         const uint32_t accept = ZACPI_ACCEPT_SUMS | ZACPI_ACCEPT_IDS;
 *         struct zacpi_source source = {&region, 1, region.address, ZACPI_START_RSDP, accept};
 *         struct zacpi_processor processors[64];
 *         size_t count;
 *         zacpi_status status = zacpi_list_processors(&source, processors, 64, &count, NULL);
 *         if (status) return printf("%s\n", zacpi_status_name(status)), 1;
 *         return printf("%zu processors\n", count), 0;
 *     }
 *
 * What the caller keeps. A pointer is aligned for its type, points to the number of items that the
 * length beside it is, and isn't null, but for a list of no items and for `signature`; lists inside
 * the items of a list (a region's bytes) aren't null either. An input is initialised. An output
 * shares no byte with an input or another output. While a call runs nobody may write what it reads,
 * nor touch what it writes. The stack is aligned as the ABI requires. The library uses the red zone
 * and vector registers if its compiler's flags let it (C.md); vector registers have to be enabled
 * first (on x86-64 CR0.EM clear, CR4.OSFXSR set).
 *
 * A call can be passed any numbers, over any bytes. It keeps no state, takes no memory, and calls
 * only memcpy, memset and memmove: any number may run at once, each with outputs of its own. It
 * returns ZACPI_OK, with all its outputs written, or fails with the first error of its comment,
 * with none written; only a ZACPI_SDT_ error, ZACPI_TABLE_MISSING and ZACPI_AML_INVALID write
 * `signature`. Opening errors are zacpi_open's. A call about a table uses the first valid one that
 * is listed.
 *
 * A list returns its items in the table's order. It writes the first `capacity` of them to `out`,
 * and how many there are in all to `count`: with a capacity of 0 it only counts. Lists that grow
 * with the processors come with a call `.._from`, so that a few places serve any number of items;
 * its `count` is of all items, whatever `from` is.
 *
 * Sections are of the ACPI Specification 6.4 unless another document is named, and names of fields
 * (Length, SCI_INT) are from the document that lays the table out. A field without a comment is
 * what its name means; a yes-or-no field is 0 or 1. Addresses are physical, and lengths in bytes;
 * memory ends at the address after its last byte. Bytes past the end of a table or entry are read
 * as 0, and a field in every Revision of its table. Comments name the fields that differ.
 *
 * Reserved fields are 0 in what a call returns, and aren't looked at in what it is passed. In later
 * versions they may be fields of a record that callers only read, and an enum may contain more
 * numbers. No other byte of a record is padding, but the half that a pointer of 32 bits leaves. */
#ifndef ZACPI_H
#define ZACPI_H
#include <stddef.h>
#include <stdint.h>

#define ZACPI_VERSION "1.0.0"
#define ZACPI_VERSION_NUMBER 0x010000 /* to compare: one byte for each part of the version */
#define ZACPI_ABI 1 /* part of the library's symbols: with another library nothing links */

/* Records are laid out as in the library, also in a unit where another packing is in force. */
#pragma pack(push, 8)

/* A kernel's own stdint.h may lack UINTPTR_MAX. */
#if defined(__SIZEOF_POINTER__)
#define ZACPI_IS_64_BIT (__SIZEOF_POINTER__ > 4)
#else
#define ZACPI_IS_64_BIT (UINTPTR_MAX > 0xffffffff)
#endif
/* With pointers of 32 bits a record is laid out as with 64 bits: a pointer is in the first half of its 8 bytes,
 * and counts and lengths have 64 bits. */
#if ZACPI_IS_64_BIT
typedef uint64_t zacpi_u64;
typedef size_t zacpi_size;
#define ZACPI_SLOT
#elif defined(__GNUC__)
typedef uint64_t zacpi_u64 __attribute__((__aligned__(8)));
typedef zacpi_u64 zacpi_size;
#define ZACPI_SLOT __attribute__((__aligned__(8))) /* of a pointer that doesn't come after such a number */
#else
typedef uint64_t zacpi_u64; /* MSVC's is aligned to 8 */
typedef uint64_t zacpi_size;
#define ZACPI_SLOT __declspec(align(8))
#endif

#if defined(__GNUC__)
#define ZACPI_CHECKED __attribute__((__warn_unused_result__))
#define ZACPI_NONNULL(places) __attribute__((__nonnull__ places))
#else
#define ZACPI_CHECKED
#define ZACPI_NONNULL(places)
#endif
#define ZACPI_STATUS static inline ZACPI_CHECKED zacpi_status /* of each call: an inline, below */

#if defined(__GNUC__)
#pragma GCC diagnostic push
#pragma GCC diagnostic ignored "-Winline" /* an inline that a compiler calls is none of the caller's */
#endif
#ifdef __cplusplus
extern "C" {
#if defined(__GNUC__)
#pragma GCC diagnostic ignored "-Wold-style-cast"
#endif
#endif

/* A unit that is compiled without vector registers refers in each call to a byte that the library
 * defines only if it is compiled without them too: with another library it doesn't link. */
#if (defined(__x86_64__) && !defined(__SSE2__)) || \
    (defined(__aarch64__) && !defined(__ARM_NEON)) || (defined(__riscv) && !defined(__riscv_flen))
#if !defined(_WIN32)
__attribute__((__visibility__("hidden"))) /* by no table of addresses */
#endif
extern const uint8_t zacpi_needs_kernel_archive;
#define ZACPI_NO_VECTORS
#define ZACPI_FITS (void)*(const volatile uint8_t *)&zacpi_needs_kernel_archive
#else
#define ZACPI_FITS (void)0
#endif

/* Errors --------------------------------------------------------------------------------------- */

typedef uint32_t zacpi_status; /* of enum zacpi_status_code; numbers stay, others may come */

enum zacpi_status_code {
    ZACPI_OK = 0,

    /* What is passed. */
    ZACPI_REGIONS_NOT_ASCENDING = 1, /* a region begins below the end of the one before it */
    ZACPI_REGION_TOO_HIGH = 2,       /* a region ends at 2^64 or above. Of these two errors a call
                                      * returns the one of the first region that is wrong */
    ZACPI_UNKNOWN_START = 3,         /* `start` isn't one of enum zacpi_start */
    ZACPI_RANGE_TOO_HIGH = 4,        /* a range ends at 2^64 or above */
    ZACPI_UNKNOWN_WIDTH = 5,         /* a width of a walk isn't 1, 2 or 4 */
    ZACPI_NO_SUCH_STATE = 6,         /* a sleep state above 5 */
    ZACPI_UNKNOWN_POLICY = 7,        /* a bit of `accept` isn't in enum zacpi_accept */

    /* Memory and the RSDP (section 5.2.5). */
    ZACPI_MAP_FAILED = 10,               /* bytes are needed that no one region contains */
    ZACPI_NO_VALID_RSDP = 11,            /* the BIOS areas contain no valid RSDP */
    ZACPI_RSDP_INCORRECT_SIGNATURE = 12, /* Signature isn't "RSD PTR " */
    ZACPI_RSDP_INVALID_OEM_ID = 13,      /* OEMID isn't UTF-8 */
    ZACPI_RSDP_INVALID_CHECKSUM = 14,    /* the bytes don't sum to 0, or Length is below 36 */

    /* A table (section 5.2.6). These carry the signature of the table that was looked for. */
    ZACPI_SDT_INVALID_SIGNATURE = 20, /* Signature is another, or isn't UTF-8 */
    ZACPI_SDT_INVALID_OEM_ID = 21,    /* OEMID isn't UTF-8 */
    ZACPI_SDT_INVALID_TABLE_ID = 22,  /* OEM Table ID isn't UTF-8 */
    ZACPI_SDT_INVALID_LENGTH = 23,    /* Length is below the least length */
    ZACPI_SDT_INVALID_CHECKSUM = 24,  /* the bytes don't sum to 0 */
    ZACPI_TABLE_MISSING = 25,         /* no valid table of the signature is listed */

    /* The FADT, the HPET, the MCFG, and AML. */
    ZACPI_INVALID_DSDT_ADDRESS = 30,    /* X_DSDT and DSDT are 0 (section 5.2.9) */
    ZACPI_INVALID_GENERIC_ADDRESS = 31, /* a reserved code in a register's address (section
                                         * 5.2.3.2), a block of 32 ports or more, or an HPET that
                                         * isn't in memory */
    ZACPI_NO_SUCH_FUNCTION = 32,        /* no region of configuration space contains it */
    ZACPI_NO_REGISTER = 33,             /* PM1a_CNT, on reduced hardware SLEEP_CONTROL_REG */
    ZACPI_NO_RESET = 34,                /* RESET_REG_SUP is clear, or RESET_REG at address 0 */
    ZACPI_SLEEP_STATE_ABSENT = 35,      /* no table defines the state's name */
    ZACPI_SLEEP_STATE_NOT_SEEN = 36,    /* a table may define it, if its AML is run, or defines it,
                                         * but not as a package that begins with two integer
                                         * constants, or contains only one */
    ZACPI_AML_INVALID = 37,             /* the table whose signature is written contains bytes that
                                         * aren't AML (section 20.2) */
    ZACPI_SLEEP_TYPE_TOO_HIGH = 38,     /* above 7, where SLP_TYP has three bits and the type is
                                         * written; above 255, where it is returned */

    /* The MADT (section 5.2.12). An entry begins, from byte 44 on, where its Length is at most the
     * bytes left and at least 8, 12, 10, 8, 6, 12, 16, 16, 16, 16, 12, 76, 24, 24, 16, 20 and 16
     * for Types 0 to 0x10, and 2 for others, which are skipped. */
    ZACPI_NO_APICS = 40,              /* the MADT lists no entry of Types 0 to 5, 9 and 0xa; for
                                       * zacpi_get_platform also: there is no MADT */
    ZACPI_NO_GIC = 41,                /* the MADT lists no entry of Types 0xb to 0xf, or no GICD */
    ZACPI_NO_SUCH_INTERRUPT = 42,     /* the ISA interrupt comes to no I/O APIC */
    ZACPI_NO_SUCH_IO_APIC = 43,       /* no I/O APIC has this global system interrupt */
    ZACPI_MADT_UNEXPECTED_ENTRY = 44, /* Type is 6 to 8, of SAPICs, or 0xb to 0xf, of a GIC */
    /* Bus of an Interrupt Source Override isn't 0, ISA (section 5.2.12.5) */
    ZACPI_MADT_INTERRUPT_OVERRIDE_ENTRY_HAS_INVALID_BUS = 45,
    ZACPI_MADT_INVALID_LOCAL_NMI_LINE = 46, /* LINT# isn't 0 or 1 (section 5.2.12.7) */
    ZACPI_MADT_MPS_INTI_INVALID_POLARITY = 47, /* Polarity of an override or an NMI Source is 2,
                                                * reserved (section 5.2.12.5) */
    ZACPI_MADT_MPS_INTI_INVALID_TRIGGER_MODE = 48, /* so is Trigger Mode. Neither is an error of a
                                                    * Local APIC NMI or a Local x2APIC NMI */
    ZACPI_MADT_INVALID_ENTRY_LENGTH = 49, /* bytes are left in which no entry begins */

    /* The SRAT (section 5.2.16), whose entries begin so from byte 48 on, with a Length of at least
     * 16, 40, 24, 18, 12, 32 and 32 for Types 0 to 6; the SLIT, the DMAR and the IVRS. */
    ZACPI_NUMA_INVALID_ENTRY_LENGTH = 50,  /* bytes are left in which no entry begins */
    ZACPI_NUMA_INVALID_MEMORY_RANGE = 51,  /* memory ends at 2^64 or above */
    ZACPI_NO_DOMAIN = 52,                  /* the SRAT puts it in no domain */
    ZACPI_NO_DISTANCE = 53,                /* the SLIT lists no distance of these localities */
    ZACPI_IOMMU_INVALID_STRUCTURE_LENGTH = 54, /* bytes are left in which no structure or block
                                                * begins, or in one of these no device scope or
                                                * device entry */
    ZACPI_IOMMU_INVALID_MEMORY_RANGE = 55, /* an RMRR's last byte is before its first, or an IVMD's
                                            * memory ends at 2^64 or above */
    ZACPI_NO_IOMMU = 56,                   /* the table lists no such unit or structure, or no unit
                                            * for the device */
    /* The GTDT (section 5.2.24.1): Platform Timer Offset is below 96, a Length is above the bytes
     * left or below 20 (GT Block), 28 (watchdog) or 4 (others), or frames of a GT Block aren't
     * between its byte 20 and its end. */
    ZACPI_INVALID_TIMER_LENGTH = 57,
    /* A RISC-V machine's MADT (ACPI 6.6, section 5.2.12), whose entries of Types 0x18 to 0x1b have
     * at least 20, 16, 36 and 36 bytes. */
    ZACPI_NO_RISCV = 58,          /* the MADT lists no such entry */
    ZACPI_SHORT_RISCV_ENTRY = 59, /* an entry of one of these Types has fewer bytes: it is
                                   * skipped */

    /* A table that is written. */
    ZACPI_UNKNOWN_CODE = 60,    /* a number that isn't one of the codes: of a polarity, trigger
                                 * mode, LINT pin, override's bus, image's orientation or type,
                                 * timer's kind, or console's interrupt_controllers; of a
                                 * register's address space, access size or `present` */
    ZACPI_NO_PROCESSOR = 61,
    ZACPI_ID_OF_ALL = 62,       /* a processor's uid or id is 0xffffffff, which means all */
    ZACPI_UID_OF_ALL = 63,      /* an NMI line's processor_uid is 0xffffffff */
    ZACPI_BAD_MATRIX = 64,      /* a SLIT without one distance for each pair */
    ZACPI_NO_ADDRESS = 65,      /* what an RSDP or a FADT points to, or a console, is at address 0,
                                 * or a machine's tables can't be at `address` */
    ZACPI_BAD_NAME = 66,        /* OEMID, OEM Table ID or Creator ID isn't UTF-8 */
    ZACPI_NO_ROOM = 67,         /* `capacity` is less than the length */
    ZACPI_TOO_LONG = 68,        /* the table has 2^32 bytes or more */
    ZACPI_BAD_REGISTER = 69,    /* a FADT's register is at address 0, or a block other than pm_timer
                                 * has no byte */
    ZACPI_BAD_RANGE = 70,       /* memory has no byte, or ends at 2^64 or above; redistributors have
                                 * 2^32 bytes or more */
    ZACPI_SAME_AS_BUS = 71,     /* an Arm machine's trigger mode or polarity is 0 */
    ZACPI_TOO_MANY_FRAMES = 72, /* a GT Block has more frames than Length can count */
    ZACPI_BAD_TABLE = 73,       /* a listed table's bytes aren't one table */
    ZACPI_HAS_HEADER = 74       /* a DSDT's or an SSDT's AML is the whole table: it begins with the
                                 * Signature, and a Length that is aml_length */
};

/* Returns the name of a status ("ZACPI_MAP_FAILED"), or "Unknown". Each unit that calls it contains
 * all names: call it in only one. */
static inline const char *zacpi_status_name(zacpi_status status) {
    /* One text: a table of pointers would have to be relocated first. */
    static const char names[] =
        "0:ZACPI_OK\0""1:ZACPI_REGIONS_NOT_ASCENDING\0""2:ZACPI_REGION_TOO_HIGH\0"
        "3:ZACPI_UNKNOWN_START\0""4:ZACPI_RANGE_TOO_HIGH\0""5:ZACPI_UNKNOWN_WIDTH\0"
        "6:ZACPI_NO_SUCH_STATE\0""7:ZACPI_UNKNOWN_POLICY\0""10:ZACPI_MAP_FAILED\0"
        "11:ZACPI_NO_VALID_RSDP\0""12:ZACPI_RSDP_INCORRECT_SIGNATURE\0"
        "13:ZACPI_RSDP_INVALID_OEM_ID\0""14:ZACPI_RSDP_INVALID_CHECKSUM\0"
        "20:ZACPI_SDT_INVALID_SIGNATURE\0""21:ZACPI_SDT_INVALID_OEM_ID\0"
        "22:ZACPI_SDT_INVALID_TABLE_ID\0""23:ZACPI_SDT_INVALID_LENGTH\0"
        "24:ZACPI_SDT_INVALID_CHECKSUM\0""25:ZACPI_TABLE_MISSING\0"
        "30:ZACPI_INVALID_DSDT_ADDRESS\0""31:ZACPI_INVALID_GENERIC_ADDRESS\0"
        "32:ZACPI_NO_SUCH_FUNCTION\0""33:ZACPI_NO_REGISTER\0""34:ZACPI_NO_RESET\0"
        "35:ZACPI_SLEEP_STATE_ABSENT\0""36:ZACPI_SLEEP_STATE_NOT_SEEN\0""37:ZACPI_AML_INVALID\0"
        "38:ZACPI_SLEEP_TYPE_TOO_HIGH\0""40:ZACPI_NO_APICS\0""41:ZACPI_NO_GIC\0"
        "42:ZACPI_NO_SUCH_INTERRUPT\0""43:ZACPI_NO_SUCH_IO_APIC\0"
        "44:ZACPI_MADT_UNEXPECTED_ENTRY\0"
        "45:ZACPI_MADT_INTERRUPT_OVERRIDE_ENTRY_HAS_INVALID_BUS\0"
        "46:ZACPI_MADT_INVALID_LOCAL_NMI_LINE\0""47:ZACPI_MADT_MPS_INTI_INVALID_POLARITY\0"
        "48:ZACPI_MADT_MPS_INTI_INVALID_TRIGGER_MODE\0""49:ZACPI_MADT_INVALID_ENTRY_LENGTH\0"
        "50:ZACPI_NUMA_INVALID_ENTRY_LENGTH\0""51:ZACPI_NUMA_INVALID_MEMORY_RANGE\0"
        "52:ZACPI_NO_DOMAIN\0""53:ZACPI_NO_DISTANCE\0""54:ZACPI_IOMMU_INVALID_STRUCTURE_LENGTH\0"
        "55:ZACPI_IOMMU_INVALID_MEMORY_RANGE\0""56:ZACPI_NO_IOMMU\0"
        "57:ZACPI_INVALID_TIMER_LENGTH\0""58:ZACPI_NO_RISCV\0""59:ZACPI_SHORT_RISCV_ENTRY\0"
        "60:ZACPI_UNKNOWN_CODE\0""61:ZACPI_NO_PROCESSOR\0""62:ZACPI_ID_OF_ALL\0"
        "63:ZACPI_UID_OF_ALL\0""64:ZACPI_BAD_MATRIX\0""65:ZACPI_NO_ADDRESS\0""66:ZACPI_BAD_NAME\0"
        "67:ZACPI_NO_ROOM\0""68:ZACPI_TOO_LONG\0""69:ZACPI_BAD_REGISTER\0""70:ZACPI_BAD_RANGE\0"
        "71:ZACPI_SAME_AS_BUS\0""72:ZACPI_TOO_MANY_FRAMES\0""73:ZACPI_BAD_TABLE\0"
        "74:ZACPI_HAS_HEADER\0";
    const char *name = names;
    while (*name) {
        zacpi_status number = 0;
        for (; *name != ':'; name++) number = 10 * number + (zacpi_status)(*name - '0');
        name++;
        if (number == status) return name;
        while (*name++) {}
    }
    return "Unknown";
}

/* Memory --------------------------------------------------------------------------------------- */

/* Physical memory from `address` on, and the pointer to it, which is never null: with an identity
 * map the first region begins above address 0. */
struct zacpi_region {
    zacpi_u64 address;
    const uint8_t *bytes;
    zacpi_size length;
};

struct zacpi_range {
    zacpi_u64 address, length;
};

enum zacpi_start {
    ZACPI_START_RSDP = 0,        /* at the RSDP, as a loader or UEFI passes it (section 5.2.5.2) */
    ZACPI_START_RSDT = 1,        /* at the RSDT: pointers of 4 bytes (section 5.2.7) */
    ZACPI_START_XSDT = 2,        /* at the XSDT: pointers of 8 bytes (section 5.2.8) */
    ZACPI_START_BIOS_SEARCH = 3, /* searches the BIOS areas, each in one region, for the RSDP */
    ZACPI_START_SEARCH = 4       /* searches them as far as they are mapped */
};

enum zacpi_accept {
    ZACPI_ACCEPT_SUMS = 1,     /* ZACPI_SDT_INVALID_CHECKSUM */
    ZACPI_ACCEPT_IDS = 2,      /* ZACPI_SDT_INVALID_OEM_ID and ZACPI_SDT_INVALID_TABLE_ID */
    ZACPI_ACCEPT_RSDP_IDS = 4, /* ZACPI_RSDP_INVALID_OEM_ID */
    /* An RSDP of Revision 1, which no specification defines, is read as one of Revision 0: by its
     * first 20 bytes, which point to the RSDT. */
    ZACPI_ACCEPT_RSDP_REVISION = 8,
    /* So is an RSDP whose first 20 bytes pass their checks while the others fail: Length is below 36,
     * or that many bytes aren't mapped or don't sum to 0. */
    ZACPI_ACCEPT_RSDP_FIRST = 16
};

/* Where tables are looked for. The regions ascend and share no byte; zacpi_clip_ranges makes such.
 * Bytes are mapped if one region contains all of them. */
struct zacpi_source {
    const struct zacpi_region *regions;
    zacpi_size regions_length;
    zacpi_u64 address; /* where to start; a search doesn't look at it */
    uint32_t start;   /* one of enum zacpi_start */
    uint32_t accept;  /* 0, or bits of enum zacpi_accept: an RSDP, a root table, a listed table or
                       * a DSDT with no other error is valid */
};

/* Lists the ranges to make regions of, from ranges in any order: sorted, joined where they overlap
 * or touch, clipped to `window`, without what is in `without` (the kernel's image, and whatever is
 * written while calls run), and none empty. Reads only the lists, and puts these in order in place:
 * sorted by address, each range cut to what no range before it contains. A list that is in order
 * isn't written. No two of `ranges`, `without`, `window`, `out` and `count` may overlap. Fails with
 * ZACPI_RANGE_TOO_HIGH. */
ZACPI_STATUS zacpi_clip_ranges(struct zacpi_range *ranges, size_t ranges_length,
                               struct zacpi_range *without, size_t without_length,
                               const struct zacpi_range *window, struct zacpi_range *out,
                               size_t capacity, size_t *count);

struct zacpi_place {
    zacpi_size region, offset;
};

/* Returns where memory is in the regions: the byte at `address` is regions[region].bytes[offset],
 * and `length` bytes from there on are in that region. Reads no memory. Fails with
 * ZACPI_REGIONS_NOT_ASCENDING, ZACPI_REGION_TOO_HIGH, or ZACPI_MAP_FAILED if no region contains the
 * bytes, or `address` itself for a length of 0. */
ZACPI_STATUS zacpi_locate(const struct zacpi_region *regions, size_t regions_length,
                          uint64_t address, uint64_t length, struct zacpi_place *out);

/* Tables --------------------------------------------------------------------------------------- */

struct zacpi_signature {
    uint8_t letters[4]; /* such as "APIC", without a zero after it */
};
static inline struct zacpi_signature zacpi_signature_of(const char *letters) {
    struct zacpi_signature made;
    int i;
    for (i = 0; i < 4; i++) made.letters[i] = (uint8_t)letters[i];
    return made;
}
/* Takes four letters, as in ZACPI_SIGNATURE("TPM2"): with more or fewer it doesn't compile. */
#define ZACPI_SIGNATURE(letters) \
    zacpi_signature_of(&("" letters)[0 * sizeof(char[sizeof("" letters) == 5 ? 1 : -1])])
struct zacpi_root {
    zacpi_u64 address;
    uint32_t length;
    uint8_t revision;      /* of the RSDP; 0 if opened at an RSDT, 2 if at an XSDT */
    uint8_t pointer_width; /* 4 for an RSDT, 8 for an XSDT */
    uint8_t reserved_1[2]; /* 0 */
    zacpi_u64 rsdp_address; /* 0 if opened at a root table, and so is the length */
    uint32_t rsdp_length;  /* Length; at revision 0, which lacks it, 20, though 36 bytes have to be
                            * mapped there too */
    uint8_t reserved_2[4]; /* 0 */
};
struct zacpi_rsdp { /* Root System Description Pointer (RSDP), section 5.2.5.3 */
    zacpi_u64 address;
    zacpi_u64 xsdt_address; /* 0 at revision 0, which lacks it */
    uint32_t rsdt_address;
    uint32_t length;        /* as rsdp_length of struct zacpi_root */
    uint8_t revision, oem_id[6];
    uint8_t reserved; /* 0 */
};
struct zacpi_table {
    zacpi_u64 address;
    uint32_t length;
    struct zacpi_signature signature;
    uint8_t revision, oem_id[6], oem_table_id[8];
    uint8_t reserved_1; /* 0 */
    uint32_t oem_revision;
    uint8_t creator_id[4];
    uint32_t creator_revision;
    uint8_t reserved_2[4]; /* 0 */
};
struct zacpi_member { /* what a pointer of a root table points to */
    struct zacpi_table table; /* zeros but for the address unless has_header */
    zacpi_status status;      /* 0, or, if zacpi_list_tables skips it, its first error in
                               * zacpi_open's order that `accept` doesn't take */
    uint8_t has_header;       /* 0: the 36 bytes of a header aren't mapped there */
    uint8_t reserved[3]; /* 0 */
};
struct zacpi_fault {
    zacpi_u64 address;
    zacpi_status status; /* why it isn't valid: ZACPI_MAP_FAILED or a ZACPI_SDT_ error other than
                          * ZACPI_SDT_INVALID_SIGNATURE. Of several, the first in zacpi_open's order
                          * that `accept` doesn't take, or, if it takes all, the first */
    uint8_t accepted;    /* 1: it isn't skipped, thanks to `accept` of the source */
    uint8_t reserved[3]; /* 0 */
};
/* How the entries of a table are laid out. zacpi_tables.h defines the walk of each table with such
 * entries, as ZACPI_WALK_APIC; ZACPI_WALK_IORT(first) and others take the value of one of its
 * fields. */
struct zacpi_walk {
    uint32_t first;                   /* the first entry's offset in the table */
    uint8_t type_offset, type_width;  /* of Type in an entry; a width is 1, 2 or 4 */
    uint8_t length_offset, length_width;
};
struct zacpi_entry {
    zacpi_u64 address;
    uint32_t entry_type;
    uint32_t length; /* including Type and Length */
};
struct zacpi_aml_table {
    zacpi_u64 address; /* of the byte after the table's header */
    uint32_t length;  /* Length less 36 */
    uint8_t revision; /* of a DSDT: below 2 integers have 32 bits, else 64 */
    uint8_t reserved[3]; /* 0 */
    zacpi_u64 table_address;
};

/* Makes the root table that a copy of the RSDP points to (multiboot2's tags 14 and 15) the start of
 * `source`, whose regions and `accept` stay. Fails with ZACPI_MAP_FAILED if the copy is shorter
 * than 20 bytes, or than 36 above revision 0, ZACPI_RSDP_INCORRECT_SIGNATURE,
 * ZACPI_RSDP_INVALID_OEM_ID, ZACPI_RSDP_INVALID_CHECKSUM of the first 20 bytes or for a Length
 * below 36, or above revision 0 ZACPI_MAP_FAILED if it is shorter than Length, or
 * ZACPI_RSDP_INVALID_CHECKSUM of all. 20 bytes are enough where `accept` accepts it by these. */
ZACPI_STATUS zacpi_start_of_rsdp(const uint8_t *rsdp, size_t rsdp_length,
                                 struct zacpi_source *source);

/* Returns the root table (sections 5.2.7 and 5.2.8). Fails with an opening error, in this order:
 *   what is passed     ZACPI_REGIONS_NOT_ASCENDING (also of a region of no bytes) or
 *                      ZACPI_REGION_TOO_HIGH, ZACPI_UNKNOWN_POLICY, ZACPI_UNKNOWN_START
 *   a search           ZACPI_MAP_FAILED (a BIOS search), ZACPI_NO_VALID_RSDP
 *   an RSDP at address ZACPI_MAP_FAILED, ZACPI_RSDP_INCORRECT_SIGNATURE, ..._OEM_ID, ..._CHECKSUM
 *   the root table     the errors of a table, with "RSDT" or "XSDT"
 *
 * Each start looks at, in this order:
 *   ZACPI_START_RSDP (section 5.2.5.3): that its 36 bytes are mapped, Signature, OEMID, and the sum
 *     of the first 20 bytes; above revision 0 also that Length is at least 36, that Length bytes
 *     are mapped, and their sum. The root table is the XSDT if the revision is above 0 and
 *     XsdtAddress isn't 0, else the RSDT.
 *   ZACPI_START_SEARCH (section 5.2.5.1): the first KiB of the extended BIOS data area (EBDA), as
 *     far as it is below 0xa0000, if the word at 0x40e (its segment) is mapped and it begins at
 *     0x400 or above; then 0xe0000 to 0xfffff. An RSDP begins at a multiple of 16, with 20 bytes in
 *     the area. The first valid one counts, at which a start would have no error except the root
 *     table's. One that isn't mapped is skipped, so no area has to be mapped.
 *   ZACPI_START_BIOS_SEARCH: 0xe0000 to 0xfffff and, if no RSDP there is valid, the EBDA's first
 *     KiB, or 0x80000 to 0x9ffff if it doesn't begin in these. The word at 0x40e has to be mapped,
 *     and so has each area that is looked at, with the 16 bytes after it.
 *
 * The members of the root table are what its pointers point to, from byte 36 on, of 4 bytes in an
 * RSDT and 8 in an XSDT. A last pointer that is cut off is filled up with zeros.
 *
 * A table is valid if it has none of the errors of a table, in this order (section 5.2.6):
 * ZACPI_MAP_FAILED if 36 bytes aren't mapped at its address, ZACPI_SDT_INVALID_SIGNATURE,
 * ..._OEM_ID, ..._TABLE_ID, ..._LENGTH, ZACPI_MAP_FAILED if Length bytes aren't mapped, and
 * ZACPI_SDT_INVALID_CHECKSUM (sums are modulo 256). A ZACPI_SDT_ error writes the signature that
 * the table has to have: the call's, or its own in calls about tables of any signature. The least
 * length is where the fixed fields end: 116 for a FADT, 44 for a MADT, an MCFG or a SLIT, 48 for an
 * SRAT, a DMAR or an IVRS, 56 for an HPET or a BGRT, 80 for an SPCR, 96 for a GTDT, and 36 for any
 * other table and for tables of any signature. */
ZACPI_STATUS zacpi_open(const struct zacpi_source *source, struct zacpi_root *out,
                        struct zacpi_signature *signature);

/* Returns the RSDP of a start (section 5.2.5.3), whatever is at its addresses: with each of these
 * as a start, zacpi_list_members returns what that root table lists. Fails with an opening error,
 * except the errors of the root table; ZACPI_UNKNOWN_START is also the error of a start at a root
 * table. None writes `signature`. One that `accept` reads as of Revision 0 is returned as such. */
ZACPI_STATUS zacpi_get_rsdp(const struct zacpi_source *source, struct zacpi_rsdp *out,
                            struct zacpi_signature *signature);

/* Lists the memory that the tables still need and no one region contains (C.md). A kernel maps what
 * it can, joins it with its regions' ranges (zacpi_clip_ranges), and repeats, until no new range
 * comes. Each has at least two bytes. In order, these are:
 *   - even if opening fails, a range for each RSDP, up to the one that counts, whose 36 bytes are
 *     mapped but not all of its Length. A BIOS search lists none of these if the word at 0x40e or
 *     the first area isn't mapped, and none of a second area that isn't;
 *   - if opening fails with ZACPI_MAP_FAILED, what it needed. For ZACPI_START_SEARCH that is
 *     neither the word at 0x40e nor an RSDP's 36 bytes;
 *   - if the tables are opened, a range for each member that is skipped with ZACPI_MAP_FAILED, of
 *     its 36 bytes of header or of its Length; then, for the same reason, one for the DSDT and one
 *     for the FACS of the first valid FADT. The FACS needs its Signature and a Length of at least
 *     64 first (sections 5.2.10 and 5.2.11.1).
 * Fails with ZACPI_REGIONS_NOT_ASCENDING, ZACPI_REGION_TOO_HIGH, ZACPI_UNKNOWN_POLICY or
 * ZACPI_UNKNOWN_START; none writes `signature`. */
ZACPI_STATUS zacpi_list_missing_ranges(const struct zacpi_source *source, struct zacpi_range *out,
                                       size_t capacity, size_t *count,
                                       struct zacpi_signature *signature);

/* Lists the members of the root table that are valid under their own signatures, with repeats
 * (sections 5.2.6 to 5.2.8). Fails with an opening error. */
ZACPI_STATUS zacpi_list_tables(const struct zacpi_source *source, struct zacpi_table *out,
                               size_t capacity, size_t *count, struct zacpi_signature *signature);

/* Lists what each pointer of the root table points to, also if that is no valid table (sections
 * 5.2.6 to 5.2.8): zacpi_list_tables returns those of status 0. Fails with an opening error. */
ZACPI_STATUS zacpi_list_members(const struct zacpi_source *source, struct zacpi_member *out,
                                size_t capacity, size_t *count, struct zacpi_signature *signature);

/* Returns the first valid table of the wanted signature (section 5.2.6), whose fields aren't
 * checked. Fails with an opening error, or ZACPI_TABLE_MISSING with that signature. */
ZACPI_STATUS zacpi_find_table(const struct zacpi_source *source, struct zacpi_signature wanted,
                              struct zacpi_table *out, struct zacpi_signature *signature);

/* Returns the pointer to a table's `length` bytes, or NULL if no one region contains them. */
static inline const uint8_t *zacpi_table_bytes(const struct zacpi_region *regions,
                                               size_t regions_length,
                                               const struct zacpi_table *table) {
    struct zacpi_place place;
    if (zacpi_locate(regions, regions_length, table->address, table->length, &place)) return NULL;
    return regions[place.region].bytes + place.offset;
}

/* Returns the header of the table at an address, listed or not, as the root table's or the DSDT's;
 * `start` isn't looked at. Fails with ZACPI_REGIONS_NOT_ASCENDING, ZACPI_REGION_TOO_HIGH,
 * ZACPI_UNKNOWN_POLICY, or an error of a table, with its own signature. */
ZACPI_STATUS zacpi_get_table(const struct zacpi_source *source, uint64_t address,
                             struct zacpi_table *out, struct zacpi_signature *signature);

/* Returns the `index`-th valid table of the wanted signature, from 0 on (section 5.2.6). Fails with
 * an opening error, or ZACPI_TABLE_MISSING with that signature. */
ZACPI_STATUS zacpi_find_nth_table(const struct zacpi_source *source, struct zacpi_signature wanted,
                                  size_t index, struct zacpi_table *out,
                                  struct zacpi_signature *signature);

/* Lists the entries of the table at address `table`, listed or not, by a walk of its kind; `start`
 * isn't looked at. Each has Length bytes: at least the bytes up to the end of Type and of Length,
 * and at most the bytes that are left; `malformed` is 1 if bytes are left in which no entry begins.
 * With `first` where the last item ended, the next call lists what follows it. Fails with
 * ZACPI_REGIONS_NOT_ASCENDING, ZACPI_REGION_TOO_HIGH, ZACPI_UNKNOWN_POLICY, ZACPI_UNKNOWN_WIDTH, an
 * error of a table, with its own signature, or ZACPI_SDT_INVALID_LENGTH if its Length is below
 * `first`. */
ZACPI_STATUS zacpi_list_entries(const struct zacpi_source *source, uint64_t table,
                                const struct zacpi_walk *walk, struct zacpi_entry *out,
                                size_t capacity, size_t *count, uint8_t *malformed,
                                struct zacpi_signature *signature);

/* Lists the members of the root table that a lookup of the wanted signature, by a call that needs
 * its fixed fields, skips for a reason other than their Signature, up to the one that it finds, and
 * last that one if only `accept` lets it find it (section 5.2.6). Fails with an opening error. */
ZACPI_STATUS zacpi_list_faults(const struct zacpi_source *source, struct zacpi_signature wanted,
                               struct zacpi_fault *out, size_t capacity, size_t *count,
                               struct zacpi_signature *signature);

/* Returns the AML of the DSDT that the FADT names (sections 5.2.9 and 5.2.11.1). Fails with an
 * opening error, ZACPI_TABLE_MISSING "FACP", ZACPI_INVALID_DSDT_ADDRESS, or an error of a table
 * with "DSDT". */
ZACPI_STATUS zacpi_get_dsdt(const struct zacpi_source *source, struct zacpi_aml_table *out,
                            struct zacpi_signature *signature);

/* Lists the AML of each valid SSDT (section 5.2.11.2). Fails with an opening error. */
ZACPI_STATUS zacpi_list_ssdts(const struct zacpi_source *source, struct zacpi_aml_table *out,
                              size_t capacity, size_t *count, struct zacpi_signature *signature);

/* Lists the memory of the tables, which is to be kept: of the RSDP, the root table, each listed
 * table that is valid under its own signature, and the DSDT and FACS that zacpi_get_dsdt and
 * zacpi_get_facs return (sections 5.2.5 to 5.2.11). The ranges may overlap; C.md lists what
 * isn't among them. Fails with an opening error. */
ZACPI_STATUS zacpi_list_ranges(const struct zacpi_source *source, struct zacpi_range *out,
                               size_t capacity, size_t *count, struct zacpi_signature *signature);

/* Fixed hardware and devices ------------------------------------------------------------------- */

struct zacpi_generic_address { /* Generic Address Structure, section 5.2.3.2 */
    zacpi_u64 address;   /* in its space */
    uint8_t space;       /* of enum zacpi_address_space */
    uint8_t bit_width, bit_offset;
    uint8_t access_size; /* 0 unspecified, 1 one byte, 2 two, 3 four, 4 eight */
    uint8_t reserved[4]; /* 0 */
};
enum zacpi_address_space { /* section 5.2.3.2 */
    ZACPI_SPACE_SYSTEM_MEMORY = 0, ZACPI_SPACE_SYSTEM_IO = 1, ZACPI_SPACE_PCI_CONFIGURATION = 2,
    ZACPI_SPACE_EMBEDDED_CONTROLLER = 3, ZACPI_SPACE_SMBUS = 4, ZACPI_SPACE_SYSTEM_CMOS = 5,
    ZACPI_SPACE_PCI_BAR_TARGET = 6, ZACPI_SPACE_IPMI = 7, ZACPI_SPACE_GENERAL_PURPOSE_IO = 8,
    ZACPI_SPACE_GENERIC_SERIAL_BUS = 9, ZACPI_SPACE_PLATFORM_COMMUNICATIONS_CHANNEL = 0x0a,
    ZACPI_SPACE_FUNCTIONAL_FIXED_HARDWARE = 0x7f
};
struct zacpi_register {
    struct zacpi_generic_address at; /* zeros unless it is present */
    uint8_t present;                 /* 0: none. 1: it is `at`. 2: its address is an error */
    uint8_t reserved[7]; /* 0 */
};
struct zacpi_pm_timer {
    struct zacpi_generic_address base; /* X_PM_TMR_BLK or PM_TMR_BLK */
    uint8_t present;                   /* 0: there is none, and all else is 0 */
    uint8_t is_32_bit;                 /* TMR_VAL_EXT: it counts in 32 bits, else in 24 */
    uint8_t reserved[6]; /* 0 */
};
struct zacpi_hpet_info {
    zacpi_u64 base_address;
    uint32_t event_timer_block_id;
    uint16_t clock_tick_unit; /* Main Counter Minimum Clock_tick in Periodic Mode */
    uint8_t number;
    uint8_t page_protection;  /* bits 0 to 3: 0 nothing is promised, 1 the 4 KiB may be accessed, 2
                               * the 64 KiB, 3 reserved (3 to 15) */
};
enum zacpi_event_timer_block_id {
    ZACPI_HPET_HARDWARE_REV_ID = 0xff,
    ZACPI_HPET_NUMBER_OF_COMPARATORS = 0x1f00, /* less one */
    ZACPI_HPET_COUNT_SIZE_CAP = 0x2000,        /* the counter has 64 bits */
    ZACPI_HPET_LEGACY_REPLACEMENT = 0x8000     /* in bits 16 to 31 is the PCI Vendor ID */
};
struct zacpi_boot_graphic {
    zacpi_u64 address;
    uint32_t x, y;        /* Image Offset X and Y: of its upper left corner, in pixels */
    uint16_t orientation; /* Orientation Offset, bits 1 and 2 of Status: in degrees, clockwise, 0,
                           * 90, 180 or 270 */
    uint8_t displayed;    /* bit 0 of Status: it is still on the screen */
    uint8_t image_type;   /* 0: a bitmap. 1: another code, which is reserved */
    uint8_t reserved[4]; /* 0 */
};

struct zacpi_gpe_block { /* general purpose events (sections 4.8.4.1 and 5.2.9), by the length in
                          * bytes; zeros unless it is present */
    zacpi_u64 address;   /* X_GPEn_BLK or GPEn_BLK: of the first register, in its space */
    uint8_t space;       /* as in struct zacpi_generic_address */
    uint8_t byte_length; /* GPEn_BLK_LEN: first the status bits, in the second half the enable
                          * bits */
    uint8_t present;     /* 0: none, also if GPEn_BLK_LEN is 0. 1: there is one. 2: its Address
                          * Space ID is reserved; Access Size isn't looked at */
    uint8_t reserved[5]; /* 0 */
};
/* FADT, section 5.2.9. A field's X_ field (X_DSDT), where there is one, counts unless it is 0, or
 * the Address in it; it is read as 0 below revision 2, and if the table lacks one of its bytes.
 * Otherwise a block is I/O ports, of eight bits for each byte of its length (PM1_EVT_LEN to
 * GPE1_BLK_LEN), which may be 0; from 32 bytes on it is an error, except for gpe0_block and
 * gpe1_block. Below `revision` 3 x86_boot_flags, power_profile, pstate_control and c_state_control
 * are reserved, and here are what their bytes are: ACPICA takes them as 0 there. */
struct zacpi_fixed_hardware {
    zacpi_u64 facs_address;                  /* FIRMWARE_CTRL. 0: none */
    zacpi_u64 dsdt_address;                  /* DSDT. 0: none */
    struct zacpi_register pm1a_event, pm1b_event; /* PM1n_EVT_BLK */
    struct zacpi_register pm1a_control, pm1b_control; /* PM1n_CNT_BLK */
    struct zacpi_register pm2_control;       /* PM2_CNT_BLK */
    struct zacpi_register pm_timer;          /* PM_TMR_BLK (section 4.8.3.3). None if PM_TMR_LEN
                                              * isn't 4 */
    struct zacpi_register gpe0, gpe1;        /* GPEn_BLK, also if GPEn_BLK_LEN is 0 */
    struct zacpi_register reset;             /* RESET_REG: counts only with
                                              * ZACPI_FADT_RESET_REG_SUP */
    struct zacpi_register sleep_control;     /* of reduced hardware */
    struct zacpi_register sleep_status;      /* of reduced hardware */
    struct zacpi_gpe_block gpe0_block, gpe1_block; /* GPE0 and GPE1, of any length */
    uint32_t smi_command;                    /* SMI_CMD: the port that acpi_enable to
                                              * c_state_control are written to. 0: no system
                                              * management mode */
    uint32_t flags;                          /* of enum zacpi_fadt_flag */
    uint16_t sci_interrupt;                  /* SCI_INT: of the 8259, or else a global system
                                              * interrupt */
    uint16_t x86_boot_flags;                 /* IAPC_BOOT_ARCH */
    uint16_t arm_boot_flags;                 /* ARM_BOOT_ARCH */
    uint16_t c2_latency, c3_latency;         /* P_LVL2_LAT, P_LVL3_LAT: in microseconds. Above 100,
                                              * 1000: no C2, no C3, as in zacpi_fadt_reduced() */
    uint16_t flush_size;                     /* strides to read to write back all caches */
    uint16_t flush_stride;                   /* their width in bytes */
    uint8_t power_profile;                   /* Preferred_PM_Profile: 0 to 8, others are reserved */
    uint8_t acpi_enable, acpi_disable, s4bios_request;
    uint8_t pstate_control;                  /* PSTATE_CNT. 0: none */
    uint8_t c_state_control;                 /* CST_CNT */
    uint8_t gpe1_base;
    uint8_t duty_offset, duty_width;         /* in the processor's control register, in bits */
    uint8_t day_alarm, month_alarm, century; /* registers of the clock. 0: none */
    uint8_t reset_value, revision;
    uint8_t minor_revision;                  /* FADT Minor Version: errata in bits 4 to 7 */
    uint8_t reserved[3]; /* 0 */
    zacpi_u64 hypervisor_id;                 /* Hypervisor Vendor Identity; 0 below revision 6 */
};
struct zacpi_facs { /* section 5.2.10 */
    zacpi_u64 address;
    zacpi_u64 waking_vector_64; /* X_Firmware_Waking_Vector */
    uint32_t length, hardware_signature, waking_vector;
    uint32_t flags;            /* bit 0 S4BIOS_F, 1 64BIT_WAKE_SUPPORTED_F */
    uint8_t version;
    uint8_t reserved[7]; /* 0 */
};
enum zacpi_fadt_flag { /* Flags, section 5.2.9 */
    ZACPI_FADT_WBINVD = 0x1, ZACPI_FADT_WBINVD_FLUSH = 0x2, ZACPI_FADT_PROC_C1 = 0x4,
    ZACPI_FADT_P_LVL2_UP = 0x8, ZACPI_FADT_PWR_BUTTON = 0x10, ZACPI_FADT_SLP_BUTTON = 0x20,
    ZACPI_FADT_FIX_RTC = 0x40, ZACPI_FADT_RTC_S4 = 0x80, ZACPI_FADT_TMR_VAL_EXT = 0x100,
    ZACPI_FADT_DCK_CAP = 0x200, ZACPI_FADT_RESET_REG_SUP = 0x400,
    ZACPI_FADT_SEALED_CASE = 0x800, ZACPI_FADT_HEADLESS = 0x1000,
    ZACPI_FADT_CPU_SW_SLP = 0x2000, ZACPI_FADT_PCI_EXP_WAK = 0x4000,
    ZACPI_FADT_USE_PLATFORM_CLOCK = 0x8000, ZACPI_FADT_S4_RTC_STS_VALID = 0x10000,
    ZACPI_FADT_REMOTE_POWER_ON_CAPABLE = 0x20000, ZACPI_FADT_FORCE_APIC_CLUSTER_MODEL = 0x40000,
    ZACPI_FADT_FORCE_APIC_PHYSICAL_DESTINATION_MODE = 0x80000,
    ZACPI_FADT_HW_REDUCED_ACPI = 0x100000, ZACPI_FADT_LOW_POWER_S0_IDLE_CAPABLE = 0x200000
};
enum zacpi_boot_flag { /* IAPC_BOOT_ARCH and ARM_BOOT_ARCH, sections 5.2.9.3 and 5.2.9.4 */
    ZACPI_X86_LEGACY_DEVICES = 0x1, ZACPI_X86_8042 = 0x2, ZACPI_X86_VGA_NOT_PRESENT = 0x4,
    ZACPI_X86_MSI_NOT_SUPPORTED = 0x8, ZACPI_X86_PCIE_ASPM_CONTROLS = 0x10,
    ZACPI_X86_CMOS_RTC_NOT_PRESENT = 0x20,
    ZACPI_ARM_PSCI_COMPLIANT = 0x1, ZACPI_ARM_PSCI_USE_HVC = 0x2
};
enum zacpi_power_profile { /* Preferred_PM_Profile, section 5.2.9.1 */
    ZACPI_PROFILE_UNSPECIFIED = 0, ZACPI_PROFILE_DESKTOP = 1, ZACPI_PROFILE_MOBILE = 2,
    ZACPI_PROFILE_WORKSTATION = 3, ZACPI_PROFILE_ENTERPRISE_SERVER = 4,
    ZACPI_PROFILE_SOHO_SERVER = 5, ZACPI_PROFILE_APPLIANCE_PC = 6,
    ZACPI_PROFILE_PERFORMANCE_SERVER = 7, ZACPI_PROFILE_TABLET = 8
};
struct zacpi_console { /* SPCR, whose layout and names of fields are Microsoft's */
    struct zacpi_register base;            /* Base Address. None if all its twelve bytes are 0 */
    uint32_t baud_rate;                    /* Precise Baud Rate, or if that is 0 what Configured
                                            * Baud Rate means: 3 9600, 4 19200, 6 57600, 7
                                            * 115200; 0 unless it is there. In bits per second */
    uint32_t global_system_interrupt;      /* 0 unless it is there */
    uint32_t clock_frequency;              /* UART Clock Frequency, in Hz. 0: unspecified, or
                                            * the table is below revision 3 */
    uint32_t pci_flags;                    /* bit 0: neither switch the device off nor look for its
                                            * like */
    uint16_t pci_device_id, pci_vendor_id; /* 0xffff: no PCI device */
    uint8_t interface_type;                /* of enum zacpi_console_type */
    uint8_t irq;                           /* on the 8259s; 0 unless it is there */
    uint8_t has_irq;                       /* bit 0 of Interrupt Type is set */
    uint8_t has_global_system_interrupt;   /* one of bits 1 to 4 of Interrupt Type is set */
    uint8_t has_baud_rate;
    uint8_t parity, stop_bits;             /* 0: no parity. 1: one stop bit */
    uint8_t pci_segment, pci_bus, pci_device, pci_function;
    uint8_t reserved; /* 0 */
};

enum zacpi_console_type {
    ZACPI_CONSOLE_16550 = 0, ZACPI_CONSOLE_16450 = 1, ZACPI_CONSOLE_MAX311XE = 2,
    ZACPI_CONSOLE_ARM_PL011 = 3, ZACPI_CONSOLE_MSM8X60 = 4, ZACPI_CONSOLE_NVIDIA_16550 = 5,
    ZACPI_CONSOLE_TI_OMAP = 6, ZACPI_CONSOLE_APM88XXXX = 8, ZACPI_CONSOLE_MSM8974 = 9,
    ZACPI_CONSOLE_SAM5250 = 0x0a, ZACPI_CONSOLE_INTEL_USIF = 0x0b, ZACPI_CONSOLE_IMX6 = 0x0c,
    ZACPI_CONSOLE_ARM_SBSA_32_BIT = 0x0d, ZACPI_CONSOLE_ARM_SBSA = 0x0e,
    ZACPI_CONSOLE_ARM_DCC = 0x0f, ZACPI_CONSOLE_BCM2835 = 0x10,
    ZACPI_CONSOLE_SDM845_18432 = 0x11, ZACPI_CONSOLE_16550_ANY_ADDRESS = 0x12,
    ZACPI_CONSOLE_SDM845_7372 = 0x13, ZACPI_CONSOLE_INTEL_LPSS = 0x14,
    ZACPI_CONSOLE_RISCV_SBI = 0x15
};

/* Returns the fixed hardware of the FADT. The registers of pm1a and reset are present at address 0
 * too, and so are the sleep registers if the table is of revision 2 or above and contains all their
 * bytes: 0 means none. Fails with an opening error, or ZACPI_TABLE_MISSING "FACP". */
ZACPI_STATUS zacpi_get_fixed_hardware(const struct zacpi_source *source,
                                      struct zacpi_fixed_hardware *out,
                                      struct zacpi_signature *signature);

/* Returns the FACS of the FADT. Fails with an opening error, ZACPI_TABLE_MISSING "FACP",
 * ZACPI_TABLE_MISSING "FACS" if no field has an address, ZACPI_MAP_FAILED of its first 36 bytes,
 * with "FACS" ZACPI_SDT_INVALID_SIGNATURE, or ZACPI_SDT_INVALID_LENGTH below 64, or
 * ZACPI_MAP_FAILED of the bytes that Length counts. */
ZACPI_STATUS zacpi_get_facs(const struct zacpi_source *source, struct zacpi_facs *out,
                            struct zacpi_signature *signature);

/* Returns the serial console that the firmware used, by the SPCR. Fails with an opening error, or
 * ZACPI_TABLE_MISSING "SPCR". */
ZACPI_STATUS zacpi_get_console(const struct zacpi_source *source, struct zacpi_console *out,
                               struct zacpi_signature *signature);

/* Returns the power management timer of the FADT, which counts at 3.579545 MHz (sections 4.8.3.3
 * and 5.2.9). There is none if PM_TMR_LEN isn't 4, or no field has an address; reduced hardware
 * (ZACPI_FADT_HW_REDUCED_ACPI) has none, whatever this returns of its fields. Fails with an opening
 * error, ZACPI_TABLE_MISSING "FACP", or ZACPI_INVALID_GENERIC_ADDRESS if there is a timer, and
 * X_PM_TMR_BLK has a reserved code and an Address that isn't 0. */
ZACPI_STATUS zacpi_get_pm_timer(const struct zacpi_source *source, struct zacpi_pm_timer *out,
                                struct zacpi_signature *signature);

/* Returns the block of event timers of the HPET (IA-PC HPET Specification). Fails with an opening
 * error, ZACPI_TABLE_MISSING "HPET", or ZACPI_INVALID_GENERIC_ADDRESS. */
ZACPI_STATUS zacpi_get_hpet(const struct zacpi_source *source, struct zacpi_hpet_info *out,
                            struct zacpi_signature *signature);

/* Lists the blocks of all HPETs, but those that aren't in memory. Fails with an opening error. */
ZACPI_STATUS zacpi_list_hpets(const struct zacpi_source *source, struct zacpi_hpet_info *out,
                              size_t capacity, size_t *count, struct zacpi_signature *signature);

/* Returns the image that the firmware showed, by the BGRT (section 5.2.22). Fails with an opening
 * error, or ZACPI_TABLE_MISSING "BGRT". */
ZACPI_STATUS zacpi_get_boot_graphic(const struct zacpi_source *source,
                                    struct zacpi_boot_graphic *out,
                                    struct zacpi_signature *signature);

/* Power ---------------------------------------------------------------------------------------- */

enum zacpi_step_kind { ZACPI_STEP_WRITE = 0, ZACPI_STEP_WAIT = 1 };
struct zacpi_step {
    struct zacpi_register at; /* present */
    uint32_t mask, value;     /* write: the bits of `mask` are set as in `value`, and the others are
                               * kept; with all bits of `width` in `mask` nothing is read first.
                               * wait: until the bits of `mask` are as in `value` */
    uint8_t width;            /* of one access, in bits: 8 or 16 */
    uint8_t kind;             /* of enum zacpi_step_kind */
    uint8_t reserved[6]; /* 0 */
};
struct zacpi_plan { /* steps to take in order; the caller writes, the library touches no port */
    struct zacpi_step steps[8]; /* zeros from `count` on */
    uint32_t count;
    uint8_t reserved[4]; /* 0 */
};
struct zacpi_sleep_types {
    uint8_t a, b; /* SLP_TYPa and SLP_TYPb */
};

/* Where sleep types are (section 7.4.2), as AML isn't run: in the package of the first Name of the
 * state, _S0_ to _S5_, at the root or in Scope (\) there. They are its first two elements, or, if
 * it has only one, the low byte of that and what is above it; they have to be integer constants.
 * Elements after the second don't matter.
 *
 * On the way to it these are skipped by their length: If, Else, While, Method, Device, Processor,
 * PowerResource, ThermalZone, other Scopes and fields. So are Name, Alias, External, Mutex, Event,
 * Noop, regions, and CreateField and its like, if their arguments are integer constants, texts,
 * buffers, packages, names, locals, or Add, Subtract, ShiftLeft, ShiftRight, And and Or of these.
 * Another statement or expression, such as Store, Revision or a call, hides what follows it, up to
 * the end of its Scope (\) or of the table. Bytes that aren't AML are ZACPI_AML_INVALID, and so is
 * an integer constant by itself; but right after a region, a CreateField or its like, or a Name
 * whose value is a name or an operator, it may belong to a call there, and hides what follows.
 *
 * ZACPI_SLEEP_STATE_NOT_SEEN is for a name that may be defined by what is hidden; by an If, Else or
 * While; by a Method or Alias of it; or by another object with its four letters in its bytes, but
 * not by a Name, Alias or Method of another name (what a method's body defines ends with the call),
 * nor by an External, also of the name itself, which another table defines. It is also for a Name
 * of the state that has another value than such a package, be it an integer or a package of no
 * elements, and hides what follows. */

/* Returns the sleep types of S0 to S5, each as a byte, from the first of the DSDT and the SSDTs
 * that contains the state's package. Fails with an opening error, or ZACPI_NO_SUCH_STATE; if no
 * table contains it, with ZACPI_TABLE_MISSING "FACP", ZACPI_INVALID_DSDT_ADDRESS, an error of a
 * table with "DSDT", ZACPI_AML_INVALID or ZACPI_SLEEP_STATE_NOT_SEEN of the first table with one of
 * them, or ZACPI_SLEEP_STATE_ABSENT; then with ZACPI_SLEEP_TYPE_TOO_HIGH if one of the two is above
 * 255. */
ZACPI_STATUS zacpi_get_sleep_types(const struct zacpi_source *source, uint32_t state,
                                   struct zacpi_sleep_types *out,
                                   struct zacpi_signature *signature);

/* Returns what to write to enter a sleep state (section 16.1): SLP_TYP and SLP_EN to PM1a_CNT and
 * PM1b_CNT, on reduced hardware to SLEEP_CONTROL_REG. Before it an interpreter still has to run
 * \_TTS and \_PTS, and \_GTS of old machines, with the state. Fails with an opening error, or
 * ZACPI_NO_SUCH_STATE; if no table has its package, with ZACPI_TABLE_MISSING "FACP",
 * ZACPI_INVALID_DSDT_ADDRESS, an error of a table with "DSDT", ZACPI_AML_INVALID or
 * ZACPI_SLEEP_STATE_NOT_SEEN of the first table with one of them, or ZACPI_SLEEP_STATE_ABSENT; then
 * with ZACPI_TABLE_MISSING "FACP", ZACPI_INVALID_GENERIC_ADDRESS, ZACPI_NO_REGISTER if PM1a_CNT or
 * SLEEP_CONTROL_REG is absent or at address 0, ZACPI_INVALID_GENERIC_ADDRESS of PM1b_CNT, or
 * ZACPI_SLEEP_TYPE_TOO_HIGH of a type that would be written. */
ZACPI_STATUS zacpi_get_sleep_plan(const struct zacpi_source *source, uint32_t state,
                                  struct zacpi_plan *out, struct zacpi_signature *signature);

/* Returns what to write to power the machine off, what zacpi_get_sleep_plan returns for S5. An
 * interpreter would still have to run \_TTS, \_PTS and \_GTS with 5 before. Fails with an opening
 * error; if no table has the package of S5, with ZACPI_TABLE_MISSING "FACP",
 * ZACPI_INVALID_DSDT_ADDRESS, an error of a table with "DSDT", ZACPI_AML_INVALID or
 * ZACPI_SLEEP_STATE_NOT_SEEN of the first table with one of them, or ZACPI_SLEEP_STATE_ABSENT; then
 * with ZACPI_TABLE_MISSING "FACP", ZACPI_INVALID_GENERIC_ADDRESS, ZACPI_NO_REGISTER if PM1a_CNT or
 * SLEEP_CONTROL_REG is absent or at address 0, ZACPI_INVALID_GENERIC_ADDRESS of PM1b_CNT, or
 * ZACPI_SLEEP_TYPE_TOO_HIGH of a type that would be written. */
ZACPI_STATUS zacpi_get_power_off_plan(const struct zacpi_source *source, struct zacpi_plan *out,
                                      struct zacpi_signature *signature);

/* Returns what to write to reset the machine: RESET_VALUE to RESET_REG (section 4.8.3.6). Fails
 * with an opening error, ZACPI_TABLE_MISSING "FACP", ZACPI_NO_RESET if RESET_REG_SUP is clear,
 * ZACPI_INVALID_GENERIC_ADDRESS, or ZACPI_NO_RESET if RESET_REG is at address 0. */
ZACPI_STATUS zacpi_get_reset_plan(const struct zacpi_source *source, struct zacpi_plan *out,
                                  struct zacpi_signature *signature);

/* Returns what to write to enable ACPI: ACPI_ENABLE to the port SMI_CMD, then until SCI_EN of
 * PM1a_CNT is set (section 4.8.3.2.1). The port is a register of one byte: its bit_width is 8, and
 * its access_size 1. No step on a machine that is always in ACPI mode: on reduced hardware, and if
 * SMI_CMD is 0, or ACPI_ENABLE and ACPI_DISABLE both are (section 5.2.9). If SCI_EN is set already,
 * ACPI is enabled: look at the register of the last step before the first one, and run none. Fails
 * with an opening error, or ZACPI_TABLE_MISSING "FACP", and else, unless there is no step, with
 * ZACPI_INVALID_GENERIC_ADDRESS, or ZACPI_NO_REGISTER if PM1a_CNT is at address 0. */
ZACPI_STATUS zacpi_get_enable_plan(const struct zacpi_source *source, struct zacpi_plan *out,
                                   struct zacpi_signature *signature);

/* Returns the ticks from one value of the power management timer to a later one, if it went around
 * less than once: it counts in 32 bits, or else in 24 (section 4.8.3.3). */
static inline uint32_t zacpi_pm_timer_ticks(uint32_t before, uint32_t after, uint8_t is_32_bit) {
    return (after - before) & (is_32_bit ? 0xffffffffu : 0xffffffu);
}

/* PCI ------------------------------------------------------------------------------------------ */

struct zacpi_pci_region { /* an allocation of the MCFG (PCI Firmware Specification, section
                           * 4.1.2) */
    zacpi_u64 base_address; /* where bus 0 of the segment group would be */
    uint16_t segment_group;
    uint8_t first_bus, last_bus;
    uint8_t reserved[4]; /* 0 */
};
struct zacpi_ecam_range {
    zacpi_u64 address, length; /* zeros if it isn't present */
    uint16_t segment_group;
    uint8_t present;          /* 0: the last bus is below the first, or the range ends at 2^64 or
                               * above */
    uint8_t reserved[5]; /* 0 */
};

/* Lists the regions of PCI configuration space of the MCFG: 16 bytes for each from byte 44 on;
 * fewer at the end are none. Fails with an opening error, or ZACPI_TABLE_MISSING "MCFG". */
ZACPI_STATUS zacpi_list_pci_regions(const struct zacpi_source *source, struct zacpi_pci_region *out,
                                    size_t capacity, size_t *count,
                                    struct zacpi_signature *signature);

/* Lists the memory of each item of zacpi_list_pci_regions, with its base as bus 0's. Fails with an
 * opening error, or ZACPI_TABLE_MISSING "MCFG". */
ZACPI_STATUS zacpi_list_ecam_ranges(const struct zacpi_source *source, struct zacpi_ecam_range *out,
                                    size_t capacity, size_t *count,
                                    struct zacpi_signature *signature);

/* Returns the address of a function's 4096 bytes of configuration space, by the first region of the
 * MCFG that contains the bus, with its base as bus 0's. Fails with an opening error,
 * ZACPI_TABLE_MISSING "MCFG", or ZACPI_NO_SUCH_FUNCTION if no region contains the bus, the device
 * is above 31, the function above 7, or the sum 2^64 or above. */
ZACPI_STATUS zacpi_pci_ecam_address(const struct zacpi_source *source, uint16_t segment_group,
                                    uint8_t bus, uint8_t device, uint8_t function, uint64_t *out,
                                    struct zacpi_signature *signature);

/* Interrupts and processors of a PC (MADT, section 5.2.12) ------------------------------------- */

/* `polarity` and `trigger` are codes of MPS INTI Flags (section 5.2.12.5, table 5.26): Polarity,
 * bits 0 and 1, and Trigger Mode, bits 2 and 3. 0 is as the bus has it. */
enum zacpi_polarity {
    ZACPI_POLARITY_BUS = 0,
    ZACPI_POLARITY_HIGH = 1,
    ZACPI_POLARITY_RESERVED = 2,
    ZACPI_POLARITY_LOW = 3
};
enum zacpi_trigger {
    ZACPI_TRIGGER_BUS = 0,
    ZACPI_TRIGGER_EDGE = 1,
    ZACPI_TRIGGER_RESERVED = 2,
    ZACPI_TRIGGER_LEVEL = 3
};
/* Disabled: Enabled, bit 0 of Flags, is 0. Waiting: to be started. Running: the boot processor. */
enum zacpi_processor_state {
    ZACPI_PROCESSOR_DISABLED = 0, ZACPI_PROCESSOR_WAITING = 1, ZACPI_PROCESSOR_RUNNING = 2
};

struct zacpi_interrupt_model {
    zacpi_u64 local_apic_address; /* of the last override of it (section 5.2.12.8), or else Local
                                  * Interrupt Controller Address */
    /* how many items each list below has */
    zacpi_size io_apics, overrides, nmi_sources, nmi_lines, processors;
    uint8_t known;         /* 1 if a MADT lists an entry of Types 0 to 5, 9 or 0xa; else all is 0 */
    uint8_t also_has_8259; /* PCAT_COMPAT, bit 0 of Flags: there is a pair of 8259s to be masked */
    uint8_t reserved[6]; /* 0 */
};
struct zacpi_local_apic {
    zacpi_u64 address;     /* as in struct zacpi_interrupt_model, by the entries up to where none
                            * begins */
    uint8_t also_has_8259; /* PCAT_COMPAT, bit 0 of Flags */
    uint8_t reserved[7]; /* 0 */
};
struct zacpi_io_apic { /* I/O APIC, section 5.2.12.3 */
    uint32_t address;
    uint32_t global_system_interrupt_base; /* the interrupt of its first pin */
    uint8_t id;
    uint8_t reserved[3]; /* 0 */
};
struct zacpi_interrupt_source_override { /* Interrupt Source Override, section 5.2.12.5 */
    uint32_t global_system_interrupt;
    uint8_t isa_source; /* Source: the interrupt on the ISA bus */
    uint8_t polarity, trigger;
    uint8_t bus;        /* 0 ISA; others are reserved */
};
struct zacpi_nmi_source { /* NMI Source, section 5.2.12.6 */
    uint32_t global_system_interrupt;
    uint8_t polarity, trigger;
    uint8_t reserved[2]; /* 0 */
};
struct zacpi_nmi_line { /* Local APIC NMI and Local x2APIC NMI, sections 5.2.12.7 and 5.2.12.13 */
    uint32_t processor_uid; /* 0 if `of_all` */
    uint8_t of_all;         /* ACPI Processor UID is 0xff, or 0xffffffff for an x2APIC: all
                             * processors */
    uint8_t lint;           /* Local APIC LINT#: 0 LINT0, 1 LINT1; others are reserved */
    uint8_t polarity, trigger;
};
struct zacpi_processor { /* Processor Local APIC and Processor Local x2APIC, sections 5.2.12.2 and
                          * 5.2.12.12 */
    uint32_t uid;
    uint32_t local_apic_id;    /* APIC ID or X2APIC ID */
    uint8_t state;             /* one of enum zacpi_processor_state */
    uint8_t is_boot;
    uint8_t is_online_capable; /* bit 1 of Flags: disabled, it can be enabled later. 0 below
                                * revision 5 (ACPI 6.3), where the bit is reserved */
    uint8_t is_x2apic;         /* the entry is a Processor Local x2APIC */
};

/* Returns which controllers interrupts come to, and how many items the lists of zacpi_get_platform
 * have. Fails with an opening error, ZACPI_TABLE_MISSING "FACP", the ZACPI_MADT_ error of the first
 * entry with one (of several the least), or ZACPI_INVALID_GENERIC_ADDRESS of X_PM_TMR_BLK if
 * PM_TMR_LEN is 4. */
ZACPI_STATUS zacpi_get_interrupt_model(const struct zacpi_source *source,
                                       struct zacpi_interrupt_model *out,
                                       struct zacpi_signature *signature);

/* Returns the address of each processor's local APIC from only the MADT, whatever is wrong with
 * other entries: the address that zacpi_get_interrupt_model returns, if it returns one. Fails with
 * an opening error, or ZACPI_TABLE_MISSING "APIC". */
ZACPI_STATUS zacpi_get_local_apic(const struct zacpi_source *source, struct zacpi_local_apic *out,
                                  struct zacpi_signature *signature);

/* The five lists below return their entries as they are, up to where none begins. */

/* Lists the I/O APICs. Fails with an opening error, ZACPI_TABLE_MISSING "APIC", or
 * ZACPI_NO_APICS. */
ZACPI_STATUS zacpi_list_io_apics(const struct zacpi_source *source, struct zacpi_io_apic *out,
                                 size_t capacity, size_t *count, struct zacpi_signature *signature);
/* Lists the Interrupt Source Overrides, also of other buses than ISA. Fails with an opening error,
 * ZACPI_TABLE_MISSING "APIC", or ZACPI_NO_APICS. */
ZACPI_STATUS zacpi_list_overrides(const struct zacpi_source *source,
                                  struct zacpi_interrupt_source_override *out, size_t capacity,
                                  size_t *count, struct zacpi_signature *signature);
/* Lists the NMI Sources: the I/O APIC pins that are non-maskable. Fails with an opening error,
 * ZACPI_TABLE_MISSING "APIC", or ZACPI_NO_APICS. */
ZACPI_STATUS zacpi_list_nmi_sources(const struct zacpi_source *source, struct zacpi_nmi_source *out,
                                    size_t capacity, size_t *count,
                                    struct zacpi_signature *signature);
/* Lists the Local APIC NMIs and Local x2APIC NMIs: the LINT pins that NMIs come to. A processor has
 * those with `of_all`, and those with its uid. Fails with an opening error, ZACPI_TABLE_MISSING
 * "APIC", or ZACPI_NO_APICS. */
ZACPI_STATUS zacpi_list_nmi_lines(const struct zacpi_source *source, struct zacpi_nmi_line *out,
                                  size_t capacity, size_t *count,
                                  struct zacpi_signature *signature);
/* Lists the Processor Local APICs and Processor Local x2APICs. The first is the boot processor,
 * also if it is disabled (section 5.2.12.1). Fails with an opening error, ZACPI_TABLE_MISSING
 * "APIC", or ZACPI_NO_APICS. */
ZACPI_STATUS zacpi_list_processors(const struct zacpi_source *source, struct zacpi_processor *out,
                                   size_t capacity, size_t *count,
                                   struct zacpi_signature *signature);
/* Lists the items of zacpi_list_processors from the `from`-th on, from 0 on; `count` is of all.
 * Fails with an opening error, ZACPI_TABLE_MISSING "APIC", or ZACPI_NO_APICS. */
ZACPI_STATUS zacpi_list_processors_from(const struct zacpi_source *source, size_t from,
                                        struct zacpi_processor *out, size_t capacity,
                                        size_t *count, struct zacpi_signature *signature);

/* Returns MailBoxAddress of the first Multiprocessor Wakeup: the address of the mailbox by which
 * processors are woken (section 5.2.12.19). Fails with an opening error, ZACPI_TABLE_MISSING
 * "APIC", or without one ZACPI_MADT_INVALID_ENTRY_LENGTH, else ZACPI_MADT_UNEXPECTED_ENTRY. */
ZACPI_STATUS zacpi_get_mailbox_address(const struct zacpi_source *source, uint64_t *out,
                                       struct zacpi_signature *signature);

struct zacpi_entry_fault {
    zacpi_u64 address;   /* of the entry, or where none begins */
    uint32_t status;     /* its error */
    uint16_t entry_type; /* Type of the entry, or there; 0 at the table's end */
    uint8_t reserved[2]; /* 0 */
};
/* Lists the entries with a ZACPI_MADT_ error (of several the least) or ZACPI_SHORT_RISCV_ENTRY, and
 * last, if bytes are left, where none begins, with ZACPI_MADT_INVALID_ENTRY_LENGTH. Only that one
 * ends the lists of the MADT's entries, also of an Arm machine, whose entries of a GIC have
 * ZACPI_MADT_UNEXPECTED_ENTRY. Fails with an opening error, or ZACPI_TABLE_MISSING "APIC". */
ZACPI_STATUS zacpi_list_madt_faults(const struct zacpi_source *source,
                                    struct zacpi_entry_fault *out, size_t capacity, size_t *count,
                                    struct zacpi_signature *signature);

/* The lists of zacpi_get_platform. For each, the caller passes where it goes and how many items fit
 * there, and the call writes how many there are in all. */
struct zacpi_platform_lists {
    struct zacpi_processor *processors;
    zacpi_size processors_capacity, processors_count;
    struct zacpi_io_apic *io_apics;
    zacpi_size io_apics_capacity, io_apics_count;
    struct zacpi_interrupt_source_override *overrides;
    zacpi_size overrides_capacity, overrides_count;
    struct zacpi_nmi_source *nmi_sources;
    zacpi_size nmi_sources_capacity, nmi_sources_count;
    struct zacpi_nmi_line *nmi_lines;
    zacpi_size nmi_lines_capacity, nmi_lines_count;
};

/* Returns what zacpi_get_interrupt_model returns, and writes the first items of the five lists
 * above. Fails with an opening error, ZACPI_TABLE_MISSING "FACP", the ZACPI_MADT_ error of the
 * first entry with one (of several the least), ZACPI_INVALID_GENERIC_ADDRESS of X_PM_TMR_BLK if
 * PM_TMR_LEN is 4, or ZACPI_NO_APICS. */
ZACPI_STATUS zacpi_get_platform(const struct zacpi_source *source,
                                struct zacpi_interrupt_model *out,
                                struct zacpi_platform_lists *lists,
                                struct zacpi_signature *signature);

struct zacpi_interrupt {
    uint32_t global_system_interrupt;
    uint8_t polarity, trigger; /* never as the bus has it */
    uint8_t reserved[2]; /* 0 */
};
struct zacpi_io_apic_pin {
    struct zacpi_io_apic io_apic;
    uint32_t pin; /* from 0 on */
};

/* Returns how one of the 16 ISA interrupts comes to the I/O APICs: by its last override of bus 0,
 * or else as the interrupt of the same number; active high and by edge unless the override states
 * otherwise (section 5.2.12.5). Fails with an opening error, ZACPI_TABLE_MISSING "APIC",
 * ZACPI_NO_APICS, ZACPI_MADT_MPS_INTI_INVALID_POLARITY or ZACPI_MADT_MPS_INTI_INVALID_TRIGGER_MODE
 * of the override, or ZACPI_NO_SUCH_INTERRUPT for an irq above 15, and for one without an override
 * if the last override of another source of bus 0 has its number. */
ZACPI_STATUS zacpi_get_isa_interrupt(const struct zacpi_source *source, uint8_t irq,
                                     struct zacpi_interrupt *out,
                                     struct zacpi_signature *signature);

/* Returns how the System Control Interrupt (SCI), SCI_INT of the FADT, comes to the I/O APICs: by
 * its last override of bus 0 if it is below 16, or else as the interrupt of the same number; active
 * low and by level unless the override states otherwise (sections 5.2.9 and 5.2.12.5). Fails with
 * an opening error, ZACPI_TABLE_MISSING "APIC", ZACPI_NO_APICS, ZACPI_TABLE_MISSING "FACP", or
 * ZACPI_MADT_MPS_INTI_INVALID_POLARITY or ZACPI_MADT_MPS_INTI_INVALID_TRIGGER_MODE of the
 * override. */
ZACPI_STATUS zacpi_get_sci_interrupt(const struct zacpi_source *source, struct zacpi_interrupt *out,
                                     struct zacpi_signature *signature);

/* Returns the I/O APIC that a global system interrupt comes to, and the pin there: the first one
 * with the greatest Global System Interrupt Base that is at most the interrupt (section 5.2.13).
 * Fails with an opening error, ZACPI_TABLE_MISSING "APIC", ZACPI_NO_APICS, or ZACPI_NO_SUCH_IO_APIC
 * if each base is above the interrupt. */
ZACPI_STATUS zacpi_get_io_apic_pin(const struct zacpi_source *source,
                                   uint32_t global_system_interrupt, struct zacpi_io_apic_pin *out,
                                   struct zacpi_signature *signature);

struct zacpi_isa_route {
    struct zacpi_interrupt interrupt; /* what zacpi_get_isa_interrupt returns, or zeros */
    struct zacpi_io_apic_pin pin;     /* what zacpi_get_io_apic_pin returns for it, or zeros */
    uint8_t present;                  /* 0: zacpi_get_isa_interrupt fails */
    uint8_t has_pin;                  /* 0: it isn't present, or zacpi_get_io_apic_pin fails */
    uint8_t reserved[2]; /* 0 */
};
struct zacpi_isa_interrupts {
    struct zacpi_isa_route routes[16]; /* item n is irq n */
};

/* Returns all 16 ISA interrupts, each with its pin. Fails with an opening error,
 * ZACPI_TABLE_MISSING "APIC", or ZACPI_NO_APICS. */
ZACPI_STATUS zacpi_get_isa_interrupts(const struct zacpi_source *source,
                                      struct zacpi_isa_interrupts *out,
                                      struct zacpi_signature *signature);

/* Arm: the generic interrupt controller (MADT, section 5.2.12) --------------------------------- */

/* On Arm no `polarity` or `trigger` is as the bus has it. */

struct zacpi_gic_distributor { /* GIC Distributor (GICD), section 5.2.12.15 */
    zacpi_u64 address;
    uint32_t id;
    uint32_t system_vector_base; /* reserved, and kept as it is */
    uint8_t version;             /* 1 to 4; 0: the hardware shows it */
    uint8_t reserved[7]; /* 0 */
};
struct zacpi_gic_cpu_interface { /* GIC CPU Interface (GICC), section 5.2.12.14. An address or
                                  * interrupt of 0: none. Flags: bit 0 is_enabled, 1
                                  * performance_trigger, 2 maintenance_trigger, 3 (since ACPI 6.5)
                                  * is_online_capable, 0 below revision 6 */
    zacpi_u64 mpidr;
    zacpi_u64 parked_address;          /* the parking protocol's mailbox */
    zacpi_u64 address;                 /* Physical Base Address */
    /* GICV, GICH, GICR Base Address */
    zacpi_u64 virtual_address, hypervisor_address, redistributor_address;
    uint32_t number, processor_uid, performance_interrupt, maintenance_interrupt;
    uint32_t parking_protocol_version; /* 0: none; PSCI wakes processors */
    uint16_t spe_overflow_interrupt;
    uint16_t trace_buffer_interrupt;   /* TRBE Interrupt, since ACPI 6.5: 0 below revision 6, and if
                                        * the entry lacks one of its bytes */
    uint8_t is_enabled, is_online_capable, performance_trigger, maintenance_trigger;
    uint8_t efficiency_class;          /* Processor Power Efficiency Class: lower uses less power */
    uint8_t reserved[3]; /* 0 */
};
struct zacpi_gic_translation_service { /* GIC Interrupt Translation Service (ITS), section
                                        * 5.2.12.18 */
    zacpi_u64 address;
    uint32_t id;
    uint8_t reserved[4]; /* 0 */
};
struct zacpi_gic_msi_frame { /* GIC MSI Frame, section 5.2.12.16 */
    zacpi_u64 address;
    uint32_t id;
    uint16_t spi_base, spi_count; /* zeros if has_spis is 0 */
    uint8_t has_spis;             /* SPI Count/Base Select, bit 0 of Flags. 0: the frame's registers
                                   * show them */
    uint8_t reserved[7]; /* 0 */
};

/* Returns the distributor of the first GICD. Fails with an opening error, ZACPI_TABLE_MISSING
 * "APIC", or without one ZACPI_MADT_INVALID_ENTRY_LENGTH, else ZACPI_NO_GIC. */
ZACPI_STATUS zacpi_get_gic_distributor(const struct zacpi_source *source,
                                       struct zacpi_gic_distributor *out,
                                       struct zacpi_signature *signature);
/* Where the four lists below end is an item of zacpi_list_madt_faults with
 * ZACPI_MADT_INVALID_ENTRY_LENGTH; its other items end none. */

/* Lists the GICCs. Fails with an opening error, ZACPI_TABLE_MISSING "APIC", or ZACPI_NO_GIC. */
ZACPI_STATUS zacpi_list_gic_cpu_interfaces(const struct zacpi_source *source,
                                           struct zacpi_gic_cpu_interface *out, size_t capacity,
                                           size_t *count, struct zacpi_signature *signature);
/* Lists the items of zacpi_list_gic_cpu_interfaces from the `from`-th on, from 0 on; `count` is of
 * all. Fails with an opening error, ZACPI_TABLE_MISSING "APIC", or ZACPI_NO_GIC. */
ZACPI_STATUS zacpi_list_gic_cpu_interfaces_from(const struct zacpi_source *source, size_t from,
                                                struct zacpi_gic_cpu_interface *out,
                                                size_t capacity, size_t *count,
                                                struct zacpi_signature *signature);
/* Lists the memory that contains redistributors: Discovery Range Base Address and Discovery Range
 * Length, which can be 0, of the GICRs (section 5.2.12.17). Fails with an opening error,
 * ZACPI_TABLE_MISSING "APIC", or ZACPI_NO_GIC. */
ZACPI_STATUS zacpi_list_gic_redistributors(const struct zacpi_source *source,
                                           struct zacpi_range *out, size_t capacity, size_t *count,
                                           struct zacpi_signature *signature);
/* Lists the ITS entries. Fails with an opening error, ZACPI_TABLE_MISSING "APIC", or
 * ZACPI_NO_GIC. */
ZACPI_STATUS zacpi_list_gic_translation_services(const struct zacpi_source *source,
                                                 struct zacpi_gic_translation_service *out,
                                                 size_t capacity, size_t *count,
                                                 struct zacpi_signature *signature);
/* Lists the GIC MSI Frames. Fails with an opening error, ZACPI_TABLE_MISSING "APIC", or
 * ZACPI_NO_GIC. */
ZACPI_STATUS zacpi_list_gic_msi_frames(const struct zacpi_source *source,
                                       struct zacpi_gic_msi_frame *out, size_t capacity,
                                       size_t *count, struct zacpi_signature *signature);

/* Arm: the generic timers (GTDT, section 5.2.24) ----------------------------------------------- */

struct zacpi_arm_timer { /* its flags: bit 0 trigger, 1 polarity, 2 always_on */
    uint32_t interrupt; /* GSIV: of the GIC; 0: none */
    uint8_t polarity, trigger, always_on;
    uint8_t present;    /* 0: the table lacks this timer's fields, and all else is 0 */
};
struct zacpi_arm_timers {
    zacpi_u64 control_base; /* CntControlBase Physical Address; all ones: none */
    zacpi_u64 read_base;   /* CntReadBase Physical Address; all ones: none, also below revision 2 */
    /* virtual_el2 is present from revision 3 on, if the table contains all its eight bytes, and
     * Platform Timer Count is 0 or Platform Timer Offset at least 104. */
    struct zacpi_arm_timer secure_el1, non_secure_el1, virtual_el1, el2, virtual_el2;
    /* 1: zacpi_list_gtdt_faults returns an item. */
    uint8_t platform_timers_malformed;
    uint8_t reserved[7]; /* 0 */
};
struct zacpi_gt_frame { /* a frame of a GT Block, section 5.2.24.1.1. GTx Common Flags: bit 0
                         * is_secure, 1 is_always_on */
    zacpi_u64 block_address;     /* of the block's control frame */
    zacpi_u64 address;
    zacpi_u64 el0_address;       /* CntEL0BaseX: of the registers as EL0 sees them; all ones:
                                  * none */
    uint32_t physical_interrupt, virtual_interrupt; /* 0: no such timer */
    uint8_t number; /* in the block, from 0 to 7 */
    uint8_t physical_polarity, physical_trigger, virtual_polarity, virtual_trigger, is_secure,
        is_always_on;
    uint8_t reserved; /* 0 */
};
struct zacpi_watchdog { /* Arm Generic Watchdog, section 5.2.24.1.2. Watchdog Timer Flags: bit 0
                         * trigger, 1 polarity, 2 is_secure */
    zacpi_u64 refresh_frame, control_frame;
    uint32_t interrupt;
    uint8_t polarity, trigger, is_secure;
    uint8_t reserved; /* 0 */
};

/* Returns the timers of every processor. Fails with an opening error, or ZACPI_TABLE_MISSING
 * "GTDT". */
ZACPI_STATUS zacpi_get_arm_timers(const struct zacpi_source *source, struct zacpi_arm_timers *out,
                                  struct zacpi_signature *signature);
/* Lists the frames that are in their GT Blocks, up to where no structure begins; below revision 2
 * none. Fails with an opening error, or ZACPI_TABLE_MISSING "GTDT". */
ZACPI_STATUS zacpi_list_gt_frames(const struct zacpi_source *source, struct zacpi_gt_frame *out,
                                  size_t capacity, size_t *count,
                                  struct zacpi_signature *signature);
/* Lists the Arm Generic Watchdogs, up to where no structure begins; below revision 2 none. Fails
 * with an opening error, or ZACPI_TABLE_MISSING "GTDT". */
ZACPI_STATUS zacpi_list_watchdogs(const struct zacpi_source *source, struct zacpi_watchdog *out,
                                  size_t capacity, size_t *count,
                                  struct zacpi_signature *signature);

/* Lists where none begins: of each GT Block with frames that aren't in it, no frame, after the
 * frames that are or else at GT Block Timer Offset, at most at the block's end; and last, if
 * structures are missing, no structure, after the structures before or else at Platform Timer
 * Offset, at most at the table's end. entry_type is 0 if Platform Timer Offset is below 96. Below
 * revision 2 there is no item. Fails with an opening error, or ZACPI_TABLE_MISSING "GTDT". */
ZACPI_STATUS zacpi_list_gtdt_faults(const struct zacpi_source *source,
                                    struct zacpi_entry_fault *out, size_t capacity, size_t *count,
                                    struct zacpi_signature *signature);

/* RISC-V: harts and interrupt controllers (MADT, ACPI 6.6, section 5.2.12) --------------------- */

struct zacpi_rintc { /* RISC-V Interrupt Controller, Type 0x18: a hart. An entry of 20 bytes lacks
                      * controller id and IMSIC: zeros */
    zacpi_u64 hart_id;
    zacpi_u64 imsic_address; /* IMSIC Base Address. 0: none */
    uint32_t flags;         /* bit 0 Enabled, 1 Online Capable */
    uint32_t processor_uid; /* ACPI Processor UID */
    uint32_t external_interrupt_controller_id; /* bits 24 to 31 the id of a PLIC or an APLIC, bits 0
                                                * to 15 the context or the IDC in it */
    uint32_t imsic_size;
    uint8_t version;
    uint8_t reserved[7]; /* 0 */
};
struct zacpi_imsic { /* Incoming MSI Controller, Type 0x19: what the IMSICs of all harts share */
    uint32_t flags;
    uint16_t supervisor_identities, guest_identities;
    uint8_t guest_index_bits, hart_index_bits, group_index_bits, group_index_shift;
    uint8_t version;
    uint8_t reserved[3]; /* 0 */
};
struct zacpi_aplic { /* Advanced Platform Level Interrupt Controller, Type 0x1a */
    zacpi_u64 address;
    zacpi_u64 hardware_id; /* its first byte is the lowest */
    uint32_t flags, global_system_interrupt_base, size;
    uint16_t idc_count;   /* Number of IDCs. 0: it sends messages to the IMSICs */
    uint16_t source_count;
    uint8_t id, version;
    uint8_t reserved[6]; /* 0 */
};
struct zacpi_plic { /* Platform Level Interrupt Controller, Type 0x1b */
    zacpi_u64 address;
    zacpi_u64 hardware_id; /* its first byte is the lowest */
    uint32_t flags, global_system_interrupt_base, size;
    uint16_t source_count, max_priority;
    uint8_t id, version;
    uint8_t reserved[6]; /* 0 */
};

/* Each lists the MADT's entries of one Type, up to where none begins, since Length is above the
 * bytes left or below the least of its Type (at ZACPI_NO_APICS). zacpi_list_madt_faults lists the
 * skipped ones, with ZACPI_SHORT_RISCV_ENTRY. Fails with an opening error, ZACPI_TABLE_MISSING
 * "APIC", or ZACPI_NO_RISCV if no entry of Types 0x18 to 0x1b is listed. */
ZACPI_STATUS zacpi_list_rintcs(const struct zacpi_source *source, struct zacpi_rintc *out,
                               size_t capacity, size_t *count, struct zacpi_signature *signature);
ZACPI_STATUS zacpi_list_imsics(const struct zacpi_source *source, struct zacpi_imsic *out,
                               size_t capacity, size_t *count, struct zacpi_signature *signature);
ZACPI_STATUS zacpi_list_aplics(const struct zacpi_source *source, struct zacpi_aplic *out,
                               size_t capacity, size_t *count, struct zacpi_signature *signature);
ZACPI_STATUS zacpi_list_plics(const struct zacpi_source *source, struct zacpi_plic *out,
                              size_t capacity, size_t *count, struct zacpi_signature *signature);
/* Lists the items of zacpi_list_rintcs from the `from`-th on, from 0 on; `count` is of all. Fails
 * with an opening error, ZACPI_TABLE_MISSING "APIC", or ZACPI_NO_RISCV. */
ZACPI_STATUS zacpi_list_rintcs_from(const struct zacpi_source *source, size_t from,
                                    struct zacpi_rintc *out, size_t capacity, size_t *count,
                                    struct zacpi_signature *signature);

/* NUMA: domains (SRAT, section 5.2.16) and distances (SLIT, section 5.2.17) -------------------- */

struct zacpi_memory_affinity { /* Memory Affinity, section 5.2.16.2. Flags: bit 0 Enabled, 1
                                * is_hot_pluggable, 2 is_non_volatile */
    zacpi_u64 address;
    zacpi_u64 length; /* at least one */
    uint32_t domain; /* Proximity Domain; below revision 2 its lowest byte */
    uint8_t is_hot_pluggable, is_non_volatile;
    uint8_t reserved[2]; /* 0 */
};
struct zacpi_processor_affinity { /* Processor Local APIC, Processor Local x2APIC and GICC Affinity,
                                   * sections 5.2.16.1, 5.2.16.3 and 5.2.16.4 */
    uint32_t id;     /* APIC ID of Type 0, X2APIC ID of Type 2, ACPI Processor UID of Type 3 */
    uint32_t domain; /* Proximity Domain; of Type 0 below revision 2 its lowest byte */
    uint32_t clock_domain;
    uint8_t entry_type; /* 0, 2 or 3 */
    uint8_t reserved[3]; /* 0 */
};
struct zacpi_generic_initiator { /* Generic Initiator Affinity, section 5.2.16.6: a device that
                                  * accesses memory by itself */
    uint32_t domain;
    uint8_t is_architectural; /* Architectural Transactions, bit 1 of Flags */
    uint8_t handle_type; /* Device Handle Type: what `handle` contains. 0: _HID in 8 bytes, _UID in
                          * 4. 1: PCI Segment in 2 bytes, PCI BDF Number in 2 */
    uint8_t handle[16];  /* Device Handle */
    uint8_t reserved[2]; /* 0 */
};
struct zacpi_its_affinity { /* GIC Interrupt Translation Service (ITS) Affinity, section 5.2.16.5 */
    uint32_t domain;
    uint32_t its_id; /* `id` of an item of zacpi_list_gic_translation_services */
};
struct zacpi_localities {
    zacpi_u64 localities; /* Number of System Localities: rows of the matrix, from 0 on */
    uint8_t is_sane;     /* 1: there are localities, the table lists all distances, each locality
                          * is at 10 from itself, and at more than 10 from others */
    uint8_t reserved[7]; /* 0 */
};

/* Lists the memory that the SRAT puts into domains: its Memory Affinity entries that are enabled,
 * have a byte, and end below 2^64, up to where no entry begins. They may overlap. Fails with an
 * opening error, or ZACPI_TABLE_MISSING "SRAT". */
ZACPI_STATUS zacpi_list_memory_affinities(const struct zacpi_source *source,
                                          struct zacpi_memory_affinity *out, size_t capacity,
                                          size_t *count, struct zacpi_signature *signature);
/* Lists the items of zacpi_list_memory_affinities from the `from`-th on, from 0 on; `count` is of
 * all. Fails with an opening error, or ZACPI_TABLE_MISSING "SRAT". */
ZACPI_STATUS zacpi_list_memory_affinities_from(const struct zacpi_source *source, size_t from,
                                               struct zacpi_memory_affinity *out, size_t capacity,
                                               size_t *count, struct zacpi_signature *signature);
/* Lists the processors that the SRAT puts into domains, those that the MADT lacks too: its entries
 * of Types 0, 2 and 3 that are enabled (bit 0 of Flags), up to where no entry begins; of several
 * for one processor the last counts. Fails with an opening error, or ZACPI_TABLE_MISSING "SRAT". */
ZACPI_STATUS zacpi_list_processor_affinities(const struct zacpi_source *source,
                                             struct zacpi_processor_affinity *out, size_t capacity,
                                             size_t *count, struct zacpi_signature *signature);
/* Lists the items of zacpi_list_processor_affinities from the `from`-th on, from 0 on; `count` is
 * of all. Fails with an opening error, or ZACPI_TABLE_MISSING "SRAT". */
ZACPI_STATUS zacpi_list_processor_affinities_from(const struct zacpi_source *source, size_t from,
                                                  struct zacpi_processor_affinity *out,
                                                  size_t capacity, size_t *count,
                                                  struct zacpi_signature *signature);
/* Lists the generic initiators that the SRAT puts into domains: its entries of Type 5 that are
 * enabled, up to where no entry begins. Fails with an opening error, or ZACPI_TABLE_MISSING
 * "SRAT". */
ZACPI_STATUS zacpi_list_generic_initiators(const struct zacpi_source *source,
                                           struct zacpi_generic_initiator *out, size_t capacity,
                                           size_t *count, struct zacpi_signature *signature);
/* Lists the domains of Interrupt Translation Services: the SRAT's entries of Type 4, which have no
 * Flags, up to where no entry begins. Fails with an opening error, or ZACPI_TABLE_MISSING
 * "SRAT". */
ZACPI_STATUS zacpi_list_its_affinities(const struct zacpi_source *source,
                                       struct zacpi_its_affinity *out, size_t capacity,
                                       size_t *count, struct zacpi_signature *signature);
/* Lists the enabled entries of memory that ends at 2^64 or above, which
 * zacpi_list_memory_affinities leaves out, and last, if bytes are left, where none begins. Fails
 * with an opening error, or ZACPI_TABLE_MISSING "SRAT". */
ZACPI_STATUS zacpi_list_srat_faults(const struct zacpi_source *source,
                                    struct zacpi_entry_fault *out, size_t capacity, size_t *count,
                                    struct zacpi_signature *signature);
/* Returns the domain of the memory at an address: of the first enabled entry whose memory contains
 * it. Fails with an opening error, ZACPI_TABLE_MISSING "SRAT", ZACPI_NUMA_INVALID_MEMORY_RANGE if
 * that memory ends at 2^64 or above, or without such an entry ZACPI_NUMA_INVALID_ENTRY_LENGTH, else
 * ZACPI_NO_DOMAIN. */
ZACPI_STATUS zacpi_domain_of_address(const struct zacpi_source *source, uint64_t address,
                                     uint32_t *out, struct zacpi_signature *signature);
/* Returns the domain of the processor with this APIC ID or X2APIC ID: of the last enabled entry for
 * it (sections 5.2.16.1, whose domain has 8 bits below revision 2, and 5.2.16.3). For all processors
 * zacpi_list_processor_affinities is one call, where this one opens the tables for each
 * (examples/c/domains.c). Fails with an opening error, ZACPI_TABLE_MISSING "SRAT", or without an
 * entry ZACPI_NUMA_INVALID_ENTRY_LENGTH, else ZACPI_NO_DOMAIN. */
ZACPI_STATUS zacpi_domain_of_apic(const struct zacpi_source *source, uint32_t local_apic_id,
                                  uint32_t *out, struct zacpi_signature *signature);
/* Returns the domain of the processor of a GIC with this ACPI Processor UID: of the last enabled
 * GICC Affinity entry for it (section 5.2.16.4). For all see zacpi_domain_of_apic. Fails with an
 * opening error, ZACPI_TABLE_MISSING "SRAT", or without an entry ZACPI_NUMA_INVALID_ENTRY_LENGTH,
 * else ZACPI_NO_DOMAIN. */
ZACPI_STATUS zacpi_domain_of_processor(const struct zacpi_source *source, uint32_t uid,
                                       uint32_t *out, struct zacpi_signature *signature);
/* Returns the size of the SLIT, and whether it can be believed. Fails with an opening error, or
 * ZACPI_TABLE_MISSING "SLIT". */
ZACPI_STATUS zacpi_get_localities(const struct zacpi_source *source, struct zacpi_localities *out,
                                  struct zacpi_signature *signature);
/* Returns how far one locality is from another: 10 from itself, 255 unreachable. Fails with an
 * opening error, ZACPI_TABLE_MISSING "SLIT", or ZACPI_NO_DISTANCE if one isn't below Number of
 * System Localities, or the table ends before their byte. */
ZACPI_STATUS zacpi_distance(const struct zacpi_source *source, uint64_t from, uint64_t to,
                            uint8_t *out, struct zacpi_signature *signature);

/* IOMMUs: units that remap devices' accesses to memory ----------------------------------------- */

/* The DMAR (Intel Virtualization Technology for Directed I/O 4.0, chapter 8). Its structures begin
 * at byte 48, each with a Length of at least 16, 24, 8, 20, 8, 8 and 8 for Types 0 to 6, and 4
 * for others; device scopes have at least 6 bytes (section 8.3.1). */

enum zacpi_dmar_flag { /* Flags of the DMAR, section 8.1 */
    ZACPI_DMAR_INTR_REMAP = 0x1, ZACPI_DMAR_X2APIC_OPT_OUT = 0x2,
    ZACPI_DMAR_DMA_CTRL_PLATFORM_OPT_IN_FLAG = 0x4
};
struct zacpi_dmar_flags {
    uint16_t address_bits; /* Host Address Width plus 1 */
    uint8_t flags;         /* of enum zacpi_dmar_flag */
    uint8_t reserved; /* 0 */
};
struct zacpi_hop { /* a step of Path, from a bus to a device on it */
    uint8_t device, function;
};
struct zacpi_dmar_unit { /* DMA Remapping Hardware Unit Definition (DRHD), section 8.3 */
    zacpi_u64 register_base;
    zacpi_u64 register_bytes; /* 2^n pages of 4 KiB, with n in bits 0 to 3 of Size */
    uint16_t segment;
    uint8_t includes_pci_all; /* bit 0 of Flags */
    uint8_t flags, size;
    uint8_t reserved[3]; /* 0 */
};
struct zacpi_dmar_scope {
    zacpi_size path_length; /* how many hops Path has; `path` lists the first 16, then zeros */
    uint8_t scope_type, flags, enumeration_id;
    uint8_t bus;        /* Start Bus Number */
    struct zacpi_hop path[16];
    uint8_t reserved[4]; /* 0 */
};
struct zacpi_dmar_source { /* how a unit knows a device that sends interrupts, section 8.3.1 */
    struct zacpi_dmar_unit unit;
    uint8_t bus;          /* Start Bus Number; with a Path of one hop, bus and hop are the id */
    struct zacpi_hop hop; /* the last one of Path, or zeros */
    uint8_t has_hop;
    uint8_t reserved[4]; /* 0 */
};
struct zacpi_dmar_reserved { /* Reserved Memory Region Reporting (RMRR), section 8.4 */
    zacpi_u64 base; /* the first byte */
    zacpi_u64 limit; /* the last byte */
    uint16_t segment;
    uint8_t reserved[6]; /* 0 */
};
struct zacpi_dmar_root_ports { /* Root Port ATS Capability Reporting (ATSR), section 8.5: ports that
                                * support address translation services */
    uint16_t segment;
    uint8_t includes_all; /* ALL_PORTS, bit 0 of Flags: all root ports of the segment; else the ones of
                           * its device scopes */
    uint8_t flags;
};
struct zacpi_dmar_affinity { /* Remapping Hardware Static Affinity (RHSA), section 8.6 */
    zacpi_u64 register_base; /* of the unit that is in the domain */
    uint32_t domain;         /* Proximity Domain */
    uint8_t reserved[4]; /* 0 */
};
enum zacpi_dmar_type { /* Type of a structure, section 8.2 */
    ZACPI_DMAR_DRHD = 0, ZACPI_DMAR_RMRR = 1, ZACPI_DMAR_ATSR = 2, ZACPI_DMAR_RHSA = 3,
    ZACPI_DMAR_ANDD = 4, ZACPI_DMAR_SATC = 5, ZACPI_DMAR_SIDP = 6
};

/* Returns what the DMAR states for all units (section 8.1). Fails with an opening error, or
 * ZACPI_TABLE_MISSING "DMAR". */
ZACPI_STATUS zacpi_get_dmar_flags(const struct zacpi_source *source, struct zacpi_dmar_flags *out,
                                  struct zacpi_signature *signature);
/* Lists the DRHDs, up to the first byte at which no structure begins. Fails with an opening error,
 * or ZACPI_TABLE_MISSING "DMAR". */
ZACPI_STATUS zacpi_list_dmar_units(const struct zacpi_source *source, struct zacpi_dmar_unit *out,
                                   size_t capacity, size_t *count,
                                   struct zacpi_signature *signature);
/* Lists the device scopes of the `index`-th of these units, from 0 on, up to the first byte at
 * which none begins. Fails with an opening error, ZACPI_TABLE_MISSING "DMAR", or ZACPI_NO_IOMMU. */
ZACPI_STATUS zacpi_list_dmar_scopes(const struct zacpi_source *source, size_t index,
                                    struct zacpi_dmar_scope *out, size_t capacity, size_t *count,
                                    struct zacpi_signature *signature);
/* Lists the memory that is reserved for devices: the RMRRs, up to the first byte at which no
 * structure begins. One that is no range, whose `base` is above `limit`, is listed too, and by
 * zacpi_list_dmar_faults with its error: the index of an item is that of its structure. Fails with
 * an opening error, or ZACPI_TABLE_MISSING "DMAR". */
ZACPI_STATUS zacpi_list_dmar_regions(const struct zacpi_source *source,
                                     struct zacpi_dmar_reserved *out, size_t capacity,
                                     size_t *count, struct zacpi_signature *signature);
/* Lists the ATSRs, up to the first byte at which no structure begins. Fails with an opening error,
 * or ZACPI_TABLE_MISSING "DMAR". */
ZACPI_STATUS zacpi_list_dmar_root_ports(const struct zacpi_source *source,
                                        struct zacpi_dmar_root_ports *out, size_t capacity,
                                        size_t *count, struct zacpi_signature *signature);
/* Lists the RHSAs: the domains of units, up to the first byte at which no structure begins. Fails
 * with an opening error, or ZACPI_TABLE_MISSING "DMAR". */
ZACPI_STATUS zacpi_list_dmar_affinities(const struct zacpi_source *source,
                                        struct zacpi_dmar_affinity *out, size_t capacity,
                                        size_t *count, struct zacpi_signature *signature);
/* Lists the device scopes of the `index`-th structure of a Type (of enum zacpi_dmar_type), from 0
 * on, up to the first byte at which none begins. The structure is the `index`-th item of the list
 * of its Type. Types other than DRHD, RMRR, ATSR, SATC and SIDP have none. Fails with an opening
 * error, ZACPI_TABLE_MISSING "DMAR", or ZACPI_NO_IOMMU if there is no such structure. */
ZACPI_STATUS zacpi_list_dmar_structure_scopes(const struct zacpi_source *source,
                                              uint16_t structure_type, size_t index,
                                              struct zacpi_dmar_scope *out, size_t capacity,
                                              size_t *count, struct zacpi_signature *signature);
/* Lists the structures with an error: device scopes that end early, else an RMRR that is no range;
 * and last, if there is one, the first byte at which none begins. Fails with an opening error, or
 * ZACPI_TABLE_MISSING "DMAR". */
ZACPI_STATUS zacpi_list_dmar_faults(const struct zacpi_source *source,
                                    struct zacpi_entry_fault *out, size_t capacity, size_t *count,
                                    struct zacpi_signature *signature);
/* Returns the unit that remaps the device that the hops reach from a bus of a segment: the first
 * DRHD of the segment with a device scope that names it, else the first with INCLUDE_PCI_ALL. A
 * scope whose Start Bus Number is the bus names it by Type 1 if its Path is the hops, and by Type 2
 * if these begin with its Path, of at least one (section 8.3.1). Fails with an opening error,
 * ZACPI_TABLE_MISSING "DMAR", ZACPI_IOMMU_INVALID_STRUCTURE_LENGTH of a DRHD of the segment before
 * it (if none is found, of any or of the table), or ZACPI_NO_IOMMU. */
ZACPI_STATUS zacpi_get_dmar_unit(const struct zacpi_source *source, uint16_t segment, uint8_t bus,
                                 const struct zacpi_hop *hops, size_t hops_length,
                                 struct zacpi_dmar_unit *out, struct zacpi_signature *signature);
/* Returns the unit that remaps the interrupts of an I/O APIC: the first DRHD with a device scope of
 * Type 3 whose Enumeration ID is `id`. Fails with an opening error, ZACPI_TABLE_MISSING "DMAR",
 * ZACPI_IOMMU_INVALID_STRUCTURE_LENGTH of a DRHD before it (if none is found, of any or of the
 * table), or ZACPI_NO_IOMMU. */
ZACPI_STATUS zacpi_get_dmar_io_apic(const struct zacpi_source *source, uint8_t id,
                                    struct zacpi_dmar_source *out,
                                    struct zacpi_signature *signature);
/* Returns the unit that remaps the interrupts of an HPET: the first DRHD with a device scope of
 * Type 4 whose Enumeration ID is `number`. Fails with an opening error, ZACPI_TABLE_MISSING "DMAR",
 * ZACPI_IOMMU_INVALID_STRUCTURE_LENGTH of a DRHD before it (if none is found, of any or of the
 * table), or ZACPI_NO_IOMMU. */
ZACPI_STATUS zacpi_get_dmar_hpet(const struct zacpi_source *source, uint8_t number,
                                 struct zacpi_dmar_source *out, struct zacpi_signature *signature);
/* Lists the memory that is reserved for a device: each RMRR of the segment with a device scope that
 * names it as for zacpi_get_dmar_unit, also one that is no range. Fails with an opening error, or
 * ZACPI_TABLE_MISSING "DMAR". */
ZACPI_STATUS zacpi_list_dmar_reserved(const struct zacpi_source *source, uint16_t segment,
                                      uint8_t bus, const struct zacpi_hop *hops, size_t hops_length,
                                      struct zacpi_dmar_reserved *out, size_t capacity,
                                      size_t *count, struct zacpi_signature *signature);

/* The IVRS (AMD I/O Virtualization Technology (IOMMU) Specification 3.08, section 5.2). Its blocks
 * begin at byte 48, each with a Length of at least 24 for Type 0x10, 40 for 0x11 and 0x40, 32 for
 * 0x20 to 0x22, and 4 for others. A device entry has 4, 8, 16 or 32 bytes by bits 6 and 7 of its
 * Type, but one of Type 0xf0 has 22 and the bytes of its UID. The end of a range, Type 4, is right
 * after its start. A device id is 256 times the bus, 8 times the device, and the function. */

struct zacpi_ivrs_unit { /* I/O Virtualization Hardware Definition (IVHD) */
    zacpi_u64 base;
    zacpi_u64 extended_features;   /* EFR Register Image, or 0 */
    uint32_t features;             /* IOMMU Feature Reporting; of Types 0x11 and 0x40 IOMMU
                                    * Attributes */
    uint16_t segment;
    uint16_t device_id;            /* the unit's own */
    uint16_t capability_offset, info;
    uint8_t block_type;
    uint8_t flags;                 /* of enum zacpi_ivhd_flag */
    uint8_t has_extended_features; /* 0 for Type 0x10 */
    uint8_t reserved; /* 0 */
};
enum zacpi_ivhd_flag { /* Flags of an IVHD; the last two are only of Type 0x10 */
    ZACPI_IVHD_HT_TUN_EN = 0x1, ZACPI_IVHD_PASS_PW = 0x2, ZACPI_IVHD_RES_PASS_PW = 0x4,
    ZACPI_IVHD_ISOC = 0x8, ZACPI_IVHD_IOTLB_SUP = 0x10, ZACPI_IVHD_COHERENT = 0x20,
    ZACPI_IVHD_PREF_SUP = 0x40, ZACPI_IVHD_PPR_SUP = 0x80
};
enum zacpi_ivmd_flag { /* Flags of an IVMD */
    ZACPI_IVMD_UNITY = 0x1, ZACPI_IVMD_IR = 0x2, ZACPI_IVMD_IW = 0x4,
    ZACPI_IVMD_EXCLUSION_RANGE = 0x8
};
struct zacpi_ivrs_device {
    struct zacpi_ivrs_unit unit;
    uint16_t source_id; /* Source DeviceID of an alias (Types 0x42 and 0x43), else the device's own
                         * id */
    uint8_t settings;   /* DTE Setting of the entry */
    uint8_t reserved[5]; /* 0 */
};
struct zacpi_ivrs_memory { /* I/O Virtualization Memory Definition (IVMD) */
    zacpi_u64 start, length;
    uint16_t device_id;
    uint16_t auxiliary; /* Auxiliary Data: of Type 0x22 the last device */
    uint8_t block_type; /* 0x20 for all devices, 0x21 for one, 0x22 for a range */
    uint8_t flags;      /* of enum zacpi_ivmd_flag */
    uint8_t reserved[2]; /* 0 */
};

struct zacpi_ivrs_entry { /* a device entry; a field that its Type lacks is 0. Of padding, Types 0
                           * and 0x40, only entry_type is set; of other reserved Types bytes 1 and 2
                           * are in `first` and `last`, and byte 3 in `settings` */
    zacpi_size unique_id_length; /* `unique_id` is the first 32 bytes of Unique ID, then zeros */
    uint32_t extended_settings;
    uint16_t first, last;    /* DeviceID; of a range, its start and end. 0 and 0xffff for all
                              * devices, Type 1 */
    uint16_t source_id;      /* Source DeviceID of Types 0x42, 0x43 and 0x48 */
    uint8_t entry_type, settings;
    uint8_t handle, variety; /* of Type 0x48, and those below of 0xf0 */
    uint8_t hardware_id[8], compatible_id[8], unique_id_format, unique_id[32];
    uint8_t reserved; /* 0 */
};

/* Lists the IVHDs of all Types, up to the first byte at which no block begins. Fails with an
 * opening error, or ZACPI_TABLE_MISSING "IVRS". */
ZACPI_STATUS zacpi_list_ivrs_units(const struct zacpi_source *source, struct zacpi_ivrs_unit *out,
                                   size_t capacity, size_t *count,
                                   struct zacpi_signature *signature);
/* Lists the device entries of the `index`-th of these units, from 0 on, up to the first byte at
 * which none begins. Fails with an opening error, ZACPI_TABLE_MISSING "IVRS", or ZACPI_NO_IOMMU. */
ZACPI_STATUS zacpi_list_ivrs_entries(const struct zacpi_source *source, size_t index,
                                     struct zacpi_ivrs_entry *out, size_t capacity, size_t *count,
                                     struct zacpi_signature *signature);
/* Lists the blocks with an error: device entries that end early, else an IVMD whose memory ends at
 * 2^64 or above; and last, if there is one, the first byte at which none begins. Fails with an
 * opening error, or ZACPI_TABLE_MISSING "IVRS". */
ZACPI_STATUS zacpi_list_ivrs_faults(const struct zacpi_source *source,
                                    struct zacpi_entry_fault *out, size_t capacity, size_t *count,
                                    struct zacpi_signature *signature);
/* Returns the unit that remaps a device. Of the IVHDs of the greatest Type in the table (0x10, 0x11
 * or 0x40) it is the first of the segment with an entry for all devices, for this one, for a range
 * that contains it, or of a special device with it as Source DeviceID; the first such entry counts.
 * Fails with an opening error, ZACPI_TABLE_MISSING "IVRS", ZACPI_IOMMU_INVALID_STRUCTURE_LENGTH of
 * such an IVHD before it (if none is found, of any or of the table), or ZACPI_NO_IOMMU. */
ZACPI_STATUS zacpi_get_ivrs_unit(const struct zacpi_source *source, uint16_t segment,
                                 uint16_t device_id, struct zacpi_ivrs_device *out,
                                 struct zacpi_signature *signature);
/* Lists the memory that has its own rules: the IVMDs of all Types, whatever their length, up to the
 * first byte at which no block begins. Fails with an opening error, or ZACPI_TABLE_MISSING
 * "IVRS". */
ZACPI_STATUS zacpi_list_ivrs_regions(const struct zacpi_source *source,
                                     struct zacpi_ivrs_memory *out, size_t capacity, size_t *count,
                                     struct zacpi_signature *signature);
/* Lists the memory that has its own rules for a device: each IVMD for it, for all devices or for a
 * range that contains it, whatever its segment and length. Fails with an opening error, or
 * ZACPI_TABLE_MISSING "IVRS". */
ZACPI_STATUS zacpi_list_ivrs_memory(const struct zacpi_source *source, uint16_t device_id,
                                    struct zacpi_ivrs_memory *out, size_t capacity, size_t *count,
                                    struct zacpi_signature *signature);

#include "zacpi_write.h" /* the tables that are written */
#include "zacpi_calls.h"
#pragma pack(pop)

#ifdef __cplusplus
}
#endif
#if defined(__GNUC__)
#pragma GCC diagnostic pop
#endif
#endif
