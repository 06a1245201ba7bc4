/* Rows of the calls that write the tables of a RISC-V machine, with each byte worked out by hand from the layouts. For
 * rows_written.h. */
#ifndef ROWS_RISCV_H
#define ROWS_RISCV_H

/* ---- The MADT of a RISC-V machine (ACPI 6.6, section 5.2.12) --------------------------------------------- */

static const struct zacpi_rintc rintcs[] = {
    {0x0102030405060708, 0x2122232425262728, 3, 0x11121314, 0x05000006, 0x1000, 1}, {9, 0, 1, 10, 0, 0, 255}};
static const struct zacpi_imsic imsics[] = {{0x04030201, 0x0605, 0x0807, 9, 10, 11, 12, 1}};
static const struct zacpi_aplic aplics[] = {
    {0x0d000000, 0x3837363534333231, 0x44434241, 0x60, 0x8000, 0x0201, 0x0403, 2, 1}};
static const struct zacpi_plic plics[] = {
    {0x10c000000, 0x3837363534333231, 0x44434241, 0x20, 0x600000, 0x0201, 7, 3, 1}};
static const struct zacpi_riscv_contents whole_riscv = {LISTED(rintcs), LISTED(imsics), LISTED(aplics), LISTED(plics)};
static const struct zacpi_riscv_contents riscv_without_hart = {
    NONE(rintcs), LISTED(imsics), LISTED(aplics), LISTED(plics)};
static const uint8_t riscv_bytes[] = {HEAD('A', 'P', 'I', 'C', 204, 7, 0xbd), 0, 0, 0, 0, 0, 0, 0, 0,
    0x18, 36, 1, 0, 3, 0, 0, 0, 8, 7, 6, 5, 4, 3, 2, 1,  /* RINTC: Version, Flags, Hart ID */
    0x14, 0x13, 0x12, 0x11, 6, 0, 0, 5,                  /* UID, External Interrupt Controller ID */
    0x28, 0x27, 0x26, 0x25, 0x24, 0x23, 0x22, 0x21, 0, 0x10, 0, 0, /* IMSIC Base Address, IMSIC Size */
    0x18, 36, 255, 0, 1, 0, 0, 0, 9, 0, 0, 0, 0, 0, 0, 0, 10, 0, 0, 0, 0, 0, 0, 0, ZEROS_12,
    0x19, 16, 1, 0, 1, 2, 3, 4, 5, 6, 7, 8, 9, 10, 11, 12, /* IMSIC: Version, Flags, identities, bits */
    0x1a, 36, 1, 2, 0x41, 0x42, 0x43, 0x44, 0x31, 0x32, 0x33, 0x34, 0x35, 0x36, 0x37, 0x38, /* APLIC: ID, Flags, .. */
    1, 2, 3, 4, 0x60, 0, 0, 0, 0, 0, 0, 0x0d, 0, 0, 0, 0, 0, 0x80, 0, 0, /* IDCs, sources, base, address, size */
    0x1b, 36, 1, 3, 0x31, 0x32, 0x33, 0x34, 0x35, 0x36, 0x37, 0x38, /* PLIC: ID, Hardware ID */
    1, 2, 7, 0, 0x41, 0x42, 0x43, 0x44, 0, 0, 0x60, 0, 0, 0, 0, 0x0c, 1, 0, 0, 0, 0x20, 0, 0, 0};

/* The RHCT: an ISA string of five letters and two harts, and one of none and one hart. */
static const uint32_t two_harts[] = {7, 0x01020304}, hart_0[] = {0};
static const uint8_t isa_of_five[] = {'r', 'v', '6', '4', 'i'}, isa_of_65526[65526];
static const struct zacpi_rhct_contents whole_rhct = {LISTED(isa_of_five), LISTED(two_harts), 0xf1f2f3f400989680, 1};
static const struct zacpi_rhct_contents rhct_without_isa = {isa_of_five, 0, LISTED(hart_0), 1, 0};
static const struct zacpi_rhct_contents rhct_without_hart = {LISTED(isa_of_65526), two_harts, 0, 1, 0};
static const struct zacpi_rhct_contents rhct_of_long_isa = {LISTED(isa_of_65526), LISTED(two_harts), 1, 0};
/* A Hart Info Node: Type, Length, Revision, Number of Offsets, ACPI Processor UID, Offset. */
#define HART_NODE(a, b, c, d) 255, 255, 16, 0, 1, 0, 1, 0, a, b, c, d, 56, 0, 0, 0
static const uint8_t rhct_bytes[] = {HEAD('R', 'H', 'C', 'T', 102, 1, 0x12), 1, 0, 0, 0, /* Flags */
    0x80, 0x96, 0x98, 0, 0xf4, 0xf3, 0xf2, 0xf1, 3, 0, 0, 0, 56, 0, 0, 0, /* Time Base Frequency, Number, Offset */
    0, 0, 14, 0, 1, 0, 6, 0, 'r', 'v', '6', '4', 'i', 0,           /* ISA String: Type, Length, Revision, ISA Length */
    HART_NODE(7, 0, 0, 0), HART_NODE(4, 3, 2, 1)};
static const uint8_t rhct_of_no_isa_bytes[] = {HEAD('R', 'H', 'C', 'T', 82, 1, 0xbc), 0, 0, 0, 0,
    1, 0, 0, 0, 0, 0, 0, 0, 2, 0, 0, 0, 56, 0, 0, 0, 0, 0, 10, 0, 1, 0, 1, 0, 0, 0, HART_NODE(0, 0, 0, 0)};

#endif
