/* The tables about power that rows.c runs over: FADTs of fixed and of reduced hardware, and AML. The forms are those of
 * rows_tables.h; of AML the bytes are those of section 20.2. */
#ifndef ROWS_TABLES_POWER_H
#define ROWS_TABLES_POWER_H

/* Root tables: the package in the second SSDT; reduced hardware; fixed hardware with neither PM1b_CNT nor SMI_CMD;
 * reduced hardware without SLEEP_CONTROL_REG; a DSDT whose AML begins with no object; an SSDT alone; sleep types
 * above 7, on a machine that is always in ACPI mode, on one without PM1b_CNT and on reduced hardware; and sleep types
 * above 255 on the last two. */
PUTS(power, {36, 4, AT(FADT_POWER)}, {40, 4, AT(SSDT_0)}, {44, 4, AT(SSDT_S5)});
PUTS(reduced, {36, 4, AT(FADT_REDUCED)});
PUTS(plain, {36, 4, AT(FADT_PLAIN)});
PUTS(bare, {36, 4, AT(FADT_BARE)});
PUTS(broken, {36, 4, AT(FADT_BROKEN)}, {40, 4, AT(SSDT_S5)});
PUTS(fadtless, {36, 4, AT(SSDT_S5)});
PUTS(high, {36, 4, AT(FADT_HIGH)}, {40, 4, AT(SSDT_HIGH)});
PUTS(high_plain, {36, 4, AT(FADT_PLAIN)}, {40, 4, AT(SSDT_HIGH)});
PUTS(high_reduced, {36, 4, AT(FADT_REDUCED)}, {40, 4, AT(SSDT_HIGH)});
PUTS(wide_plain, {36, 4, AT(FADT_PLAIN)}, {40, 4, AT(SSDT_WIDE)});
PUTS(wide_reduced, {36, 4, AT(FADT_REDUCED)}, {40, 4, AT(SSDT_WIDE)});

PUTS(fadt_power,
    {40, 4, AT(DSDT_POWER)} /* DSDT */, {48, 4, 0xb2} /* SMI_CMD */, {52, 1, 0xf1} /* ACPI_ENABLE */,
    {64, 4, 0x604} /* PM1a_CNT_BLK */, {68, 4, 0x704} /* PM1b_CNT_BLK */, {89, 1, 2} /* PM1_CNT_LEN */,
    {112, 4, 0x400} /* Flags: RESET_REG_SUP */, GENERIC(116, 1, 8, 0, 1, 0xcf9) /* RESET_REG */,
    {128, 1, 6} /* RESET_VALUE */);
/* What fixed hardware has is there too, and RESET_REG without its flag. */
PUTS(fadt_reduced,
    {40, 4, AT(DSDT_S5)} /* DSDT */, {48, 4, 0xb2} /* SMI_CMD */, {52, 1, 0xf1} /* ACPI_ENABLE */,
    {64, 4, 0x604} /* PM1a_CNT_BLK */, {89, 1, 2} /* PM1_CNT_LEN */, {112, 4, 0x100000} /* Flags: HW_REDUCED_ACPI */,
    GENERIC(116, 1, 8, 0, 1, 0xcf9) /* RESET_REG */, GENERIC(244, 0, 8, 0, 1, 0xfee00010) /* SLEEP_CONTROL_REG */);
/* SMI_CMD is 0, though ACPI_ENABLE isn't, and RESET_REG is at address 0. No register is between PM1a_CNT_BLK and
 * PM2_CNT_BLK. */
PUTS(fadt_plain,
    {40, 4, AT(DSDT_S5)} /* DSDT */, {52, 1, 0xf1} /* ACPI_ENABLE */, {64, 4, 0x604} /* PM1a_CNT_BLK */,
    {72, 4, 0x850} /* PM2_CNT_BLK */, {89, 1, 2} /* PM1_CNT_LEN */, {112, 4, 0x400} /* Flags: RESET_REG_SUP */);
PUTS(fadt_bare, {40, 4, AT(DSDT_S5)} /* DSDT */, {112, 4, 0x100000} /* Flags: HW_REDUCED_ACPI */);
PUTS(fadt_broken,
    {40, 4, AT(DSDT)} /* DSDT: zeros */, {48, 4, 0xb2} /* SMI_CMD */, {53, 1, 0xf0} /* ACPI_DISABLE */);
/* ACPI_ENABLE and ACPI_DISABLE are 0. */
PUTS(fadt_high,
    {40, 4, AT(DSDT_HIGH)} /* DSDT */, {48, 4, 0xb2} /* SMI_CMD */, {64, 4, 0x604} /* PM1a_CNT_BLK */,
    {68, 4, 0x704} /* PM1b_CNT_BLK */, {89, 1, 2} /* PM1_CNT_LEN */);

/* MethodOp, PkgLength of 6 bytes, _S3_, MethodFlags. */
PUTS(dsdt_power, {36, 1, 0x14}, {37, 1, 6}, {38, 4, 0x5f33535f}, {42, 1, 0});
/* NameOp, _S5_, PackageOp, PkgLength of 5 bytes, NumElements 2: BytePrefix 5, OneOp. */
PUTS(dsdt_s5, {36, 1, 0x08}, {37, 4, 0x5f35535f}, {41, 1, 0x12}, {42, 1, 5}, {43, 1, 2}, {44, 2, 0x050a}, {46, 1, 1});
/* The same with PkgLength of 8 bytes, NumElements 4: BytePrefix 5, BytePrefix 6, ZeroOp, ZeroOp. */
PUTS(ssdt_s5,
    {36, 1, 0x08}, {37, 4, 0x5f35535f}, {41, 1, 0x12}, {42, 1, 8}, {43, 1, 4}, {44, 2, 0x050a}, {46, 2, 0x060a});
/* ScopeOp, PkgLength of 18 bytes, _SB_: NameOp, \_S3_, a package of 5 and 6. ScopeOp, PkgLength of 19 bytes, \:
 * ScopeOp, PkgLength of 15 bytes, \: NameOp, _S2_, the same package. StoreOp. */
PUTS(dsdt_high,
    {36, 1, 0x10}, {37, 1, 18}, {38, 4, 0x5f42535f}, {42, 1, 0x08}, {43, 1, 0x5c}, {44, 4, 0x5f33535f}, {48, 1, 0x12},
    {49, 1, 6}, {50, 1, 4}, {51, 2, 0x050a}, {53, 2, 0x060a}, {55, 1, 0x10}, {56, 1, 19}, {57, 2, 0x5c}, {59, 1, 0x10},
    {60, 1, 15}, {61, 2, 0x5c}, {63, 1, 0x08}, {64, 4, 0x5f32535f}, {68, 1, 0x12}, {69, 1, 6}, {70, 1, 4},
    {71, 2, 0x050a}, {73, 2, 0x060a}, {75, 1, 0x70});
/* _S5_ with 8 and 1, _S4_ with 7 and 8, _S0_ with 8 and 1. */
PUTS(ssdt_high,
    {36, 1, 0x08}, {37, 4, 0x5f35535f}, {41, 1, 0x12}, {42, 1, 5}, {43, 1, 2}, {44, 2, 0x080a}, {46, 1, 1},
    {47, 1, 0x08}, {48, 4, 0x5f34535f}, {52, 1, 0x12}, {53, 1, 6}, {54, 1, 2}, {55, 2, 0x070a}, {57, 2, 0x080a},
    {59, 1, 0x08}, {60, 4, 0x5f30535f}, {64, 1, 0x12}, {65, 1, 5}, {66, 1, 2}, {67, 2, 0x080a}, {69, 1, 1});
/* With WordPrefix _S4_ of 0x0105 and 0, _S3_ of 5 and 0x0105, and _S2_ of 0x0705 alone: 5 and 7. _S1_ of 7, 7, a
 * package and a text. External _S0_ of no type, and 0 arguments. */
PUTS(ssdt_wide,
    {36, 1, 0x08}, {37, 4, 0x5f34535f}, {41, 1, 0x12}, {42, 1, 6}, {43, 1, 2}, {44, 1, 0x0b}, {45, 2, 0x0105},
    {47, 1, 0},
    {48, 1, 0x08}, {49, 4, 0x5f33535f}, {53, 1, 0x12}, {54, 1, 7}, {55, 1, 2}, {56, 2, 0x050a}, {58, 1, 0x0b},
    {59, 2, 0x0105},
    {61, 1, 0x08}, {62, 4, 0x5f32535f}, {66, 1, 0x12}, {67, 1, 5}, {68, 1, 1}, {69, 1, 0x0b}, {70, 2, 0x0705},
    {72, 1, 0x08}, {73, 4, 0x5f31535f}, {77, 1, 0x12}, {78, 1, 12}, {79, 1, 4}, {80, 2, 0x070a}, {82, 2, 0x070a},
    {84, 3, 0x000212}, {87, 3, 0x00780d},
    {90, 1, 0x15}, {91, 4, 0x5f30535f}, {95, 2, 0});

#endif
