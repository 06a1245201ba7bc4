/* SPDX-License-Identifier: MIT */
/* What zacpi_get_sleep_types returns of a DSDT with a block of AML, or with its first bytes: scripts/states made
 * it of crates/acpi_rows/data/sleep.rows. For rows_sleep.h. */
#ifndef ROWS_STATES_H
#define ROWS_STATES_H

static const uint8_t state_0[1] = {
    0};
static const uint8_t state_1[14] = {
    8, 95, 83, 53, 95, 18, 8, 4, 10, 7, 10, 6, 0, 0};
static const uint8_t state_2[84] = {
    8, 95, 83, 48, 95, 18, 6, 2, 10, 16, 10, 17, 8, 95, 83, 49, 95, 18, 6, 2, 10, 32, 10, 33, 8, 95, 83, 50, 95, 18, 6,
    2, 10, 48, 10, 49, 8, 95, 83, 51, 95, 18, 6, 2, 10, 64, 10, 65, 8, 95, 83, 52, 95, 18, 6, 2, 10, 80, 10, 81, 8, 95,
    83, 53, 95, 18, 6, 2, 10, 96, 10, 97, 8, 95, 83, 54, 95, 18, 6, 2, 10, 112, 10, 113};
static const uint8_t state_3[24] = {
    8, 95, 83, 53, 95, 18, 6, 2, 10, 7, 10, 6, 8, 95, 83, 53, 95, 18, 6, 2, 10, 5, 10, 4};
static const uint8_t state_4[23] = {
    6, 70, 79, 79, 95, 66, 65, 82, 95, 8, 95, 83, 53, 95, 18, 8, 4, 10, 7, 10, 6, 0, 0};
static const uint8_t state_5[18] = {
    6, 70, 79, 79, 95, 95, 83, 53, 95, 6, 95, 83, 53, 95, 70, 79, 79, 95};
static const uint8_t state_6[9] = {
    6, 95, 83, 53, 95, 70, 79, 79, 95};
static const uint8_t state_7[71] = {
    8, 70, 79, 79, 48, 0, 8, 70, 79, 79, 49, 1, 8, 70, 79, 79, 50, 255, 8, 70, 79, 79, 51, 10, 8, 8, 70, 79, 79, 52, 11,
    8, 95, 8, 70, 79, 79, 53, 12, 8, 95, 83, 53, 8, 70, 79, 79, 54, 14, 8, 95, 83, 53, 95, 18, 6, 2, 8, 95, 83, 53, 95,
    18, 8, 4, 10, 7, 10, 6, 0, 0};
static const uint8_t state_8[27] = {
    8, 70, 79, 79, 95, 13, 8, 95, 83, 53, 95, 18, 0, 8, 95, 83, 53, 95, 18, 8, 4, 10, 7, 10, 6, 0, 0};
static const uint8_t state_9[31] = {
    8, 70, 79, 79, 95, 17, 11, 10, 8, 8, 95, 83, 53, 95, 18, 6, 2, 8, 95, 83, 53, 95, 18, 8, 4, 10, 7, 10, 6, 0, 0};
static const uint8_t state_10[34] = {
    8, 70, 79, 79, 95, 18, 3, 1, 1, 8, 66, 65, 82, 95, 19, 5, 10, 1, 1, 0, 8, 95, 83, 53, 95, 18, 8, 4, 10, 7, 10, 6, 0,
    0};
static const uint8_t state_11[50] = {
    8, 70, 79, 79, 95, 66, 65, 82, 95, 8, 70, 79, 79, 95, 92, 46, 95, 83, 66, 95, 80, 67, 73, 48, 8, 70, 79, 79, 95, 96,
    8, 70, 79, 79, 95, 110, 8, 95, 83, 53, 95, 18, 8, 4, 10, 7, 10, 6, 0, 0};
static const uint8_t state_12[7] = {
    8, 70, 79, 79, 95, 91, 49};
static const uint8_t state_13[7] = {
    8, 70, 79, 79, 95, 110, 49};
static const uint8_t state_14[7] = {
    8, 70, 79, 79, 95, 111, 49};
static const uint8_t state_15[7] = {
    8, 70, 79, 79, 95, 95, 49};
static const uint8_t state_16[74] = {
    8, 70, 79, 79, 95, 114, 1, 10, 2, 0, 8, 70, 79, 79, 95, 116, 1, 10, 2, 0, 8, 70, 79, 79, 95, 121, 1, 10, 2, 0, 8,
    70, 79, 79, 95, 122, 1, 10, 2, 0, 8, 70, 79, 79, 95, 123, 1, 10, 2, 0, 8, 70, 79, 79, 95, 125, 1, 10, 2, 96, 8, 95,
    83, 53, 95, 18, 8, 4, 10, 7, 10, 6, 0, 0};
static const uint8_t state_17[29] = {
    8, 70, 79, 79, 95, 114, 116, 1, 1, 96, 121, 1, 1, 96, 96, 8, 95, 83, 53, 95, 18, 8, 4, 10, 7, 10, 6, 0, 0};
static const uint8_t state_18[26] = {
    20, 11, 95, 80, 84, 83, 1, 164, 95, 83, 53, 95, 8, 95, 83, 53, 95, 18, 8, 4, 10, 7, 10, 6, 0, 0};
static const uint8_t state_19[27] = {
    21, 92, 46, 95, 83, 66, 95, 80, 67, 73, 48, 6, 0, 8, 95, 83, 53, 95, 18, 8, 4, 10, 7, 10, 6, 0, 0};
static const uint8_t state_20[67] = {
    138, 70, 79, 79, 95, 0, 66, 65, 82, 48, 139, 70, 79, 79, 95, 1, 66, 65, 82, 49, 140, 70, 79, 79, 95, 10, 2, 66, 65,
    82, 50, 141, 70, 79, 79, 95, 10, 3, 66, 65, 82, 51, 143, 70, 79, 79, 95, 10, 4, 66, 65, 82, 52, 8, 95, 83, 53, 95,
    18, 8, 4, 10, 7, 10, 6, 0, 0};
static const uint8_t state_21[67] = {
    142, 70, 79, 79, 95, 0, 66, 65, 82, 48, 139, 70, 79, 79, 95, 1, 66, 65, 82, 49, 140, 70, 79, 79, 95, 10, 2, 66, 65,
    82, 50, 141, 70, 79, 79, 95, 10, 3, 66, 65, 82, 51, 143, 70, 79, 79, 95, 10, 4, 66, 65, 82, 52, 8, 95, 83, 53, 95,
    18, 8, 4, 10, 7, 10, 6, 0, 0};
static const uint8_t state_22[67] = {
    137, 70, 79, 79, 95, 0, 66, 65, 82, 48, 139, 70, 79, 79, 95, 1, 66, 65, 82, 49, 140, 70, 79, 79, 95, 10, 2, 66, 65,
    82, 50, 141, 70, 79, 79, 95, 10, 3, 66, 65, 82, 51, 143, 70, 79, 79, 95, 10, 4, 66, 65, 82, 52, 8, 95, 83, 53, 95,
    18, 8, 4, 10, 7, 10, 6, 0, 0};
static const uint8_t state_23[28] = {
    91, 19, 70, 79, 79, 95, 10, 8, 10, 16, 66, 65, 82, 95, 8, 95, 83, 53, 95, 18, 8, 4, 10, 7, 10, 6, 0, 0};
static const uint8_t state_24[15] = {
    163, 8, 95, 83, 53, 95, 18, 8, 4, 10, 7, 10, 6, 0, 0};
static const uint8_t state_25[27] = {
    91, 1, 70, 79, 79, 95, 3, 91, 2, 66, 65, 82, 95, 8, 95, 83, 53, 95, 18, 8, 4, 10, 7, 10, 6, 0, 0};
static const uint8_t state_26[38] = {
    91, 128, 70, 79, 79, 95, 1, 11, 2, 4, 1, 91, 129, 11, 70, 79, 79, 95, 1, 95, 83, 53, 95, 8, 8, 95, 83, 53, 95, 18,
    8, 4, 10, 7, 10, 6, 0, 0};
static const uint8_t state_27[33] = {
    91, 130, 17, 70, 79, 79, 95, 8, 95, 83, 53, 95, 18, 6, 2, 10, 9, 10, 9, 8, 95, 83, 53, 95, 18, 8, 4, 10, 7, 10, 6,
    0, 0};
static const uint8_t state_28[44] = {
    91, 131, 11, 67, 80, 85, 48, 1, 16, 4, 0, 0, 6, 91, 132, 8, 70, 79, 79, 95, 0, 0, 0, 91, 133, 5, 70, 79, 79, 95, 8,
    95, 83, 53, 95, 18, 8, 4, 10, 7, 10, 6, 0, 0};
static const uint8_t state_29[49] = {
    91, 134, 15, 70, 79, 79, 95, 66, 65, 82, 95, 1, 70, 76, 68, 48, 8, 91, 135, 16, 70, 79, 79, 95, 66, 65, 82, 95, 1,
    1, 70, 76, 68, 49, 8, 8, 95, 83, 53, 95, 18, 8, 4, 10, 7, 10, 6, 0, 0};
static const uint8_t state_30[30] = {
    91, 136, 70, 79, 79, 95, 13, 70, 65, 67, 80, 0, 13, 0, 13, 0, 8, 95, 83, 53, 95, 18, 8, 4, 10, 7, 10, 6, 0, 0};
static const uint8_t state_31[4] = {
    163, 112, 1, 96};
static const uint8_t state_32[4] = {
    163, 95, 1, 96};
static const uint8_t state_33[18] = {
    134, 0, 0, 0, 0, 0, 8, 95, 83, 53, 95, 18, 6, 2, 10, 7, 10, 6};
static const uint8_t state_34[18] = {
    164, 0, 0, 0, 0, 0, 8, 95, 83, 53, 95, 18, 6, 2, 10, 7, 10, 6};
static const uint8_t state_35[18] = {
    157, 0, 0, 0, 0, 0, 8, 95, 83, 53, 95, 18, 6, 2, 10, 7, 10, 6};
static const uint8_t state_36[18] = {
    17, 3, 0, 0, 0, 0, 8, 95, 83, 53, 95, 18, 6, 2, 10, 7, 10, 6};
static const uint8_t state_37[18] = {
    163, 70, 79, 79, 95, 1, 8, 95, 83, 53, 95, 18, 6, 2, 10, 7, 10, 6};
static const uint8_t state_38[14] = {
    91, 18, 8, 95, 83, 53, 95, 18, 6, 2, 10, 7, 10, 6};
static const uint8_t state_39[14] = {
    91, 32, 8, 95, 83, 53, 95, 18, 6, 2, 10, 7, 10, 6};
static const uint8_t state_40[14] = {
    91, 34, 8, 95, 83, 53, 95, 18, 6, 2, 10, 7, 10, 6};
static const uint8_t state_41[14] = {
    91, 37, 8, 95, 83, 53, 95, 18, 6, 2, 10, 7, 10, 6};
static const uint8_t state_42[14] = {
    91, 50, 8, 95, 83, 53, 95, 18, 6, 2, 10, 7, 10, 6};
static const uint8_t state_43[14] = {
    91, 51, 8, 95, 83, 53, 95, 18, 6, 2, 10, 7, 10, 6};
static const uint8_t state_44[14] = {
    91, 17, 8, 95, 83, 53, 95, 18, 6, 2, 10, 7, 10, 6};
static const uint8_t state_45[14] = {
    91, 52, 8, 95, 83, 53, 95, 18, 6, 2, 10, 7, 10, 6};
static const uint8_t state_46[1] = {
    111};
static const uint8_t state_47[1] = {
    138};
static const uint8_t state_48[1] = {
    154};
static const uint8_t state_49[1] = {
    166};
static const uint8_t state_50[1] = {
    203};
static const uint8_t state_51[1] = {
    1};
static const uint8_t state_52[23] = {
    8, 70, 79, 79, 95, 119, 10, 2, 10, 3, 0, 8, 95, 83, 53, 95, 18, 6, 2, 10, 7, 10, 6};
static const uint8_t state_53[27] = {
    91, 128, 70, 79, 79, 95, 0, 131, 66, 65, 82, 95, 10, 4, 0, 8, 95, 83, 53, 95, 18, 6, 2, 10, 7, 10, 6};
static const uint8_t state_54[11] = {
    8, 70, 79, 79, 95, 114, 1, 10, 2, 91, 49};
static const uint8_t state_55[11] = {
    8, 70, 79, 79, 95, 91, 48, 10, 2, 91, 49};
static const uint8_t state_56[11] = {
    8, 70, 79, 79, 95, 91, 52, 10, 2, 91, 49};
static const uint8_t state_57[22] = {
    8, 70, 79, 79, 95, 66, 65, 82, 95, 1, 8, 95, 83, 53, 95, 18, 6, 2, 10, 7, 10, 6};
static const uint8_t state_58[22] = {
    8, 70, 79, 79, 95, 66, 65, 82, 95, 96, 8, 95, 83, 53, 95, 18, 6, 2, 10, 7, 10, 6};
static const uint8_t state_59[22] = {
    8, 70, 79, 79, 95, 66, 65, 82, 95, 239, 8, 95, 83, 53, 95, 18, 6, 2, 10, 7, 10, 6};
static const uint8_t state_60[14] = {
    8, 70, 79, 79, 95, 1, 1, 0, 0, 0, 0, 0, 0, 0};
static const uint8_t state_61[14] = {
    8, 70, 79, 79, 95, 114, 1, 66, 65, 82, 95, 0, 1, 0};
static const uint8_t state_62[22] = {
    91, 128, 70, 79, 79, 95, 1, 91, 48, 1, 8, 95, 83, 53, 95, 18, 6, 2, 10, 7, 10, 6};
static const uint8_t state_63[12] = {
    91, 1, 70, 79, 79, 95, 3, 1, 0, 0, 0, 0};
static const uint8_t state_64[12] = {
    91, 128, 70, 79, 79, 95, 1, 10, 2, 1, 1, 0};
static const uint8_t state_65[19] = {
    21, 95, 83, 53, 95, 0, 0, 8, 95, 83, 53, 95, 18, 6, 2, 10, 7, 10, 6};
static const uint8_t state_66[14] = {
    140, 70, 79, 79, 95, 66, 65, 82, 95, 1, 66, 65, 90, 95};
static const uint8_t state_67[14] = {
    140, 70, 79, 79, 95, 66, 65, 82, 95, 239, 66, 65, 90, 95};
static const uint8_t state_68[17] = {
    140, 70, 79, 79, 95, 66, 65, 82, 95, 70, 85, 78, 95, 66, 65, 90, 95};
static const uint8_t state_69[19] = {
    16, 6, 92, 0, 112, 1, 96, 8, 95, 83, 53, 95, 18, 6, 2, 10, 7, 10, 6};
static const uint8_t state_70[10] = {
    21, 95, 83, 53, 95, 0, 0, 0, 0, 0};
static const uint8_t state_71[10] = {
    91, 1, 95, 83, 53, 95, 0, 0, 0, 0};
static const uint8_t state_72[10] = {
    141, 70, 79, 79, 95, 0, 95, 83, 53, 95};
static const uint8_t state_73[48] = {
    91, 131, 17, 67, 80, 85, 48, 1, 0, 0, 0, 0, 0, 8, 95, 83, 53, 95, 1, 91, 132, 14, 70, 79, 79, 95, 0, 0, 0, 8, 95,
    83, 52, 95, 1, 91, 133, 11, 70, 79, 79, 95, 8, 95, 83, 51, 95, 1};
static const uint8_t state_74[2] = {
    91, 49};
static const uint8_t state_75[2] = {
    91, 137};
static const uint8_t state_76[2] = {
    163, 91};
static const uint8_t state_77[18] = {
    16, 17, 92, 0, 8, 95, 83, 53, 95, 18, 8, 4, 10, 7, 10, 6, 0, 0};
static const uint8_t state_78[17] = {
    16, 16, 0, 8, 95, 83, 53, 95, 18, 8, 4, 10, 7, 10, 6, 0, 0};
static const uint8_t state_79[18] = {
    16, 17, 94, 0, 8, 95, 83, 53, 95, 18, 8, 4, 10, 7, 10, 6, 0, 0};
static const uint8_t state_80[21] = {
    16, 20, 92, 95, 83, 66, 95, 8, 95, 83, 53, 95, 18, 8, 4, 10, 7, 10, 6, 0, 0};
static const uint8_t state_81[19] = {
    16, 18, 95, 83, 66, 95, 8, 92, 95, 83, 53, 95, 18, 6, 4, 10, 5, 10, 6};
static const uint8_t state_82[33] = {
    16, 20, 92, 95, 83, 66, 95, 8, 95, 83, 53, 95, 18, 8, 4, 10, 7, 10, 6, 0, 0, 8, 95, 83, 53, 95, 18, 6, 2, 10, 5, 10,
    4};
static const uint8_t state_83[24] = {
    16, 9, 92, 0, 8, 70, 79, 79, 95, 1, 8, 95, 83, 53, 95, 18, 8, 4, 10, 7, 10, 6, 0, 0};
static const uint8_t state_84[18] = {
    16, 3, 92, 0, 8, 95, 83, 53, 95, 18, 8, 4, 10, 7, 10, 6, 0, 0};
static const uint8_t state_85[25] = {
    16, 24, 92, 0, 16, 20, 92, 95, 83, 66, 95, 8, 95, 83, 53, 95, 18, 8, 4, 10, 7, 10, 6, 0, 0};
static const uint8_t state_86[28] = {
    16, 21, 92, 0, 16, 17, 92, 0, 8, 95, 83, 53, 95, 18, 8, 4, 10, 7, 10, 6, 0, 0, 8, 70, 79, 79, 95, 1};
static const uint8_t state_87[22] = {
    16, 21, 92, 0, 16, 17, 92, 0, 8, 95, 83, 53, 95, 18, 8, 4, 10, 7, 10, 6, 0, 0};
static const uint8_t state_88[20] = {
    16, 19, 92, 0, 16, 15, 92, 0, 8, 95, 83, 53, 95, 18, 6, 4, 10, 5, 10, 6};
static const uint8_t state_89[27] = {
    16, 24, 92, 0, 16, 3, 92, 0, 16, 16, 0, 8, 95, 83, 53, 95, 18, 8, 4, 10, 7, 10, 6, 0, 0, 161, 1};
static const uint8_t state_90[25] = {
    16, 24, 92, 95, 83, 66, 95, 16, 17, 92, 0, 8, 95, 83, 53, 95, 18, 8, 4, 10, 7, 10, 6, 0, 0};
static const uint8_t state_91[7] = {
    16, 3, 92, 95, 83, 66, 95};
static const uint8_t state_92[10] = {
    16, 8, 92, 0, 8, 70, 79, 79, 95, 1};
static const uint8_t state_93[15] = {
    8, 92, 95, 83, 53, 95, 18, 8, 4, 10, 7, 10, 6, 0, 0};
static const uint8_t state_94[16] = {
    8, 47, 1, 95, 83, 53, 95, 18, 8, 4, 10, 7, 10, 6, 0, 0};
static const uint8_t state_95[15] = {
    8, 94, 95, 83, 53, 95, 18, 8, 4, 10, 7, 10, 6, 0, 0};
static const uint8_t state_96[57] = {
    8, 46, 95, 83, 53, 95, 70, 79, 79, 95, 18, 6, 2, 10, 7, 10, 6, 8, 92, 46, 95, 83, 66, 95, 95, 83, 53, 95, 18, 6, 2,
    10, 7, 10, 6, 8, 47, 3, 95, 83, 53, 95, 95, 83, 53, 95, 95, 83, 53, 95, 18, 6, 2, 10, 7, 10, 6};
static const uint8_t state_97[8] = {
    8, 47, 0, 95, 83, 53, 95, 0};
static const uint8_t state_98[12] = {
    8, 48, 83, 53, 95, 18, 6, 2, 10, 7, 10, 6};
static const uint8_t state_99[12] = {
    8, 96, 83, 53, 95, 18, 6, 2, 10, 7, 10, 6};
static const uint8_t state_100[12] = {
    8, 91, 83, 53, 95, 18, 6, 2, 10, 7, 10, 6};
static const uint8_t state_101[12] = {
    8, 95, 83, 53, 47, 18, 6, 2, 10, 7, 10, 6};
static const uint8_t state_102[12] = {
    8, 95, 83, 53, 58, 18, 6, 2, 10, 7, 10, 6};
static const uint8_t state_103[12] = {
    8, 95, 83, 53, 64, 18, 6, 2, 10, 7, 10, 6};
static const uint8_t state_104[12] = {
    8, 95, 83, 57, 95, 18, 6, 2, 10, 7, 10, 6};
static const uint8_t state_105[12] = {
    8, 95, 83, 53, 90, 18, 6, 2, 10, 7, 10, 6};
static const uint8_t state_106[17] = {
    8, 46, 95, 83, 66, 95, 95, 83, 53, 95, 18, 6, 2, 10, 7, 10, 6};
static const uint8_t state_107[17] = {
    8, 46, 48, 83, 66, 95, 95, 83, 53, 95, 18, 6, 2, 10, 7, 10, 6};
static const uint8_t state_108[17] = {
    8, 46, 95, 96, 66, 95, 95, 83, 53, 95, 18, 6, 2, 10, 7, 10, 6};
static const uint8_t state_109[17] = {
    8, 46, 95, 83, 96, 95, 95, 83, 53, 95, 18, 6, 2, 10, 7, 10, 6};
static const uint8_t state_110[17] = {
    8, 46, 95, 83, 66, 96, 95, 83, 53, 95, 18, 6, 2, 10, 7, 10, 6};
static const uint8_t state_111[17] = {
    8, 46, 95, 83, 66, 95, 48, 83, 53, 95, 18, 6, 2, 10, 7, 10, 6};
static const uint8_t state_112[17] = {
    8, 46, 95, 83, 66, 95, 95, 96, 53, 95, 18, 6, 2, 10, 7, 10, 6};
static const uint8_t state_113[17] = {
    8, 46, 95, 83, 66, 95, 95, 83, 96, 95, 18, 6, 2, 10, 7, 10, 6};
static const uint8_t state_114[17] = {
    8, 46, 95, 83, 66, 95, 95, 83, 53, 96, 18, 6, 2, 10, 7, 10, 6};
static const uint8_t state_115[30] = {
    163, 92, 70, 79, 79, 95, 8, 95, 83, 53, 95, 18, 6, 2, 10, 7, 10, 6, [23] = 0, 0, 0, 0, 0, 0, 0};
static const uint8_t state_116[30] = {
    163, 94, 70, 79, 79, 95, 8, 95, 83, 53, 95, 18, 6, 2, 10, 7, 10, 6, [23] = 0, 0, 0, 0, 0, 0, 0};
static const uint8_t state_117[30] = {
    163, 46, 70, 79, 79, 95, 66, 65, 82, 95, 8, 95, 83, 53, 95, 18, 6, 2, 10, 7, 10, 6, [23] = 0, 0, 0, 0, 0, 0, 0};
static const uint8_t state_118[30] = {
    163, 47, 3, 70, 79, 79, 95, 66, 65, 82, 95, 66, 65, 90, 95, 8, 95, 83, 53, 95, 18, 6, 2, 10, 7, 10, 6, 0, 0, 0};
static const uint8_t state_119[17] = {
    160, 16, 1, 8, 95, 83, 53, 95, 18, 8, 4, 10, 7, 10, 6, 0, 0};
static const uint8_t state_120[10] = {
    160, 9, 0, 21, 70, 79, 79, 95, 0, 0};
static const uint8_t state_121[9] = {
    163, 160, 2, 1, 161, 1, 162, 2, 0};
static const uint8_t state_122[2] = {
    161, 1};
static const uint8_t state_123[3] = {
    162, 2, 0};
static const uint8_t state_124[18] = {
    160, 3, 1, 163, 8, 95, 83, 53, 95, 18, 8, 4, 10, 7, 10, 6, 0, 0};
static const uint8_t state_125[5] = {
    160, 3, 1, 163, 112};
static const uint8_t state_126[20] = {
    20, 9, 70, 79, 79, 95, 0, 160, 2, 1, 16, 9, 92, 95, 83, 66, 95, 160, 2, 1};
static const uint8_t state_127[6] = {
    16, 5, 92, 0, 160, 1};
static const uint8_t state_128[16] = {
    20, 15, 95, 83, 53, 95, 0, 164, 18, 6, 2, 10, 7, 10, 6, 0};
static const uint8_t state_129[22] = {
    20, 7, 92, 95, 83, 53, 95, 0, 8, 95, 83, 53, 95, 18, 8, 4, 10, 7, 10, 6, 0, 0};
static const uint8_t state_130[21] = {
    20, 12, 92, 46, 95, 83, 66, 95, 95, 83, 53, 95, 0, 20, 7, 94, 95, 83, 53, 95, 0};
static const uint8_t state_131[7] = {
    20, 3, 70, 79, 79, 95, 0};
static const uint8_t state_132[11] = {
    8, 95, 83, 53, 95, 18, 5, 1, 11, 5, 3};
static const uint8_t state_133[10] = {
    8, 95, 83, 53, 95, 18, 4, 1, 10, 7};
static const uint8_t state_134[13] = {
    8, 95, 83, 53, 95, 18, 7, 1, 12, 5, 3, 1, 0};
static const uint8_t state_135[14] = {
    8, 95, 83, 53, 95, 18, 8, 2, 11, 5, 3, 11, 4, 6};
static const uint8_t state_136[12] = {
    8, 95, 83, 53, 95, 18, 6, 2, 11, 5, 1, 0};
static const uint8_t state_137[10] = {
    8, 95, 83, 53, 95, 18, 4, 2, 0, 1};
static const uint8_t state_138[14] = {
    8, 95, 83, 53, 95, 18, 8, 2, 255, 12, 120, 86, 52, 18};
static const uint8_t state_139[26] = {
    8, 95, 83, 53, 95, 18, 20, 2, 14, 136, 119, 102, 85, 68, 51, 34, 17, 14, 1, 2, 3, 4, 5, 6, 7, 8};
static const uint8_t state_140[9] = {
    8, 95, 83, 53, 95, 18, 3, 1, 255};
static const uint8_t state_141[19] = {
    8, 95, 83, 53, 95, 18, 13, 4, 10, 7, 10, 6, 18, 3, 1, 1, 13, 120, 0};
static const uint8_t state_142[8] = {
    8, 95, 83, 53, 95, 18, 2, 0};
static const uint8_t state_143[14] = {
    8, 95, 83, 53, 95, 18, 8, 2, 70, 79, 79, 95, 10, 7};
static const uint8_t state_144[14] = {
    8, 95, 83, 53, 95, 18, 8, 2, 10, 7, 70, 79, 79, 95};
static const uint8_t state_145[14] = {
    8, 95, 83, 53, 95, 18, 8, 1, 10, 7, 70, 79, 79, 95};
static const uint8_t state_146[14] = {
    8, 95, 83, 53, 95, 18, 8, 2, 18, 3, 1, 1, 10, 2};
static const uint8_t state_147[12] = {
    8, 95, 83, 53, 95, 18, 6, 4, 10, 7, 10, 6};
static const uint8_t state_148[16] = {
    8, 95, 83, 53, 95, 18, 4, 4, 10, 7, 8, 70, 79, 79, 95, 1};
static const uint8_t state_149[14] = {
    8, 95, 83, 53, 95, 18, 2, 4, 8, 70, 79, 79, 95, 1};
static const uint8_t state_150[13] = {
    8, 95, 83, 53, 95, 18, 1, 8, 70, 79, 79, 95, 1};
static const uint8_t state_151[11] = {
    8, 95, 83, 53, 95, 18, 4, 2, 11, 5, 3};
static const uint8_t state_152[7] = {
    8, 95, 83, 53, 95, 10, 7};
static const uint8_t state_153[7] = {
    8, 95, 83, 53, 95, 19, 7};
static const uint8_t state_154[7] = {
    8, 95, 83, 53, 95, 95, 7};
static const uint8_t state_155[19] = {
    8, 95, 83, 53, 95, 10, 7, 8, 95, 83, 53, 95, 18, 6, 2, 10, 7, 10, 6};
static const uint8_t state_156[23] = {
    16, 10, 92, 0, 8, 95, 83, 53, 95, 10, 7, 8, 95, 83, 53, 95, 18, 6, 2, 10, 7, 10, 6};
static const uint8_t state_157[10] = {
    8, 95, 83, 53, 95, 70, 79, 79, 95, 0};
static const uint8_t state_158[10] = {
    8, 95, 83, 53, 95, 19, 4, 1, 1, 1};
static const uint8_t state_159[13] = {
    8, 95, 83, 53, 95, 18, 71, 0, 2, 10, 7, 10, 6};
static const uint8_t state_160[13] = {
    8, 95, 83, 53, 95, 18, 119, 0, 2, 10, 7, 10, 6};
static const uint8_t state_161[13] = {
    8, 95, 83, 53, 95, 18, 70, 0, 2, 10, 7, 10, 6};
static const uint8_t state_162[13] = {
    8, 95, 83, 53, 95, 18, 72, 0, 2, 10, 7, 10, 6};
static const uint8_t state_163[13] = {
    8, 95, 83, 53, 95, 18, 71, 1, 2, 10, 7, 10, 6};
static const uint8_t state_164[29] = {
    8, 95, 83, 52, 95, 18, 136, 0, 0, 2, 10, 7, 10, 6, 8, 95, 83, 53, 95, 18, 201, 0, 0, 0, 2, 10, 5, 10, 4};
static const uint8_t state_165[83] = {
    8, 70, 79, 79, 95, 17, 63, 10, 60, [62] = 0, 0, 0, 0, 0, 0, 0, 8, 95, 83, 53, 95, 18, 8, 4, 10, 7, 10, 6, 0, 0};
static const uint8_t state_166[84] = {
    8, 70, 79, 79, 95, 17, 64, 4, 10, 60, [63] = 0, 0, 0, 0, 0, 0, 0, 8, 95, 83, 53, 95, 18, 8, 4, 10, 7, 10, 6, 0, 0};
static const uint8_t state_167[4132] = {
    8, 70, 79, 79, 95, 17, 128, 1, 1, 11, 10, 16, [4111] = 0, 0, 0, 0, 0, 0, 0, 8, 95, 83, 53, 95, 18, 8, 4, 10, 7, 10,
    6, 0, 0};
static const uint8_t state_168[2] = {
    17, 0};
static const uint8_t state_169[2] = {
    20, 0};
static const uint8_t state_170[10] = {
    20, 201, 0, 0, 1, 70, 79, 79, 95, 0};
static const uint8_t state_171[8] = {
    20, 65, 0, 70, 79, 79, 95, 0};
static const uint8_t state_172[8] = {
    20, 66, 0, 70, 79, 79, 95, 0};
static const uint8_t state_173[26] = {
    20, 7, 95, 80, 84, 83, 1, 163, 16, 17, 92, 0, 8, 95, 83, 53, 95, 18, 8, 4, 10, 7, 10, 6, 0, 0};
static const uint8_t state_174[26] = {
    235, 7, 95, 80, 84, 83, 1, 163, 16, 17, 92, 0, 8, 95, 83, 53, 95, 18, 8, 4, 10, 7, 10, 6, 0, 0};
static const uint8_t state_175[26] = {
    20, 248, 95, 80, 84, 83, 1, 163, 16, 17, 92, 0, 8, 95, 83, 53, 95, 18, 8, 4, 10, 7, 10, 6, 0, 0};
static const uint8_t state_176[26] = {
    20, 7, 160, 80, 84, 83, 1, 163, 16, 17, 92, 0, 8, 95, 83, 53, 95, 18, 8, 4, 10, 7, 10, 6, 0, 0};
static const uint8_t state_177[26] = {
    20, 7, 95, 175, 84, 83, 1, 163, 16, 17, 92, 0, 8, 95, 83, 53, 95, 18, 8, 4, 10, 7, 10, 6, 0, 0};
static const uint8_t state_178[26] = {
    20, 7, 95, 80, 171, 83, 1, 163, 16, 17, 92, 0, 8, 95, 83, 53, 95, 18, 8, 4, 10, 7, 10, 6, 0, 0};
static const uint8_t state_179[26] = {
    20, 7, 95, 80, 84, 172, 1, 163, 16, 17, 92, 0, 8, 95, 83, 53, 95, 18, 8, 4, 10, 7, 10, 6, 0, 0};
static const uint8_t state_180[26] = {
    20, 7, 95, 80, 84, 83, 254, 163, 16, 17, 92, 0, 8, 95, 83, 53, 95, 18, 8, 4, 10, 7, 10, 6, 0, 0};
static const uint8_t state_181[26] = {
    20, 7, 95, 80, 84, 83, 1, 92, 16, 17, 92, 0, 8, 95, 83, 53, 95, 18, 8, 4, 10, 7, 10, 6, 0, 0};
static const uint8_t state_182[26] = {
    20, 7, 95, 80, 84, 83, 1, 163, 239, 17, 92, 0, 8, 95, 83, 53, 95, 18, 8, 4, 10, 7, 10, 6, 0, 0};
static const uint8_t state_183[26] = {
    20, 7, 95, 80, 84, 83, 1, 163, 16, 238, 92, 0, 8, 95, 83, 53, 95, 18, 8, 4, 10, 7, 10, 6, 0, 0};
static const uint8_t state_184[26] = {
    20, 7, 95, 80, 84, 83, 1, 163, 16, 17, 163, 0, 8, 95, 83, 53, 95, 18, 8, 4, 10, 7, 10, 6, 0, 0};
static const uint8_t state_185[26] = {
    20, 7, 95, 80, 84, 83, 1, 163, 16, 17, 92, 255, 8, 95, 83, 53, 95, 18, 8, 4, 10, 7, 10, 6, 0, 0};
static const uint8_t state_186[26] = {
    20, 7, 95, 80, 84, 83, 1, 163, 16, 17, 92, 0, 247, 95, 83, 53, 95, 18, 8, 4, 10, 7, 10, 6, 0, 0};
static const uint8_t state_187[26] = {
    20, 7, 95, 80, 84, 83, 1, 163, 16, 17, 92, 0, 8, 160, 83, 53, 95, 18, 8, 4, 10, 7, 10, 6, 0, 0};
static const uint8_t state_188[26] = {
    20, 7, 95, 80, 84, 83, 1, 163, 16, 17, 92, 0, 8, 95, 172, 53, 95, 18, 8, 4, 10, 7, 10, 6, 0, 0};
static const uint8_t state_189[26] = {
    20, 7, 95, 80, 84, 83, 1, 163, 16, 17, 92, 0, 8, 95, 83, 202, 95, 18, 8, 4, 10, 7, 10, 6, 0, 0};
static const uint8_t state_190[26] = {
    20, 7, 95, 80, 84, 83, 1, 163, 16, 17, 92, 0, 8, 95, 83, 53, 160, 18, 8, 4, 10, 7, 10, 6, 0, 0};
static const uint8_t state_191[26] = {
    20, 7, 95, 80, 84, 83, 1, 163, 16, 17, 92, 0, 8, 95, 83, 53, 95, 237, 8, 4, 10, 7, 10, 6, 0, 0};
static const uint8_t state_192[26] = {
    20, 7, 95, 80, 84, 83, 1, 163, 16, 17, 92, 0, 8, 95, 83, 53, 95, 18, 247, 4, 10, 7, 10, 6, 0, 0};
static const uint8_t state_193[26] = {
    20, 7, 95, 80, 84, 83, 1, 163, 16, 17, 92, 0, 8, 95, 83, 53, 95, 18, 8, 251, 10, 7, 10, 6, 0, 0};
static const uint8_t state_194[26] = {
    20, 7, 95, 80, 84, 83, 1, 163, 16, 17, 92, 0, 8, 95, 83, 53, 95, 18, 8, 4, 245, 7, 10, 6, 0, 0};
static const uint8_t state_195[26] = {
    20, 7, 95, 80, 84, 83, 1, 163, 16, 17, 92, 0, 8, 95, 83, 53, 95, 18, 8, 4, 10, 248, 10, 6, 0, 0};
static const uint8_t state_196[26] = {
    20, 7, 95, 80, 84, 83, 1, 163, 16, 17, 92, 0, 8, 95, 83, 53, 95, 18, 8, 4, 10, 7, 245, 6, 0, 0};
static const uint8_t state_197[26] = {
    20, 7, 95, 80, 84, 83, 1, 163, 16, 17, 92, 0, 8, 95, 83, 53, 95, 18, 8, 4, 10, 7, 10, 249, 0, 0};
static const uint8_t state_198[26] = {
    20, 7, 95, 80, 84, 83, 1, 163, 16, 17, 92, 0, 8, 95, 83, 53, 95, 18, 8, 4, 10, 7, 10, 6, 255, 0};
static const uint8_t state_199[26] = {
    20, 7, 95, 80, 84, 83, 1, 163, 16, 17, 92, 0, 8, 95, 83, 53, 95, 18, 8, 4, 10, 7, 10, 6, 0, 255};
static const uint8_t state_200[79] = {
    91, 130, 51, 92, 46, 95, 83, 66, 95, 68, 69, 86, 48, 8, 95, 72, 73, 68, 13, 65, 66, 67, 68, 48, 48, 48, 49, 0, 8,
    95, 83, 53, 95, 18, 6, 2, 10, 1, 10, 2, 8, 92, 95, 83, 52, 95, 18, 6, 2, 10, 3, 10, 4, 16, 18, 92, 95, 83, 66, 95,
    8, 95, 83, 51, 95, 18, 6, 2, 10, 1, 10, 2, 8, 95, 83, 49, 95, 10, 5};
static const uint8_t state_201[61] = {
    160, 23, 0, 21, 92, 46, 95, 83, 66, 95, 80, 67, 73, 48, 6, 0, 21, 92, 70, 79, 79, 95, 1, 0, 16, 23, 92, 46, 95, 83,
    66, 95, 80, 67, 73, 48, 8, 95, 83, 53, 95, 18, 6, 2, 10, 9, 10, 9, 8, 92, 95, 83, 53, 95, 18, 6, 2, 10, 5, 10, 4};
static const uint8_t state_202[65] = {
    8, 70, 76, 65, 71, 1, 160, 17, 70, 76, 65, 71, 8, 95, 83, 51, 95, 18, 6, 2, 10, 5, 10, 5, 161, 13, 8, 95, 83, 52,
    95, 18, 6, 2, 10, 6, 10, 6, 162, 15, 149, 70, 76, 65, 71, 10, 1, 112, 10, 1, 70, 76, 65, 71, 8, 95, 83, 53, 95, 18,
    5, 1, 11, 5, 3};
static const uint8_t state_203[140] = {
    20, 9, 95, 80, 84, 83, 1, 112, 104, 96, 91, 1, 77, 84, 88, 95, 3, 91, 2, 69, 86, 84, 95, 6, 77, 84, 88, 95, 77, 84,
    89, 95, 8, 83, 84, 82, 95, 13, 97, 32, 115, 116, 114, 105, 110, 103, 32, 95, 83, 53, 95, 0, 8, 66, 85, 70, 95, 17,
    11, 10, 8, 8, 95, 83, 53, 95, 18, 4, 2, 8, 66, 73, 71, 95, 14, 136, 119, 102, 85, 68, 51, 34, 17, 91, 131, 11, 67,
    80, 85, 48, 1, 16, 4, 0, 0, 6, 91, 132, 15, 80, 87, 82, 48, 0, 0, 0, 20, 6, 95, 79, 78, 95, 0, 91, 133, 13, 84, 90,
    48, 95, 8, 95, 84, 77, 80, 11, 184, 11, 8, 95, 83, 53, 95, 18, 6, 4, 0, 1, 0, 0};
static const uint8_t state_204[81] = {
    8, 80, 75, 71, 95, 18, 31, 2, 18, 24, 3, 13, 95, 83, 53, 0, 10, 1, 18, 14, 2, 12, 68, 51, 34, 17, 17, 6, 10, 3, 1,
    2, 3, 70, 79, 79, 95, 8, 70, 79, 79, 95, 10, 1, 8, 95, 83, 51, 95, 18, 11, 2, 18, 6, 2, 10, 1, 10, 1, 10, 2, 8, 95,
    83, 53, 95, 18, 14, 4, 10, 5, 10, 10, 18, 4, 1, 10, 1, 13, 120, 0};
static const uint8_t state_205[143] = {
    91, 128, 68, 66, 71, 95, 1, 11, 2, 4, 1, 91, 129, 11, 68, 66, 71, 95, 1, 68, 66, 71, 66, 8, 91, 128, 71, 78, 86, 95,
    0, 12, 0, 0, 240, 127, 11, 0, 16, 91, 129, 21, 71, 78, 86, 95, 0, 73, 68, 88, 95, 8, 68, 65, 84, 95, 8, 66, 78, 75,
    95, 8, 91, 134, 15, 73, 68, 88, 95, 68, 65, 84, 95, 1, 82, 69, 71, 48, 8, 91, 135, 17, 68, 66, 71, 95, 66, 78, 75,
    95, 10, 1, 1, 82, 69, 71, 49, 8, 91, 136, 84, 66, 76, 95, 13, 70, 65, 67, 80, 0, 13, 0, 13, 0, 91, 128, 80, 67, 73,
    95, 128, 0, 11, 0, 1, 8, 95, 83, 53, 95, 18, 12, 2, 14, 255, 255, 255, 255, 255, 255, 255, 255, 255};
static const uint8_t state_206[81] = {
    16, 19, 92, 95, 83, 66, 95, 91, 130, 11, 80, 67, 73, 48, 8, 95, 65, 68, 82, 0, 16, 26, 92, 0, 8, 70, 79, 79, 95, 10,
    3, 8, 95, 83, 51, 95, 18, 10, 4, 10, 1, 10, 1, 10, 0, 10, 0, 16, 20, 92, 0, 8, 92, 95, 83, 53, 95, 18, 10, 4, 10, 7,
    10, 6, 10, 0, 10, 0, 8, 95, 83, 52, 95, 18, 7, 2, 11, 52, 18, 10, 255};
static const uint8_t state_207[48] = {
    8, 66, 65, 83, 69, 11, 0, 4, 91, 128, 82, 71, 78, 95, 1, 114, 66, 65, 83, 69, 10, 16, 0, 10, 16, 138, 17, 3, 10, 8,
    10, 0, 70, 76, 68, 95, 8, 95, 83, 53, 95, 18, 6, 2, 10, 3, 10, 2};

static const struct state_row {
    const uint8_t *aml;
    size_t length;
    uint32_t state;
    zacpi_status status;
    struct zacpi_sleep_types types;
} states[] = {
    {state_0, 0, 5, ZACPI_SLEEP_STATE_ABSENT, {0, 0}},
    {state_1, 14, 5, ZACPI_OK, {7, 6}},
    {state_1, 14, 0, ZACPI_SLEEP_STATE_ABSENT, {0, 0}},
    {state_1, 14, 4, ZACPI_SLEEP_STATE_ABSENT, {0, 0}},
    {state_2, 84, 0, ZACPI_OK, {16, 17}},
    {state_2, 84, 1, ZACPI_OK, {32, 33}},
    {state_2, 84, 2, ZACPI_OK, {48, 49}},
    {state_2, 84, 3, ZACPI_OK, {64, 65}},
    {state_2, 84, 4, ZACPI_OK, {80, 81}},
    {state_2, 84, 5, ZACPI_OK, {96, 97}},
    {state_3, 24, 5, ZACPI_OK, {7, 6}},
    {state_4, 23, 5, ZACPI_OK, {7, 6}},
    {state_4, 23, 4, ZACPI_SLEEP_STATE_ABSENT, {0, 0}},
    {state_5, 18, 5, ZACPI_SLEEP_STATE_NOT_SEEN, {0, 0}},
    {state_5, 18, 4, ZACPI_SLEEP_STATE_ABSENT, {0, 0}},
    {state_5, 8, 5, ZACPI_AML_INVALID, {0, 0}},
    {state_6, 9, 5, ZACPI_SLEEP_STATE_ABSENT, {0, 0}},
    {state_7, 71, 5, ZACPI_OK, {7, 6}},
    {state_7, 71, 4, ZACPI_SLEEP_STATE_ABSENT, {0, 0}},
    {state_8, 27, 5, ZACPI_OK, {7, 6}},
    {state_8, 27, 4, ZACPI_SLEEP_STATE_ABSENT, {0, 0}},
    {state_9, 31, 5, ZACPI_OK, {7, 6}},
    {state_10, 34, 5, ZACPI_OK, {7, 6}},
    {state_11, 50, 5, ZACPI_OK, {7, 6}},
    {state_12, 7, 5, ZACPI_SLEEP_STATE_NOT_SEEN, {0, 0}},
    {state_13, 7, 5, ZACPI_AML_INVALID, {0, 0}},
    {state_14, 7, 5, ZACPI_AML_INVALID, {0, 0}},
    {state_15, 7, 5, ZACPI_AML_INVALID, {0, 0}},
    {state_16, 74, 5, ZACPI_OK, {7, 6}},
    {state_16, 74, 4, ZACPI_SLEEP_STATE_ABSENT, {0, 0}},
    {state_17, 29, 5, ZACPI_OK, {7, 6}},
    {state_17, 15, 5, ZACPI_SLEEP_STATE_ABSENT, {0, 0}},
    {state_17, 14, 5, ZACPI_AML_INVALID, {0, 0}},
    {state_18, 26, 5, ZACPI_OK, {7, 6}},
    {state_18, 26, 4, ZACPI_SLEEP_STATE_ABSENT, {0, 0}},
    {state_19, 27, 5, ZACPI_OK, {7, 6}},
    {state_19, 27, 4, ZACPI_SLEEP_STATE_ABSENT, {0, 0}},
    {state_20, 67, 5, ZACPI_OK, {7, 6}},
    {state_20, 67, 4, ZACPI_SLEEP_STATE_ABSENT, {0, 0}},
    {state_21, 67, 5, ZACPI_SLEEP_STATE_NOT_SEEN, {0, 0}},
    {state_22, 67, 5, ZACPI_SLEEP_STATE_NOT_SEEN, {0, 0}},
    {state_23, 28, 5, ZACPI_OK, {7, 6}},
    {state_23, 28, 4, ZACPI_SLEEP_STATE_ABSENT, {0, 0}},
    {state_23, 10, 5, ZACPI_AML_INVALID, {0, 0}},
    {state_23, 9, 5, ZACPI_AML_INVALID, {0, 0}},
    {state_24, 15, 5, ZACPI_OK, {7, 6}},
    {state_24, 15, 4, ZACPI_SLEEP_STATE_ABSENT, {0, 0}},
    {state_25, 27, 5, ZACPI_OK, {7, 6}},
    {state_25, 27, 4, ZACPI_SLEEP_STATE_ABSENT, {0, 0}},
    {state_26, 38, 5, ZACPI_OK, {7, 6}},
    {state_26, 24, 5, ZACPI_SLEEP_STATE_NOT_SEEN, {0, 0}},
    {state_26, 38, 4, ZACPI_SLEEP_STATE_ABSENT, {0, 0}},
    {state_27, 33, 5, ZACPI_OK, {7, 6}},
    {state_27, 19, 5, ZACPI_SLEEP_STATE_NOT_SEEN, {0, 0}},
    {state_28, 44, 5, ZACPI_OK, {7, 6}},
    {state_28, 44, 4, ZACPI_SLEEP_STATE_ABSENT, {0, 0}},
    {state_29, 49, 5, ZACPI_OK, {7, 6}},
    {state_29, 49, 4, ZACPI_SLEEP_STATE_ABSENT, {0, 0}},
    {state_30, 30, 5, ZACPI_OK, {7, 6}},
    {state_30, 30, 4, ZACPI_SLEEP_STATE_ABSENT, {0, 0}},
    {state_31, 4, 5, ZACPI_SLEEP_STATE_NOT_SEEN, {0, 0}},
    {state_32, 4, 5, ZACPI_AML_INVALID, {0, 0}},
    {state_31, 1, 5, ZACPI_SLEEP_STATE_ABSENT, {0, 0}},
    {state_33, 18, 5, ZACPI_SLEEP_STATE_NOT_SEEN, {0, 0}},
    {state_34, 18, 5, ZACPI_SLEEP_STATE_NOT_SEEN, {0, 0}},
    {state_35, 18, 5, ZACPI_SLEEP_STATE_NOT_SEEN, {0, 0}},
    {state_36, 18, 5, ZACPI_SLEEP_STATE_NOT_SEEN, {0, 0}},
    {state_37, 18, 5, ZACPI_SLEEP_STATE_NOT_SEEN, {0, 0}},
    {state_38, 14, 5, ZACPI_SLEEP_STATE_NOT_SEEN, {0, 0}},
    {state_39, 14, 5, ZACPI_SLEEP_STATE_NOT_SEEN, {0, 0}},
    {state_40, 14, 5, ZACPI_SLEEP_STATE_NOT_SEEN, {0, 0}},
    {state_41, 14, 5, ZACPI_SLEEP_STATE_NOT_SEEN, {0, 0}},
    {state_42, 14, 5, ZACPI_SLEEP_STATE_NOT_SEEN, {0, 0}},
    {state_43, 14, 5, ZACPI_SLEEP_STATE_NOT_SEEN, {0, 0}},
    {state_44, 14, 5, ZACPI_AML_INVALID, {0, 0}},
    {state_45, 14, 5, ZACPI_AML_INVALID, {0, 0}},
    {state_46, 1, 5, ZACPI_AML_INVALID, {0, 0}},
    {state_47, 1, 5, ZACPI_AML_INVALID, {0, 0}},
    {state_48, 1, 5, ZACPI_AML_INVALID, {0, 0}},
    {state_49, 1, 5, ZACPI_AML_INVALID, {0, 0}},
    {state_50, 1, 5, ZACPI_AML_INVALID, {0, 0}},
    {state_51, 1, 5, ZACPI_AML_INVALID, {0, 0}},
    {state_52, 23, 5, ZACPI_SLEEP_STATE_NOT_SEEN, {0, 0}},
    {state_53, 27, 5, ZACPI_SLEEP_STATE_NOT_SEEN, {0, 0}},
    {state_54, 11, 5, ZACPI_SLEEP_STATE_NOT_SEEN, {0, 0}},
    {state_55, 7, 5, ZACPI_SLEEP_STATE_NOT_SEEN, {0, 0}},
    {state_56, 7, 5, ZACPI_AML_INVALID, {0, 0}},
    {state_57, 22, 5, ZACPI_SLEEP_STATE_NOT_SEEN, {0, 0}},
    {state_58, 22, 5, ZACPI_SLEEP_STATE_NOT_SEEN, {0, 0}},
    {state_59, 22, 5, ZACPI_AML_INVALID, {0, 0}},
    {state_60, 7, 5, ZACPI_AML_INVALID, {0, 0}},
    {state_61, 13, 5, ZACPI_SLEEP_STATE_NOT_SEEN, {0, 0}},
    {state_62, 22, 5, ZACPI_SLEEP_STATE_NOT_SEEN, {0, 0}},
    {state_63, 8, 5, ZACPI_AML_INVALID, {0, 0}},
    {state_64, 11, 5, ZACPI_SLEEP_STATE_NOT_SEEN, {0, 0}},
    {state_65, 19, 5, ZACPI_OK, {7, 6}},
    {state_65, 7, 5, ZACPI_SLEEP_STATE_ABSENT, {0, 0}},
    {state_66, 14, 5, ZACPI_SLEEP_STATE_NOT_SEEN, {0, 0}},
    {state_67, 14, 5, ZACPI_AML_INVALID, {0, 0}},
    {state_68, 17, 5, ZACPI_SLEEP_STATE_NOT_SEEN, {0, 0}},
    {state_69, 19, 5, ZACPI_OK, {7, 6}},
    {state_69, 19, 4, ZACPI_SLEEP_STATE_NOT_SEEN, {0, 0}},
    {state_70, 7, 5, ZACPI_SLEEP_STATE_ABSENT, {0, 0}},
    {state_71, 7, 5, ZACPI_SLEEP_STATE_NOT_SEEN, {0, 0}},
    {state_72, 10, 5, ZACPI_SLEEP_STATE_NOT_SEEN, {0, 0}},
    {state_72, 10, 4, ZACPI_SLEEP_STATE_ABSENT, {0, 0}},
    {state_73, 48, 5, ZACPI_SLEEP_STATE_NOT_SEEN, {0, 0}},
    {state_73, 48, 4, ZACPI_SLEEP_STATE_NOT_SEEN, {0, 0}},
    {state_73, 48, 3, ZACPI_SLEEP_STATE_NOT_SEEN, {0, 0}},
    {state_73, 48, 2, ZACPI_SLEEP_STATE_ABSENT, {0, 0}},
    {state_74, 2, 5, ZACPI_AML_INVALID, {0, 0}},
    {state_75, 2, 5, ZACPI_AML_INVALID, {0, 0}},
    {state_76, 2, 5, ZACPI_AML_INVALID, {0, 0}},
    {state_77, 18, 5, ZACPI_OK, {7, 6}},
    {state_77, 18, 4, ZACPI_SLEEP_STATE_ABSENT, {0, 0}},
    {state_78, 17, 5, ZACPI_OK, {7, 6}},
    {state_79, 18, 5, ZACPI_SLEEP_STATE_NOT_SEEN, {0, 0}},
    {state_80, 21, 5, ZACPI_SLEEP_STATE_NOT_SEEN, {0, 0}},
    {state_80, 21, 4, ZACPI_SLEEP_STATE_ABSENT, {0, 0}},
    {state_81, 19, 5, ZACPI_SLEEP_STATE_NOT_SEEN, {0, 0}},
    {state_82, 33, 5, ZACPI_OK, {5, 4}},
    {state_83, 24, 5, ZACPI_OK, {7, 6}},
    {state_83, 24, 4, ZACPI_SLEEP_STATE_ABSENT, {0, 0}},
    {state_84, 18, 5, ZACPI_OK, {7, 6}},
    {state_85, 25, 5, ZACPI_SLEEP_STATE_NOT_SEEN, {0, 0}},
    {state_86, 28, 5, ZACPI_OK, {7, 6}},
    {state_86, 28, 4, ZACPI_SLEEP_STATE_ABSENT, {0, 0}},
    {state_87, 22, 5, ZACPI_OK, {7, 6}},
    {state_88, 20, 5, ZACPI_OK, {5, 6}},
    {state_89, 27, 5, ZACPI_OK, {7, 6}},
    {state_89, 27, 4, ZACPI_SLEEP_STATE_NOT_SEEN, {0, 0}},
    {state_90, 25, 5, ZACPI_SLEEP_STATE_NOT_SEEN, {0, 0}},
    {state_91, 7, 5, ZACPI_AML_INVALID, {0, 0}},
    {state_92, 10, 5, ZACPI_AML_INVALID, {0, 0}},
    {state_93, 15, 5, ZACPI_OK, {7, 6}},
    {state_94, 16, 5, ZACPI_OK, {7, 6}},
    {state_95, 15, 5, ZACPI_SLEEP_STATE_ABSENT, {0, 0}},
    {state_96, 57, 5, ZACPI_SLEEP_STATE_ABSENT, {0, 0}},
    {state_97, 8, 5, ZACPI_AML_INVALID, {0, 0}},
    {state_97, 2, 5, ZACPI_AML_INVALID, {0, 0}},
    {state_98, 12, 5, ZACPI_AML_INVALID, {0, 0}},
    {state_99, 12, 5, ZACPI_AML_INVALID, {0, 0}},
    {state_100, 12, 5, ZACPI_AML_INVALID, {0, 0}},
    {state_101, 12, 5, ZACPI_AML_INVALID, {0, 0}},
    {state_102, 12, 5, ZACPI_AML_INVALID, {0, 0}},
    {state_103, 12, 5, ZACPI_AML_INVALID, {0, 0}},
    {state_104, 12, 5, ZACPI_SLEEP_STATE_ABSENT, {0, 0}},
    {state_105, 12, 5, ZACPI_SLEEP_STATE_ABSENT, {0, 0}},
    {state_106, 17, 5, ZACPI_SLEEP_STATE_ABSENT, {0, 0}},
    {state_107, 17, 5, ZACPI_AML_INVALID, {0, 0}},
    {state_108, 17, 5, ZACPI_AML_INVALID, {0, 0}},
    {state_109, 17, 5, ZACPI_AML_INVALID, {0, 0}},
    {state_110, 17, 5, ZACPI_AML_INVALID, {0, 0}},
    {state_111, 17, 5, ZACPI_AML_INVALID, {0, 0}},
    {state_112, 17, 5, ZACPI_AML_INVALID, {0, 0}},
    {state_113, 17, 5, ZACPI_AML_INVALID, {0, 0}},
    {state_114, 17, 5, ZACPI_AML_INVALID, {0, 0}},
    {state_106, 17, 5, ZACPI_SLEEP_STATE_ABSENT, {0, 0}},
    {state_115, 30, 5, ZACPI_SLEEP_STATE_NOT_SEEN, {0, 0}},
    {state_116, 30, 5, ZACPI_SLEEP_STATE_NOT_SEEN, {0, 0}},
    {state_117, 30, 5, ZACPI_SLEEP_STATE_NOT_SEEN, {0, 0}},
    {state_118, 27, 5, ZACPI_SLEEP_STATE_NOT_SEEN, {0, 0}},
    {state_119, 17, 5, ZACPI_SLEEP_STATE_NOT_SEEN, {0, 0}},
    {state_119, 17, 4, ZACPI_SLEEP_STATE_NOT_SEEN, {0, 0}},
    {state_120, 10, 5, ZACPI_SLEEP_STATE_NOT_SEEN, {0, 0}},
    {state_121, 9, 5, ZACPI_SLEEP_STATE_NOT_SEEN, {0, 0}},
    {state_122, 2, 5, ZACPI_SLEEP_STATE_NOT_SEEN, {0, 0}},
    {state_123, 3, 5, ZACPI_SLEEP_STATE_NOT_SEEN, {0, 0}},
    {state_124, 18, 5, ZACPI_OK, {7, 6}},
    {state_124, 18, 4, ZACPI_SLEEP_STATE_NOT_SEEN, {0, 0}},
    {state_125, 5, 5, ZACPI_SLEEP_STATE_NOT_SEEN, {0, 0}},
    {state_126, 20, 5, ZACPI_SLEEP_STATE_ABSENT, {0, 0}},
    {state_127, 6, 5, ZACPI_SLEEP_STATE_NOT_SEEN, {0, 0}},
    {state_128, 16, 5, ZACPI_SLEEP_STATE_NOT_SEEN, {0, 0}},
    {state_128, 16, 4, ZACPI_SLEEP_STATE_ABSENT, {0, 0}},
    {state_129, 22, 5, ZACPI_OK, {7, 6}},
    {state_129, 8, 5, ZACPI_SLEEP_STATE_NOT_SEEN, {0, 0}},
    {state_130, 21, 5, ZACPI_SLEEP_STATE_ABSENT, {0, 0}},
    {state_131, 7, 5, ZACPI_AML_INVALID, {0, 0}},
    {state_132, 11, 5, ZACPI_OK, {5, 3}},
    {state_133, 10, 5, ZACPI_OK, {7, 0}},
    {state_134, 13, 5, ZACPI_SLEEP_TYPE_TOO_HIGH, {0, 0}},
    {state_135, 14, 5, ZACPI_SLEEP_TYPE_TOO_HIGH, {0, 0}},
    {state_136, 12, 5, ZACPI_SLEEP_TYPE_TOO_HIGH, {0, 0}},
    {state_137, 10, 5, ZACPI_OK, {0, 1}},
    {state_138, 14, 5, ZACPI_SLEEP_TYPE_TOO_HIGH, {0, 0}},
    {state_139, 26, 5, ZACPI_SLEEP_TYPE_TOO_HIGH, {0, 0}},
    {state_140, 9, 5, ZACPI_SLEEP_TYPE_TOO_HIGH, {0, 0}},
    {state_141, 19, 5, ZACPI_OK, {7, 6}},
    {state_142, 8, 5, ZACPI_SLEEP_STATE_NOT_SEEN, {0, 0}},
    {state_143, 14, 5, ZACPI_SLEEP_STATE_NOT_SEEN, {0, 0}},
    {state_144, 14, 5, ZACPI_SLEEP_STATE_NOT_SEEN, {0, 0}},
    {state_145, 14, 5, ZACPI_OK, {7, 0}},
    {state_146, 14, 5, ZACPI_SLEEP_STATE_NOT_SEEN, {0, 0}},
    {state_147, 12, 5, ZACPI_OK, {7, 6}},
    {state_148, 16, 5, ZACPI_SLEEP_STATE_NOT_SEEN, {0, 0}},
    {state_149, 14, 5, ZACPI_SLEEP_STATE_NOT_SEEN, {0, 0}},
    {state_150, 13, 5, ZACPI_AML_INVALID, {0, 0}},
    {state_151, 11, 5, ZACPI_AML_INVALID, {0, 0}},
    {state_152, 7, 5, ZACPI_SLEEP_STATE_NOT_SEEN, {0, 0}},
    {state_153, 7, 5, ZACPI_AML_INVALID, {0, 0}},
    {state_154, 7, 5, ZACPI_AML_INVALID, {0, 0}},
    {state_155, 19, 5, ZACPI_SLEEP_STATE_NOT_SEEN, {0, 0}},
    {state_155, 19, 4, ZACPI_SLEEP_STATE_ABSENT, {0, 0}},
    {state_156, 23, 5, ZACPI_OK, {7, 6}},
    {state_156, 11, 5, ZACPI_SLEEP_STATE_NOT_SEEN, {0, 0}},
    {state_157, 9, 5, ZACPI_SLEEP_STATE_NOT_SEEN, {0, 0}},
    {state_158, 10, 5, ZACPI_SLEEP_STATE_NOT_SEEN, {0, 0}},
    {state_159, 13, 5, ZACPI_OK, {7, 6}},
    {state_160, 13, 5, ZACPI_OK, {7, 6}},
    {state_161, 13, 5, ZACPI_AML_INVALID, {0, 0}},
    {state_162, 13, 5, ZACPI_AML_INVALID, {0, 0}},
    {state_163, 13, 5, ZACPI_AML_INVALID, {0, 0}},
    {state_164, 29, 4, ZACPI_OK, {7, 6}},
    {state_164, 29, 5, ZACPI_OK, {5, 4}},
    {state_165, 83, 5, ZACPI_OK, {7, 6}},
    {state_166, 84, 5, ZACPI_OK, {7, 6}},
    {state_167, 4132, 5, ZACPI_OK, {7, 6}},
    {state_168, 2, 5, ZACPI_AML_INVALID, {0, 0}},
    {state_169, 2, 5, ZACPI_AML_INVALID, {0, 0}},
    {state_170, 10, 5, ZACPI_AML_INVALID, {0, 0}},
    {state_171, 8, 5, ZACPI_AML_INVALID, {0, 0}},
    {state_172, 8, 5, ZACPI_AML_INVALID, {0, 0}},
    {state_173, 26, 5, ZACPI_OK, {7, 6}},
    {state_173, 0, 5, ZACPI_SLEEP_STATE_ABSENT, {0, 0}},
    {state_173, 1, 5, ZACPI_AML_INVALID, {0, 0}},
    {state_173, 2, 5, ZACPI_AML_INVALID, {0, 0}},
    {state_173, 3, 5, ZACPI_AML_INVALID, {0, 0}},
    {state_173, 4, 5, ZACPI_AML_INVALID, {0, 0}},
    {state_173, 5, 5, ZACPI_AML_INVALID, {0, 0}},
    {state_173, 6, 5, ZACPI_AML_INVALID, {0, 0}},
    {state_173, 7, 5, ZACPI_AML_INVALID, {0, 0}},
    {state_173, 8, 5, ZACPI_SLEEP_STATE_ABSENT, {0, 0}},
    {state_173, 9, 5, ZACPI_AML_INVALID, {0, 0}},
    {state_173, 10, 5, ZACPI_AML_INVALID, {0, 0}},
    {state_173, 11, 5, ZACPI_AML_INVALID, {0, 0}},
    {state_173, 12, 5, ZACPI_AML_INVALID, {0, 0}},
    {state_173, 13, 5, ZACPI_AML_INVALID, {0, 0}},
    {state_173, 14, 5, ZACPI_AML_INVALID, {0, 0}},
    {state_173, 15, 5, ZACPI_AML_INVALID, {0, 0}},
    {state_173, 16, 5, ZACPI_AML_INVALID, {0, 0}},
    {state_173, 17, 5, ZACPI_AML_INVALID, {0, 0}},
    {state_173, 18, 5, ZACPI_AML_INVALID, {0, 0}},
    {state_173, 19, 5, ZACPI_AML_INVALID, {0, 0}},
    {state_173, 20, 5, ZACPI_AML_INVALID, {0, 0}},
    {state_173, 21, 5, ZACPI_AML_INVALID, {0, 0}},
    {state_173, 22, 5, ZACPI_AML_INVALID, {0, 0}},
    {state_173, 23, 5, ZACPI_AML_INVALID, {0, 0}},
    {state_173, 24, 5, ZACPI_AML_INVALID, {0, 0}},
    {state_173, 25, 5, ZACPI_AML_INVALID, {0, 0}},
    {state_174, 26, 5, ZACPI_AML_INVALID, {0, 0}},
    {state_175, 26, 5, ZACPI_AML_INVALID, {0, 0}},
    {state_176, 26, 5, ZACPI_AML_INVALID, {0, 0}},
    {state_177, 26, 5, ZACPI_AML_INVALID, {0, 0}},
    {state_178, 26, 5, ZACPI_AML_INVALID, {0, 0}},
    {state_179, 26, 5, ZACPI_AML_INVALID, {0, 0}},
    {state_180, 26, 5, ZACPI_OK, {7, 6}},
    {state_181, 26, 5, ZACPI_OK, {7, 6}},
    {state_182, 26, 5, ZACPI_AML_INVALID, {0, 0}},
    {state_183, 26, 5, ZACPI_AML_INVALID, {0, 0}},
    {state_184, 26, 5, ZACPI_AML_INVALID, {0, 0}},
    {state_185, 26, 5, ZACPI_AML_INVALID, {0, 0}},
    {state_186, 26, 5, ZACPI_AML_INVALID, {0, 0}},
    {state_187, 26, 5, ZACPI_AML_INVALID, {0, 0}},
    {state_188, 26, 5, ZACPI_AML_INVALID, {0, 0}},
    {state_189, 26, 5, ZACPI_AML_INVALID, {0, 0}},
    {state_190, 26, 5, ZACPI_AML_INVALID, {0, 0}},
    {state_191, 26, 5, ZACPI_AML_INVALID, {0, 0}},
    {state_192, 26, 5, ZACPI_AML_INVALID, {0, 0}},
    {state_193, 26, 5, ZACPI_OK, {7, 6}},
    {state_194, 26, 5, ZACPI_AML_INVALID, {0, 0}},
    {state_195, 26, 5, ZACPI_OK, {248, 6}},
    {state_196, 26, 5, ZACPI_AML_INVALID, {0, 0}},
    {state_197, 26, 5, ZACPI_OK, {7, 249}},
    {state_198, 26, 5, ZACPI_OK, {7, 6}},
    {state_199, 26, 5, ZACPI_OK, {7, 6}},
    {state_1, 0, 5, ZACPI_SLEEP_STATE_ABSENT, {0, 0}},
    {state_1, 1, 5, ZACPI_AML_INVALID, {0, 0}},
    {state_1, 2, 5, ZACPI_AML_INVALID, {0, 0}},
    {state_1, 3, 5, ZACPI_AML_INVALID, {0, 0}},
    {state_1, 4, 5, ZACPI_AML_INVALID, {0, 0}},
    {state_1, 5, 5, ZACPI_AML_INVALID, {0, 0}},
    {state_1, 6, 5, ZACPI_AML_INVALID, {0, 0}},
    {state_1, 7, 5, ZACPI_AML_INVALID, {0, 0}},
    {state_1, 8, 5, ZACPI_AML_INVALID, {0, 0}},
    {state_1, 9, 5, ZACPI_AML_INVALID, {0, 0}},
    {state_1, 10, 5, ZACPI_AML_INVALID, {0, 0}},
    {state_1, 11, 5, ZACPI_AML_INVALID, {0, 0}},
    {state_1, 12, 5, ZACPI_AML_INVALID, {0, 0}},
    {state_1, 13, 5, ZACPI_AML_INVALID, {0, 0}},
    {state_1, 7, 4, ZACPI_AML_INVALID, {0, 0}},
    {state_200, 79, 5, ZACPI_SLEEP_STATE_NOT_SEEN, {0, 0}},
    {state_200, 79, 4, ZACPI_SLEEP_STATE_NOT_SEEN, {0, 0}},
    {state_200, 79, 3, ZACPI_SLEEP_STATE_NOT_SEEN, {0, 0}},
    {state_200, 79, 1, ZACPI_SLEEP_STATE_NOT_SEEN, {0, 0}},
    {state_200, 79, 2, ZACPI_SLEEP_STATE_ABSENT, {0, 0}},
    {state_201, 61, 5, ZACPI_OK, {5, 4}},
    {state_201, 61, 3, ZACPI_SLEEP_STATE_NOT_SEEN, {0, 0}},
    {state_202, 65, 5, ZACPI_OK, {5, 3}},
    {state_202, 65, 4, ZACPI_SLEEP_STATE_NOT_SEEN, {0, 0}},
    {state_202, 65, 3, ZACPI_SLEEP_STATE_NOT_SEEN, {0, 0}},
    {state_203, 140, 5, ZACPI_OK, {0, 1}},
    {state_203, 140, 3, ZACPI_SLEEP_STATE_ABSENT, {0, 0}},
    {state_204, 81, 5, ZACPI_OK, {5, 10}},
    {state_204, 81, 4, ZACPI_SLEEP_STATE_ABSENT, {0, 0}},
    {state_204, 81, 3, ZACPI_SLEEP_STATE_NOT_SEEN, {0, 0}},
    {state_205, 143, 5, ZACPI_SLEEP_TYPE_TOO_HIGH, {0, 0}},
    {state_205, 143, 1, ZACPI_SLEEP_STATE_ABSENT, {0, 0}},
    {state_206, 81, 5, ZACPI_OK, {7, 6}},
    {state_206, 81, 4, ZACPI_SLEEP_TYPE_TOO_HIGH, {0, 0}},
    {state_206, 81, 3, ZACPI_OK, {1, 1}},
    {state_206, 81, 1, ZACPI_SLEEP_STATE_ABSENT, {0, 0}},
    {state_207, 48, 5, ZACPI_OK, {3, 2}},
    {state_207, 48, 1, ZACPI_SLEEP_STATE_ABSENT, {0, 0}}};
#endif
