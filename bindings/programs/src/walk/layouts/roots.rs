// Made by scripts/erase of crates/acpi_dump_walk/src/layouts/roots.rt, where it is proved.
//! The header of tables, and the tables that point to others (ACPI 6.5).

/// The header that every table begins with (section 5.2.6, table 5.4). An S3PT and an FBPT have only its first
/// two fields: after their records, fields at lower offsets aren't shown.
pub(crate) const HEADER: &str = "
0 4 text Signature
4 4 dec Length
if 0:4 0x54503353 S3PT-records
if 0:4 0x54504246 FBPT-records
8 1 - Revision
9 1 - Checksum
10 6 text OEMID
16 8 text OEM Table ID
24 4 - OEM Revision
28 4 text Creator ID
32 4 - Creator Revision
";

/// The RSDT (section 5.2.7), the XSDT (5.2.8), the FADT (5.2.9) and the FACS (5.2.10), after the RSDP (5.2.5.3), whose
/// signature goes on after its first three letters and a blank.
pub(crate) const ROOTS: &str = "
= RSD * - Root System Description Pointer
0 8 text Signature
8 1 - Checksum
9 6 text OEMID
15 1 - Revision
16 4 - RsdtAddress
if 15:1 1-255 RSD-2

= RSD-2 * - since ACPI 2.0
20 4 dec Length
24 8 - XsdtAddress
32 1 - Extended Checksum
33 3 - Reserved

= RSDT * - Root System Description Table
36 4[*] - Entry

= XSDT * - Extended System Description Table
36 8[*] - Entry

= FACP * - Fixed ACPI Description Table
36 4 - FIRMWARE_CTRL
40 4 - DSDT
44 1 - Reserved
45 1 codes Preferred_PM_Profile | @profiles
46 2 dec SCI_INT
48 4 - SMI_CMD
52 1 - ACPI_ENABLE
53 1 - ACPI_DISABLE
54 1 - S4BIOS_REQ
55 1 - PSTATE_CNT
56 4 - PM1a_EVT_BLK
60 4 - PM1b_EVT_BLK
64 4 - PM1a_CNT_BLK
68 4 - PM1b_CNT_BLK
72 4 - PM2_CNT_BLK
76 4 - PM_TMR_BLK
80 4 - GPE0_BLK
84 4 - GPE1_BLK
88 1 dec PM1_EVT_LEN
89 1 dec PM1_CNT_LEN
90 1 dec PM2_CNT_LEN
91 1 dec PM_TMR_LEN
92 1 dec GPE0_BLK_LEN
93 1 dec GPE1_BLK_LEN
94 1 dec GPE1_BASE
95 1 - CST_CNT
96 2 dec P_LVL2_LAT
98 2 dec P_LVL3_LAT
100 2 dec FLUSH_SIZE
102 2 dec FLUSH_STRIDE
104 1 dec DUTY_OFFSET
105 1 dec DUTY_WIDTH
106 1 - DAY_ALRM
107 1 - MON_ALRM
108 1 - CENTURY
109 2 flags IAPC_BOOT_ARCH | @iapc-boot-arch
111 1 - Reserved
112 4 flags Flags | @fixed-feature-flags
116 12 gas RESET_REG
128 1 - RESET_VALUE
129 2 flags ARM_BOOT_ARCH | 0 PSCI_COMPLIANT | 1 PSCI_USE_HVC
131 1 - FADT Minor Version
132 8 - X_FIRMWARE_CTRL
140 8 - X_DSDT
148 12 gas X_PM1a_EVT_BLK
160 12 gas X_PM1b_EVT_BLK
172 12 gas X_PM1a_CNT_BLK
184 12 gas X_PM1b_CNT_BLK
196 12 gas X_PM2_CNT_BLK
208 12 gas X_PM_TMR_BLK
220 12 gas X_GPE0_BLK
232 12 gas X_GPE1_BLK
244 12 gas SLEEP_CONTROL_REG
256 12 gas SLEEP_STATUS_REG
268 8 text Hypervisor Vendor Identity

= profiles * - Preferred_PM_Profile (table 5.9)
0 Unspecified
1 Desktop
2 Mobile
3 Workstation
4 Enterprise Server
5 SOHO Server
6 Appliance PC
7 Performance Server
8 Tablet

= iapc-boot-arch * - IA-PC Boot Architecture Flags (section 5.2.9.3)
0 LEGACY_DEVICES
1 8042
2 VGA Not Present
3 MSI Not Supported
4 PCIe ASPM Controls
5 CMOS RTC Not Present

= fixed-feature-flags * - Fixed Feature Flags (table 5.10)
0 WBINVD
1 WBINVD_FLUSH
2 PROC_C1
3 P_LVL2_UP
4 PWR_BUTTON
5 SLP_BUTTON
6 FIX_RTC
7 RTC_S4
8 TMR_VAL_EXT
9 DCK_CAP
10 RESET_REG_SUP
11 SEALED_CASE
12 HEADLESS
13 CPU_SW_SLP
14 PCI_EXP_WAK
15 USE_PLATFORM_CLOCK
16 S4_RTC_STS_VALID
17 REMOTE_POWER_ON_CAPABLE
18 FORCE_APIC_CLUSTER_MODEL
19 FORCE_APIC_PHYSICAL_DESTINATION_MODE
20 HW_REDUCED_ACPI
21 LOW_POWER_S0_IDLE_CAPABLE
23:22/1 PERSISTENT_CPU_CACHES not persistent
23:22/2 PERSISTENT_CPU_CACHES persistent
23:22/3 PERSISTENT_CPU_CACHES reserved

= FACS * - Firmware ACPI Control Structure
0 4 text Signature
4 4 dec Length
8 4 - Hardware Signature
12 4 - Firmware Waking Vector
16 4 flags Global Lock | 0 Pending | 1 Owned
20 4 flags Flags | 0 S4BIOS_F | 1 64BIT_WAKE_SUPPORTED_F
24 8 - X Firmware Waking Vector
32 1 - Version
33 3 - Reserved
36 4 flags OSPM Flags | 0 64BIT_WAKE_F
40 24 - Reserved
";
