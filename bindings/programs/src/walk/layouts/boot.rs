// Made by scripts/erase of crates/acpi_dump_walk/src/layouts/boot.rt, where it is proved.
//! What firmware tells of the boot, and of licences.

/// The BGRT (ACPI 6.5, section 5.2.23), the FPDT with the S3PT and the FBPT that it points to (section
/// 5.2.24), the RGRT (section 5.2.35), the UEFI table (UEFI 2.10, appendix O), the BOOT (Microsoft: Simple Boot
/// Flag Specification 2.1), the MSDM and the SLIC (Microsoft: Software Licensing Tables), the WPBT (Microsoft:
/// Windows Platform Binary Table), the WSMT (Microsoft: Windows SMM Security Mitigations Table), the STAO and
/// the XENV (Xen Project), the PHAT (ACPI 6.5, section 5.2.32) and the PRMT (Platform Runtime Mechanism 1.0).
pub(crate) const BOOT: &str = "
= BGRT * - Boot Graphics Resource Table
36 2 - Version
38 1 flags Status | 0 displayed | 1 turned by 90 degrees | 2 turned by 180 degrees
39 1 codes Image Type | 0 bitmap
40 8 - Image Address
48 4 dec Image Offset X
52 4 dec Image Offset Y

= FPDT * - Firmware Performance Data Table
36 {*} typed 0:2 2:1 FPDT-record

= FPDT-record * - what each record begins with
0 2 - Performance Record Type
2 1 dec Record Length
3 1 - Revision

= FPDT-record 0 16 Firmware Basic Boot Performance Pointer Record
4 4 - Reserved
8 8 - FBPT Pointer

= FPDT-record 1 16 S3 Performance Table Pointer Record
4 4 - Reserved
8 8 - S3PT Pointer

= S3PT * - S3 Performance Table

= S3PT-records * - what follows its signature and its length
8 {*} typed 0:2 2:1 S3PT-record

= S3PT-record * - what each record begins with
0 2 - Runtime Performance Record Type
2 1 dec Record Length
3 1 - Revision

= S3PT-record 0 24 Basic S3 Resume Performance Record
4 4 dec Resume Count
8 8 dec FullResume
16 8 dec AverageResume

= S3PT-record 1 20 Basic S3 Suspend Performance Record
4 8 dec SuspendStart
12 8 dec SuspendEnd

= FBPT * - Firmware Basic Boot Performance Table

= FBPT-records * - what follows its signature and its length
8 {*} typed 0:2 2:1 FBPT-record

= FBPT-record * - what each record begins with
0 2 - Performance Record Type
2 1 dec Record Length
3 1 - Revision

= FBPT-record 2 48 Firmware Basic Boot Performance Data Record
4 4 - Reserved
8 8 dec Reset End
16 8 dec OS Loader LoadImage Start
24 8 dec OS Loader StartImage Start
32 8 dec ExitBootServices Entry
40 8 dec ExitBootServices Exit

= RGRT * - Regulatory Graphics Resource Table
36 2 - Version
38 1 codes Image Type | 1 PNG
39 1 - Reserved
40 * - Image

= UEFI * - UEFI ACPI Data Table
36 16 guid Identifier
52 2 dec DataOffset

= BOOT * - Simple Boot Flag Table
36 1 - CMOS Index
37 3 - Reserved

= MSDM * - Microsoft Data Management Table
36 * - Software Licensing

= SLIC * - Software Licensing Description Table
36 * - Software Licensing

= WPBT * - Windows Platform Binary Table
36 4 dec Handoff Memory Size
40 8 - Handoff Memory Location
48 1 codes Content Layout | 1 a single Portable Executable image
49 1 codes Content Type | 1 native user mode application
50 2 dec Command-line Arguments Length
52 50:2 wide Command-line Arguments

= WSMT * - Windows SMM Security Mitigations Table
36 4 flags Protection Flags | 0 FIXED_COMM_BUFFERS | 1 COMM_BUFFER_NESTED_PTR_PROTECTION | 2 SYSTEM_RESOURCE_PROTECTION

= STAO * - Status Override Table
36 1 codes UART | 1 ignored
37 {*} each z STAO-name

= STAO-name * - Name
0 * text Name

= XENV * - Xen Environment Table
36 8 - Grant Table Address
44 8 - Grant Table Size
52 4 dec Event Channel Interrupt
56 1 - Event Channel Flags

= PHAT * - Platform Health Assessment Table
36 {*} typed 0:2 2:2 PHAT-record

= PHAT-record * - what each record begins with
0 2 - Platform Health Assessment Record Type
2 2 dec Record Length
4 1 - Revision

= PHAT-record 0 12 Firmware Version Data Record
5 3 - Reserved
8 4 dec Record Count
12 {8:4} each 28 PHAT-version

= PHAT-version * - Version Element
0 16 guid Component ID
16 8 - Version Value
24 4 text Producer ID

= PHAT-record 1 28 Firmware Health Data Record
5 2 - Reserved
7 1 codes AmHealthy | 0 Errors found | 1 No errors found | 2 Unknown | 3 Advisory
8 16 guid Device Signature
24 4 dec Device-specific Data Offset
if 24:4 0 PHAT-path
if 24:4 1-0xffffffff PHAT-data

= PHAT-path * - without data
28 * wide Device Path

= PHAT-data * - with data
28 <24:4 wide Device Path
24:4 * - Device-specific Data

= PRMT * - Platform Runtime Mechanism Table
36 16 guid PRM Platform GUID
52 4 dec PRM Module Info Offset
56 4 dec PRM Module Info Count
52:4 {56:4} own 2:2 PRMT-module

= PRMT-module * 38 PRM Module Information Structure
0 2 - Structure Revision
2 2 dec Structure Length
4 16 guid Identifier
20 2 - Major Revision
22 2 - Minor Revision
24 2 dec Handler Count
26 4 dec Handler Info Offset
30 8 - Module MMIO Runtime Ranges Pointer
26:4 {24:2} own 2:2 PRMT-handler

= PRMT-handler * 44 PRM Handler Information Structure
0 2 - Structure Revision
2 2 dec Structure Length
4 16 guid Identifier
20 8 - Physical Address
28 8 - Static Data Buffer
36 8 - ACPI Parameter Buffer
";
