// Made by scripts/erase of crates/acpi_dump_walk/src/layouts/trust.rt, where it is proved.
//! Trust: measured boot, secure devices and confidential computing.

/// The TPM2 and the TCPA (TCG ACPI Specification 1.2), the DRTM (TCG D-RTM Architecture 1.0), the SDEV (ACPI
/// 6.5, section 5.2.27), the CCEL (5.2.36) and the SVKL (5.2.34.2, Intel TDX).
pub(crate) const TRUST: &str = "
= TPM2 * - Trusted Computing Platform 2 Table
36 2 codes Platform Class | 0 client | 1 server
38 2 - Reserved
40 8 - Address of Control Area
48 4 codes Start Method | @TPM2-start-methods
if 48:4 0-10 TPM2-parameters
if 48:4 11 TPM2-smc
if 48:4 12-0xffffffff TPM2-parameters
64 4 dec Log Area Minimum Length (LAML)
68 8 - Log Area Start Address (LASA)

= TPM2-start-methods * - Start Method
2 ACPI Start method
6 Memory Mapped I/O (TIS)
7 Command Response Buffer
8 Command Response Buffer with ACPI Start method
11 Command Response Buffer with Arm SMC or HVC
12 FIFO over I2C bus
13 Command Response Buffer with AMD mailbox notification
15 Command Response Buffer with Arm FF-A

= TPM2-parameters * - parameters of other start methods
52 12 - Start Method Specific Parameters

= TPM2-smc * - parameters of Arm SMC or HVC
52 4 dec Interrupt
56 1 flags Flags | 0 Interrupts are supported | 1 ACPI Start method is required | 2 level-triggered
57 1 flags Operation Flags | 0 TPM_IDLE is supported
58 2 - Reserved
60 4 - SMC/HVC Function ID

= TCPA * - Trusted Computing Platform Alliance Capabilities Table
36 2 codes Platform Class | 0 client | 1 server
if 36:2 0 TCPA-client
if 36:2 1 TCPA-server

= TCPA-client * - of a client
38 4 dec Log Area Minimum Length (LAML)
42 8 - Log Area Start Address (LASA)

= TCPA-server * - of a server
38 2 - Reserved
40 8 dec Log Area Minimum Length (LAML)
48 8 - Log Area Start Address (LASA)
56 2 - TCG Specification Revision
58 1 flags Device Flags | 0 PCI device | 1 Bus is Plug and Play | 2 Configuration address is valid
59 1 flags Interrupt Flags | 0 Interrupt mode | 1 Interrupt polarity | 2 SCI triggered through GPE \
    | 3 I/O APIC interrupt
60 1 dec GPE
61 3 - Reserved
64 4 dec Global System Interrupt
68 12 gas Base Address
80 4 - Reserved
84 12 gas Configuration Address
96 1 dec PCI Segment Group Number
97 1 dec PCI Bus Number
98 1 dec PCI Device Number
99 1 dec PCI Function Number

= DRTM * - D-RTM Resources Table
36 8 - DL_Entry_Base
44 8 dec DL_Entry_Length
52 4 - DL_Entry32
56 8 - DL_Entry64
64 8 - DLME_Exit
72 8 - Log_Area_Start
80 4 dec Log_Area_Length
84 8 - Architecture_Dependent
92 4 flags DRT_Flags | 0 Namespace in TCB | 1 Gap code on S3 resume | 2 Gap code on DLME_Exit \
    | 3 PCR_Authorities changed
then DRTM-tables

= DRTM-tables * - Validated Tables
0 4 dec Validated Table Count
4 8[0:4] - Validated Table
then DRTM-resources

= DRTM-resources * - Resources
0 4 dec Resource Count
4 {0:4} each 16 DRTM-resource
then DRTM-id

= DRTM-resource * - Resource
0 7 - Size
7 1 flags Type | 1:0/0 Memory | 1:0/1 I/O range | 1:0/2 Memory-mapped I/O | 1:0/3 PCI configuration space | 7 Protected
8 8 - Address

= DRTM-id * - DLME Platform Id
0 4 dec DPS_Id_Length
4 16 - DPS_Id

= SDEV * - Secure Devices Table
36 {*} typed 0:1 2:2 SDEV-structure

= SDEV-structure * - what each structure begins with
0 1 - Type
1 1 flags Flags | 0 Allow handing off to non-secure OS | 1 Secure access components are present
2 2 dec Length

= SDEV-structure 0 12 ACPI_NAMESPACE_DEVICE based Secure Device Structure
4 2 dec Device Id Offset
6 2 dec Device Id Length
8 2 dec Vendor Specific Data Offset
10 2 dec Vendor Specific Data Length
if 1:1 !2 SDEV-plain
if 1:1 &2 SDEV-components

= SDEV-plain * - if secure access components aren't present
with SDEV-device-id
with SDEV-vendor-data

= SDEV-device-id * - Device Id
4:2 6:2 text Device Id

= SDEV-vendor-data * - Vendor Specific Data
8:2 10:2 - Vendor Specific Data

= SDEV-components * - if secure access components are present
12 2 dec Secure Access Components Offset
14 2 dec Secure Access Components Length
with SDEV-device-id
if 8:2-12:2 1-0xffff SDEV-component-list
with SDEV-vendor-data
if 8:2-12:2 0 SDEV-component-list

= SDEV-component-list * - before Vendor Specific Data, or after it
12:2 {~14:2} typed 0:1 2:2 SDEV-component

= SDEV-component * - what each component begins with
0 1 - Type
2 2 dec Length

= SDEV-component 0 19 Identification Based Secure Access Component
4 2 dec Hardware Identifier Offset
6 2 dec Hardware Identifier Length
8 2 dec Subsystem Identifier Offset
10 2 dec Subsystem Identifier Length
12 2 - Hardware Revision
14 1 - Hardware Revision Present
15 1 - Class Code Present
16 1 - PCI-Compatible Base Class
17 1 - PCI-Compatible Sub-Class
18 1 - PCI-Compatible Programming Interface

= SDEV-component 1 24 Memory-based Secure Access Component
4 4 - Reserved
8 8 - Memory Address Base
16 8 - Memory Length

= SDEV-structure 1 16 PCIe Endpoint Device based Device Structure
4 2 dec PCI Segment Number
6 2 - Start Bus Number
8 2 dec PCI Path Offset
10 2 dec PCI Path Length
12 2 dec Vendor Specific Data Offset
14 2 dec Vendor Specific Data Length
8:2 {~10:2} each 2 SDEV-path
12:2 14:2 - Vendor Specific Data

= SDEV-path * - PCI Path
0 1 - Device
1 1 - Function

= CCEL * - Confidential Computing Event Log Table
36 1 codes CC Type | 1 AMD SEV | 2 Intel TDX
37 1 - CC Sub Type
38 2 - Reserved
40 8 dec Log Area Minimum Length (LAML)
48 8 - Log Area Start Address (LASA)

= SVKL * - Storage Volume Key Location Table
36 4 dec Key Count
40 {36:4} each 16 SVKL-key

= SVKL-key * - Storage Volume Key
0 2 codes Key Type | 0 main storage volume key
2 2 codes Key Format | 0 raw binary
4 4 dec Key Size
8 8 - Key Address
";
