// Made by scripts/erase of crates/acpi_dump_walk/src/layouts/memory.rt, where it is proved.
//! Memory: its power, its topology, non-volatile modules and CXL.

/// The MPST (ACPI 6.5, section 5.2.22), the PMTT (5.2.21.12; up to revision 1 that of ACPI 6.3), the RASF (5.2.20), the
/// RAS2 (5.2.21), the BDAT and the MISC (5.2.34).
pub(crate) const MEMORY: &str = "
= MPST * - Memory Power State Table
36 1 - Memory PCC Identifier
37 3 - Reserved
40 2 dec Memory Power Node Count
42 2 - Reserved
44 {40:2} own 32+2*24:4+2*28:4 MPST-node
then MPST-characteristics

= MPST-node * 32 Memory Power Node
0 1 flags Flag | 0 Enabled | 1 Power Managed | 2 Hot Pluggable
1 1 - Reserved
2 2 dec Memory Power Node Id
4 4 dec Length
8 8 - Base Address
16 8 - Memory Power Node Length
24 4 dec Number of Power States
28 4 dec Number of Physical Components
32 {24:4} each 2 MPST-state
> 2[28:4] dec Physical Component Identifier

= MPST-state * - Memory Power State
0 1 - Power State Value
1 1 dec Power State Information Index

= MPST-characteristics * - Memory Power State Characteristics
0 2 dec Memory Power State Characteristics Count
2 2 - Reserved
4 {0:2} each 28 MPST-characteristic

= MPST-characteristic * - Memory Power State Characteristics Structure
0 1 - Power State Structure ID
1 1 flags Flags | 0 Memory contents preserved | 1 Autonomous power state entry | 2 Autonomous power state exit
2 2 - Reserved
4 4 dec Average Power Consumed in MPS0
8 4 dec Relative Power Saving to MPS0
12 8 dec Exit Latency
20 8 - Reserved

= PMTT * - Platform Memory Topology Table
if 8:1 0-1 PMTT-1
if 8:1 2-255 PMTT-2

= PMTT-1 * - up to revision 1
36 4 - Reserved
40 {*} typed 0:1 2:2 PMTT-device-1

= PMTT-flags * - Flags
0 Top-level aggregator device
1 Physical element of the topology
3:2/0 volatile memory
3:2/1 volatile and non-volatile memory
3:2/2 non-volatile memory

= PMTT-device-1 * - what each structure begins with
0 1 - Type
1 1 - Reserved
2 2 dec Length
4 2 flags Flags | @PMTT-flags
6 2 - Reserved

= PMTT-device-1 0 12 Socket
8 2 dec Socket Identifier
10 2 - Reserved
12 {*} typed 0:1 2:2 PMTT-device-1

= PMTT-device-1 1 32 Memory Controller
8 4 dec Read Latency
12 4 dec Write latency
16 4 dec Read Bandwidth
20 4 dec Write Bandwidth
24 2 dec Optimal access unit
26 2 dec Optimal access alignment
28 2 - Reserved
30 2 dec Number of Proximity Domains
32 4[30:2] dec Proximity Domain
> {*} typed 0:1 2:2 PMTT-device-1

= PMTT-device-1 2 20 DIMM
8 2 dec Physical Component Identifier
10 2 - Reserved
12 4 dec Size of DIMM
16 4 - SMBIOS Handle

= PMTT-2 * - since revision 2
36 4 dec Number of Memory Devices
40 {*} typed 0:1 2:2 PMTT-device

= PMTT-device * - what each structure begins with
0 1 - Type
1 1 - Reserved
2 2 dec Length
4 2 flags Flags | @PMTT-flags
6 2 - Reserved
8 4 dec Number of Memory Devices

= PMTT-device 0 16 Socket
12 2 dec Socket Identifier
14 2 - Reserved
16 {*} typed 0:1 2:2 PMTT-device

= PMTT-device 1 16 Memory Controller
12 2 dec Memory Controller Identifier
14 2 - Reserved
16 {*} typed 0:1 2:2 PMTT-device

= PMTT-device 2 16 DIMM
12 4 - SMBIOS Handle

= PMTT-device 0xff 28 Vendor Specific
12 16 guid Type UUID

= RASF * - ACPI RAS Feature Table
36 12 - RASF Platform Communication Channel Identifier

= RAS2 * - ACPI RAS2 Feature Table
36 2 - Reserved
38 2 dec Number of PCC descriptors
40 {38:2} each 8 RAS2-descriptor

= RAS2-descriptor * - RAS2 Platform Communication Channel Descriptor
0 1 dec PCC Identifier
1 2 - Reserved
3 1 codes Feature Type | 0 Memory
4 4 dec Instance

= BDAT * - BIOS Data ACPI Table
36 12 gas BDAT Generic Address Structure

= MISC * - Miscellaneous GUIDed Table Entries
36 {*} own 16:4 MISC-entry

= MISC-entry * 20 GUIDed entry
0 16 guid Entry GUID ID
16 4 dec Entry Length
";

/// The NFIT (ACPI 6.5, section 5.2.26) and the CEDT (CXL 3.0, section 9.17.1).
pub(crate) const NFIT: &str = "
= NFIT * - NVDIMM Firmware Interface Table
36 4 - Reserved
40 {*} typed 0:2 2:2 NFIT-structure

= NFIT-structure * - what each structure begins with
0 2 - Type
2 2 dec Length

= NFIT-ranges * - Address Range Type GUID (section 5.2.26.2)
7305944f-fdda-44e3-b16c-3f22d252e5d0 volatile memory
66f0d379-b4f3-4074-ac43-0d3318b78cdb persistent memory
92f701f6-13b4-405d-910b-299367e8234c NVDIMM control
91af0530-5d86-470e-a6b0-0a2db9408249 NVDIMM block data window
77ab535a-45fc-624b-5560-f7b281d1f96e volatile virtual disk
3d5abd30-4175-87ce-6d64-d2ade523c4bb volatile virtual CD
5cea02c9-4d07-69d3-269f-4496fbe096f9 persistent virtual disk
08018188-42cd-bb48-100f-5387d53ded3d persistent virtual CD

= NFIT-attributes * - Address Range Memory Mapping Attribute (UEFI 2.10, section 7.2.3)
0 EFI_MEMORY_UC
1 EFI_MEMORY_WC
2 EFI_MEMORY_WT
3 EFI_MEMORY_WB
4 EFI_MEMORY_UCE
12 EFI_MEMORY_WP
13 EFI_MEMORY_RP
14 EFI_MEMORY_XP
15 EFI_MEMORY_NV
16 EFI_MEMORY_MORE_RELIABLE
17 EFI_MEMORY_RO
18 EFI_MEMORY_SP
19 EFI_MEMORY_CPU_CRYPTO
63 EFI_MEMORY_RUNTIME

= NFIT-handle * - NFIT Device Handle (section 9.20.3)
3:0 DIMM Number
7:4 Memory Channel Number
11:8 Memory Controller ID
15:12 Socket ID
27:16 Node Controller ID

= NFIT-structure 0 56 System Physical Address (SPA) Range Structure
4 2 dec SPA Range Structure Index
6 2 flags Flags | 0 Control region only for management during hot add or online operation \
    | 1 Proximity Domain is valid | 2 SpaLocationCookie is valid
8 4 - Reserved
12 4 dec Proximity Domain
16 16 guid Address Range Type GUID | @NFIT-ranges
32 8 - System Physical Address Range Base
40 8 - System Physical Address Range Length
48 8 flags Address Range Memory Mapping Attribute | @NFIT-attributes
56 8 - SpaLocationCookie

= NFIT-structure 1 48 NVDIMM Region Mapping Structure
4 4 parts NFIT Device Handle | @NFIT-handle
8 2 - NVDIMM Physical ID
10 2 dec NVDIMM Region ID
12 2 dec SPA Range Structure Index
14 2 dec NVDIMM Control Region Structure Index
16 8 - NVDIMM Region Size
24 8 - Region Offset
32 8 - NVDIMM Physical Address Region Base
40 2 dec Interleave Structure Index
42 2 dec Interleave Ways
44 2 flags NVDIMM State Flags | 0 SAVE to device failed | 1 RESTORE from device failed | 2 platform flush failed \
    | 3 not armed | 4 SMART health events observed | 5 health events enabled | 6 not mapped
46 2 - Reserved

= NFIT-structure 2 16 Interleave Structure
4 2 dec Interleave Structure Index
6 2 - Reserved
8 4 dec Number of Lines Described
12 4 dec Line Size
16 4[8:4] dec Line Offset

= NFIT-structure 3 8 SMBIOS Management Information Structure
4 4 - Reserved
8 * - Data

= NFIT-structure 4 32 NVDIMM Control Region Structure
4 2 dec NVDIMM Control Region Structure Index
6 2 - Vendor ID
8 2 - Device ID
10 2 - Revision ID
12 2 - Subsystem Vendor ID
14 2 - Subsystem Device ID
16 2 - Subsystem Revision ID
18 1 flags Valid Fields | 0 Manufacturing Location and Date are valid
19 1 - Manufacturing Location
20 2 - Manufacturing Date
22 2 - Reserved
24 4 - Serial Number
28 2 - Region Format Interface Code
30 2 dec Number of Block Control Windows
32 8 - Size of Block Control Window
40 8 - Command Register Offset in Block Control Window
48 8 - Size of Command Register in Block Control Windows
56 8 - Status Register Offset in Block Control Window
64 8 - Size of Status Register in Block Control Windows
72 2 flags NVDIMM Control Region Flag | 0 Block Data Windows implementation is buffered
74 6 - Reserved

= NFIT-structure 5 40 NVDIMM Block Data Window Region Structure
4 2 dec NVDIMM Control Region Structure Index
6 2 dec Number of Block Data Windows
8 8 - Block Data Window Start Offset
16 8 - Size of Block Data Window
24 8 - Block Accessible Memory Capacity
32 8 - Beginning Address of First Block in Block Accessible Memory

= NFIT-structure 6 16 Flush Hint Address Structure
4 4 parts NFIT Device Handle | @NFIT-handle
8 2 dec Number of Flush Hint Addresses
10 6 - Reserved
16 8[8:2] - Flush Hint Address

= NFIT-structure 7 16 Platform Capabilities Structure
4 1 dec Highest Valid Capability
5 3 - Reserved
8 4 flags Capabilities | 0 CPU Cache Flush to NVDIMM Durability on Power Loss Capable \
    | 1 Memory Controller Flush to NVDIMM Durability on Power Loss Capable \
    | 2 Byte Addressable Persistent Memory Hardware Mirroring Capable
12 4 - Reserved

= CEDT * - CXL Early Discovery Table
36 {*} typed 0:1 2:2 CEDT-structure

= CEDT-structure * - what each structure begins with
0 1 - Type
1 1 - Reserved
2 2 dec Record Length

= CEDT-structure 0 32 CXL Host Bridge Structure (CHBS)
4 4 - UID
8 4 codes CXL Version | 0 RCH according to CXL 1.1 | 1 host bridge associated with one or more CXL root ports
12 4 - Reserved
16 8 - Base
24 8 - Length

= CEDT-structure 1 36 CXL Fixed Memory Window Structure (CFMWS)
4 4 - Reserved
8 8 - Base HPA
16 8 - Window Size
24 1 codes Encoded Number of Interleave Ways (ENIW) | 0 1 way | 1 2 ways | 2 4 ways | 3 8 ways | 4 16 ways | 8 3 ways \
    | 9 6 ways | 10 12 ways
25 1 codes Interleave Arithmetic | 0 standard modulo | 1 modulo with XOR
26 2 - Reserved
28 4 codes Host Bridge Interleave Granularity (HBIG) | @CEDT-granularity
32 2 flags Window Restrictions | 0 CXL Type 2 memory | 1 CXL Type 3 memory | 2 volatile | 3 persistent \
    | 4 fixed device configuration
34 2 dec QTG ID
36 4[*] - Interleave Target List

= CEDT-granularity * - Host Bridge Interleave Granularity
0 256 bytes
1 512 bytes
2 1024 bytes
3 2048 bytes
4 4096 bytes
5 8192 bytes
6 16384 bytes

= CEDT-structure 2 8 CXL XOR Interleave Math Structure (CXIMS)
4 2 - Reserved
6 1 codes Host Bridge Interleave Granularity (HBIG) | @CEDT-granularity
7 1 dec Number of Bitmap Entries (NIB)
8 8[7:1] - XORMAP

= CEDT-structure 3 17 RCEC Downstream Port Association Structure (RDPAS)
4 2 dec RCEC Segment Number
6 2 fn RCEC BDF
8 1 codes Protocol Type | 0 CXL.io | 1 CXL.cachemem
9 8 - Base Address
";
