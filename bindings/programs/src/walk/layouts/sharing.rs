// Made by scripts/erase of crates/acpi_dump_walk/src/layouts/sharing.rt, where it is proved.
//! How processors and devices share caches and the bandwidth of memory, and which tables one vendor defines.

/// The ERDT and the MRRM (Intel Resource Director Technology Architecture Specification 1.1).
pub(crate) const SHARING: &str = "
= ERDT * - Enhanced Resource Director Technology Table
36 4 dec Max CLOS
40 24 - Reserved
64 {*} typed 0:2 2:2 ERDT-domain

= ERDT-domain * - what each domain begins with
0 2 - Type
2 2 dec Length

= ERDT-domain 0 34 Resource Management Domain Description (RMDD)
4 2 flags Flags | 0 CPU L3 domain | 1 I/O L3 domain
6 2 dec Number of I/O L3 Slices
8 1 dec Number of I/O L3 Sets
9 1 dec Number of I/O L3 Ways
10 8 - Reserved
18 2 - Domain ID
20 4 dec Max RMID
24 8 - Control Register Base Address
32 2 dec Control Register Size in 4 KB pages
34 {*} typed 0:2 2:2 ERDT-structure

= ERDT-structure * - what each structure begins with
0 2 - Type
2 2 dec Length

= ERDT-structure 1 8 CPU Agent Collection Description (CACD)
4 2 - Reserved
6 2 - Domain ID
8 4[*] - X2APIC ID

= ERDT-structure 2 8 Device Agent Collection Description (DACD)
4 2 - Reserved
6 2 - Domain ID
8 {*} typed 0:1 1:1 ERDT-device

= ERDT-device * - what each device begins with
0 1 - Type
1 1 dec Length
2 2 dec PCI Segment Number
4 1 - Reserved
5 1 - Start Bus Number
6 2[*] path Path

= ERDT-device 1 6 PCI Endpoint Device

= ERDT-device 2 6 PCI Sub-hierarchy

= ERDT-structure 3 48 Cache Monitoring Registers for CPU Agents (CMRC)
with ERDT-registers
24 8 - CMT Register Block Base Address
32 4 dec CMT Register Block Size
36 2 dec CMT Register Clump Size
38 2 dec CMT Register Clump Stride
40 8 - CMT Counter Upscaling Factor

= ERDT-registers * - what registers begin with
4 4 - Reserved
8 4 - Flags
12 1 - Register Indexing Function
13 11 - Reserved

= ERDT-structure 4 56 Memory-bandwidth Monitoring Registers for CPU Agents (MMRC)
with ERDT-registers
24 8 - MBM Register Block Base Address
32 4 dec MBM Register Block Size
36 1 dec MBM Counter Width
37 8 - MBM Counter Upscaling Factor
45 7 - Reserved
52 4 dec Correction Factor List Length
56 4[*] - Correction Factor

= ERDT-structure 5 48 Memory-bandwidth Allocation Registers for CPU Agents (MARC)
4 2 - Reserved
6 2 flags Flags | 0 Optimal Bandwidth | 1 Minimum Bandwidth | 2 Maximum Bandwidth
8 1 - Register Indexing Function
9 7 - Reserved
16 8 - MBA Optimal Bandwidth Register Base Address
24 8 - MBA Minimum Bandwidth Register Base Address
32 8 - MBA Maximum Bandwidth Register Base Address
40 4 dec MBA Register Block Size
44 4 dec MBA Bandwidth Control Window Range

= ERDT-structure 6 4 Cache Allocation Registers for CPU Agents (CARC)

= ERDT-structure 7 48 Cache Monitoring Registers for Device Agents (CMRD)
with ERDT-registers
24 8 - Register Base Address
32 4 dec Register Block Size
36 2 dec CMT Register Offset
38 2 dec CMT Register Clump Size
40 8 - CMT Counter Upscaling Factor

= ERDT-structure 8 64 I/O Bandwidth Monitoring Registers for Device Agents (IBRD)
with ERDT-registers
24 8 - Register Base Address
32 4 dec Register Block Size
36 2 dec Total I/O Bandwidth Register Offset
38 2 dec I/O Miss Bandwidth Register Offset
40 2 dec Total I/O Bandwidth Register Clump Size
42 2 dec I/O Miss Register Clump Size
44 7 - Reserved
51 1 dec I/O Bandwidth Counter Width
52 8 - I/O Bandwidth Counter Upscaling Factor
60 4 dec Correction Factor List Length
64 4[*] - Correction Factor

= ERDT-structure 9 4 I/O Bandwidth Allocation Registers for Device Agents (IBAD)

= ERDT-structure 10 40 Cache Allocation Registers for Device Agents (CARD)
4 4 - Reserved
8 4 flags Flags | 0 Contention Bitmask is valid | 1 Non-contiguous Bitmasks are supported
12 4 - Contention Bitmask
16 1 - Register Indexing Function
17 7 - Reserved
24 8 - Register Base Address
32 4 dec Register Block Size
36 2 dec CAT Register Offset
38 2 dec CAT Register Block Size

= MRRM * - Memory Range and Region Mapping Table
36 1 dec Max Memory Regions Supported
37 1 codes Region Assignment Type | 0 static, by firmware | 1 by the OS
38 26 - Reserved
64 {*} typed 0:2 2:2 MRRM-range

= MRRM-range * - what each range begins with
0 2 - Type
2 2 dec Length

= MRRM-range 0 32 Memory Range
4 4 - Reserved
8 8 - System Address Base
16 8 - System Address Length
24 2 flags Region-ID Flags | 0 Local Region-ID is valid | 1 Remote Region-ID is valid
26 1 dec Static Local Region-ID
27 1 dec Static Remote Region-ID
28 4 - Reserved
32 * - Region-ID Programming Registers
";

/// The CRAT and the VFCT (as Linux's drivers amdkfd and amdgpu declare them: AMD has published neither), the
/// ASPT (AMD Secure Processor ACPI Table 56956), the DTPR (Intel TXT DMA Protection Ranges 0.73), the KEYP
/// (Intel Root Complex IDE Programming Guide), the TDEL (Intel Guest-Host-Communication Interface for TDX)
/// and the SWFT (MIPI DisCo Specification for SoundWire 2.1).
pub(crate) const VENDORS: &str = "
= CRAT * - Component Resource Attribute Table
36 4 dec Total Entries
40 2 dec Number of Domains
42 6 - Reserved
48 {*} typed 0:1 1:1 CRAT-entry

= CRAT-entry * - what each entry begins with
0 1 - Type
1 1 dec Length
2 2 - Reserved

= CRAT-entry 0 40 Compute Unit Affinity
4 4 flags Flags | 0 Enabled | 1 Hot Pluggable | 2 CPU present | 3 GPU present | 4 IOMMU present
8 4 dec Proximity Domain
12 4 - Processor ID Low
16 2 dec Number of CPU Cores
18 2 dec Number of SIMD Cores
20 2 dec Max Waves per SIMD
22 2 dec I/O Count
24 2 - HSA Capability
26 2 dec LDS Size in KB
28 1 dec Wave Front Size
29 1 dec Number of Banks
30 2 - Micro Engine ID
32 1 dec Number of Arrays
33 1 dec Compute Units per Array
34 1 dec SIMDs per Compute Unit
35 1 dec Max Scratch Slots per Compute Unit
36 4 - Reserved

= CRAT-entry 1 40 Memory Affinity
4 4 flags Flags | 0 Enabled | 1 Hot Pluggable | 2 Non-volatile
8 4 dec Proximity Domain
12 8 - Base Address
20 8 - Length
28 4 dec Width
32 8 - Reserved

= CRAT-entry 2 64 Cache Affinity
4 4 flags Flags | @CRAT-cache-flags
8 4 - Processor ID Low
12 32 row Sibling Map
44 4 dec Cache Size
48 1 dec Cache Level
49 1 dec Lines per Tag
50 2 dec Cache Line Size
52 1 dec Associativity
53 1 - Cache Properties
54 2 dec Cache Latency
56 8 - Reserved

= CRAT-cache-flags * - Flags
0 Enabled
1 Data
2 Instructions
3 CPU
4 SIMD

= CRAT-entry 3 64 TLB Affinity
4 4 flags Flags | @CRAT-cache-flags
8 4 - Processor ID Low
12 32 row Sibling Map
44 4 dec TLB Level
48 1 dec Data TLB Associativity, 2 MB
49 1 dec Data TLB Size, 2 MB
50 1 dec Instruction TLB Associativity, 2 MB
51 1 dec Instruction TLB Size, 2 MB
52 1 dec Data TLB Associativity, 4 KB
53 1 dec Data TLB Size, 4 KB
54 1 dec Instruction TLB Associativity, 4 KB
55 1 dec Instruction TLB Size, 4 KB
56 1 dec Data TLB Associativity, 1 GB
57 1 dec Data TLB Size, 1 GB
58 1 dec Instruction TLB Associativity, 1 GB
59 1 dec Instruction TLB Size, 1 GB
60 4 - Reserved

= CRAT-entry 4 64 FPU Affinity
4 4 flags Flags | 0 Enabled
8 4 - Processor ID Low
12 32 row Sibling Map
44 4 dec FPU Size
48 16 - Reserved

= CRAT-entry 5 64 I/O Affinity
4 4 flags Flags | 0 Enabled | 1 Non-coherent | 2 No 32-bit atomics | 3 No 64-bit atomics | 4 No peer-to-peer DMA \
    | 31 Bidirectional
8 4 dec Proximity Domain From
12 4 dec Proximity Domain To
16 1 codes I/O Interface Type | 0 undefined | 1 HyperTransport | 2 PCI Express | 3 AMBA | 4 MIPI | 5 QPI 1.1 \
    | 8 RapidIO | 9 InfiniBand | 11 xGMI | 14 Ethernet RDMA | 15 other RDMA | 16 other
17 1 dec Version Major
18 2 dec Version Minor
20 4 dec Minimum Latency
24 4 dec Maximum Latency
28 4 dec Minimum Bandwidth in MB/s
32 4 dec Maximum Bandwidth in MB/s
36 4 dec Recommended Transfer Size
40 24 - Reserved

= VFCT * - Video Firmware Content Table
36 16 guid Table UUID
52 4 - VBIOS Image Offset
56 4 - Lib1 Image Offset
60 16 - Reserved
if 56:4 0 VFCT-images
if 56:4 1-0xffffffff VFCT-images-before-lib1

= VFCT-images * - images up to the table's end
52:4 {*} own 28+24:4 VFCT-image

= VFCT-images-before-lib1 * - images before the library's
52:4 {~56:4-52:4} own 28+24:4 VFCT-image
56:4 * - Lib1 Image

= VFCT-image * 28 VBIOS Image
0 4 dec PCI Bus
4 4 dec PCI Device
8 4 dec PCI Function
12 2 - Vendor ID
14 2 - Device ID
16 2 - Subsystem Vendor ID
18 2 - Subsystem ID
20 4 - Revision
24 4 dec Image Length
28 24:4 - Image

= ASPT * - AMD Secure Processor Table
36 4 dec Number of Structures
40 {36:4} typed 0:2 2:2 ASPT-structure

= ASPT-structure * - what each structure begins with
0 2 - Type
2 2 dec Length

= ASPT-structure 0 32 ASP Global Registers
4 4 - Reserved
8 8 - Feature Register Address
16 8 - Interrupt Enable Register Address
24 8 - Interrupt Status Register Address

= ASPT-structure 1 32 SEV Mailbox Registers
4 1 dec Mailbox Interrupt ID
5 3 - Reserved
8 8 - CmdResp Register Address
16 8 - CmdBufAddr_Lo Register Address
24 8 - CmdBufAddr_Hi Register Address

= ASPT-structure 2 32 ACPI Mailbox Registers
4 4 - Reserved
8 8 - CmdResp Register Address
16 8[2] - Reserved

= DTPR * - DMA TXT Protection Ranges Table
36 4 - Flags
40 4 dec Instance Count
44 {40:4} own 8+8*4:4 DTPR-instance
then DTPR-serialization

= DTPR-instance * 8 TPR Instance
0 4 - Flags
4 4 dec TPR Count
8 {4:4} each 8 DTPR-range

= DTPR-range * - TPR
0 8 parts TPRn_BASE Register | 3 Read-only | 4 Disabled | 63:20 address in MB

= DTPR-serialization * - Serialization Registers
0 4 dec Serialization Register Count
4 8[0:4] - Serialize Request Register

= KEYP * - Key Programming Interface for Root Complex IDE Table
36 4 - Reserved
40 {*} typed 0:1 2:2 KEYP-structure

= KEYP-structure * - what each structure begins with
0 1 - Type
1 1 - Reserved
2 2 dec Length

= KEYP-structure 0 16 Key Configuration Unit
4 1 codes Protocol Type | 1 PCIe | 2 CXL
5 1 - Version
6 1 dec Root Port Count
7 1 flags Flags | 0 TVM usable
8 8 - Register Base Address
16 {6:1} each 4 KEYP-root-port

= KEYP-root-port * - Root Port
0 2 dec PCI Segment
2 1 - PCI Bus
3 1 parts PCI Device and Function | 7:3 device | 2:0 function

= TDEL * - TD Event Log Table
36 4 - Reserved
40 8 dec Log Area Minimum Length (LAML)
48 8 - Log Area Start Address (LASA)

= SWFT * - SoundWire File Table
36 {*} own 8:4 SWFT-file

= SWFT-file * 12 File
0 2 - Vendor ID
2 4 - File ID
6 2 - File Version
8 4 dec File Length
12 8:4-12 - File Data
";
