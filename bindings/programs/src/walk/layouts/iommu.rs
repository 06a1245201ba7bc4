// Made by scripts/erase of crates/acpi_dump_walk/src/layouts/iommu.rt, where it is proved.
//! Units that translate the addresses of devices.

/// The DMAR (Intel Virtualization Technology for Directed I/O 4.0, chapter 8).
pub(crate) const DMAR: &str = "
= DMAR * - DMA Remapping Reporting Structure
36 1 dec+1 Host Address Width
37 1 flags Flags | 0 INTR_REMAP | 1 X2APIC_OPT_OUT | 2 DMA_CTRL_PLATFORM_OPT_IN_FLAG
38 10 - Reserved
48 {*} typed 0:2 2:2 DMAR-structure

= DMAR-structure * - what each structure begins with
0 2 - Type
2 2 dec Length

= DMAR-structure 0 16 DMA Remapping Hardware Unit Definition (DRHD)
4 1 flags Flags | 0 INCLUDE_PCI_ALL
5 1 - Size
6 2 dec Segment Number
8 8 - Register Base Address
16 {*} typed 0:1 1:1 DMAR-scope

= DMAR-structure 1 24 Reserved Memory Region Reporting (RMRR)
4 2 - Reserved
6 2 dec Segment Number
8 8 - Reserved Memory Region Base Address
16 8 - Reserved Memory Region Limit Address
24 {*} typed 0:1 1:1 DMAR-scope

= DMAR-structure 2 8 Root Port ATS Capability Reporting (ATSR)
4 1 flags Flags | 0 ALL_PORTS
5 1 - Reserved
6 2 dec Segment Number
8 {*} typed 0:1 1:1 DMAR-scope

= DMAR-structure 3 20 Remapping Hardware Static Affinity (RHSA)
4 4 - Reserved
8 8 - Register Base Address
16 4 dec Proximity Domain

= DMAR-structure 4 8 ACPI Name-space Device Declaration (ANDD)
4 3 - Reserved
7 1 dec ACPI Device Number
8 * text ACPI Object Name

= DMAR-structure 5 8 SoC Integrated Address Translation Cache (SATC)
4 1 flags Flags | 0 ATC_REQUIRED
5 1 - Reserved
6 2 dec Segment Number
8 {*} typed 0:1 1:1 DMAR-scope

= DMAR-structure 6 8 SoC Integrated Device Property (SIDP)
4 2 - Reserved
6 2 dec Segment Number
8 {*} typed 0:1 1:1 DMAR-scope

= DMAR-scope * - what each structure begins with
0 1 - Type
1 1 dec Length
2 2 - Reserved
4 1 dec Enumeration ID
5 1 dec Start Bus Number
6 2[*] path Path

= DMAR-scope 1 6 PCI Endpoint Device

= DMAR-scope 2 6 PCI Sub-hierarchy

= DMAR-scope 3 6 IOAPIC

= DMAR-scope 4 6 MSI_CAPABLE_HPET

= DMAR-scope 5 6 ACPI_NAMESPACE_DEVICE
";

/// The IVRS (AMD I/O Virtualization Technology (IOMMU) Specification 3.08, section 5.2).
pub(crate) const IVRS: &str = "
= IVRS * - I/O Virtualization Reporting Structure
36 4 flags IVinfo | 0 EFRSup | 1 DmaRemapSup | 7:5 GVASize | 14:8 PASize | 21:15 VASize | 22 HtAtsResv
40 8 - Reserved
48 {*} typed 0:1 2:2 IVRS-block

= IVRS-block * - what each block begins with
0 1 - Type

= IVRS-block 0x10 24 I/O Virtualization Hardware Definition (IVHD)
1 1 flags Flags | 0 HtTunEn | 1 PassPW | 2 ResPassPW | 3 Isoc | 4 IotlbSup | 5 Coherent | 6 PreFSup | 7 PPRSup
with IVHD
20 4 flags IOMMU Feature Reporting | 0 XTSup | 1 NXSup | 2 GTSup | 4:3 GLXSup | 5 IASup | 6 GASup | 7 HESup \
    | 12:8 PASmax | 16:13 PNCounters | 22:17 PNBanks | 27:23 MsiNumPPR | 29:28 GATS | 31:30 HATS
24 {*} sized 0:1 IVHD-entry

= IVRS-block 0x11 40 I/O Virtualization Hardware Definition (IVHD)
1 1 flags Flags | 0 HtTunEn | 1 PassPW | 2 ResPassPW | 3 Isoc | 4 IotlbSup | 5 Coherent
with IVHD
with IVHD-register
40 {*} sized 0:1 IVHD-entry

= IVRS-block 0x40 40 I/O Virtualization Hardware Definition (IVHD)
1 1 flags Flags | 0 HtTunEn | 1 PassPW | 2 ResPassPW | 3 Isoc | 4 IotlbSup | 5 Coherent
with IVHD
with IVHD-register
40 {*} sized 0:1 IVHD-entry

= IVHD * - what each IVHD has
2 2 dec Length
4 2 fn DeviceID
6 2 - Capability offset
8 8 - IOMMU Base Address
16 2 dec PCI Segment Group
18 2 flags IOMMU info | 4:0 MSInum | 12:8 UnitID

= IVHD-register * - what an IVHD with a register image has
20 4 flags IOMMU Attributes | 16:13 PNCounters | 22:17 PNBanks | 27:23 MsiNumPPR
24 8 - EFR Register Image
32 8 - EFR Register Image 2

= IVHD-entry * - what each device entry begins with
0 1 - Type

= IVHD-settings * - DTE Setting
0 INITPass
1 EIntPass
2 NMIPass
5:4 SysMgt
6 Lint0Pass
7 Lint1Pass

= IVHD-device * - a device
1 2 fn DeviceID
3 1 flags DTE Setting | @IVHD-settings

= IVHD-entry 0x00 4 Padding
1 3 - Reserved

= IVHD-entry 0x01 4 All
1 2 - Reserved
3 1 flags DTE Setting | @IVHD-settings

= IVHD-entry 0x02 4 Select
with IVHD-device

= IVHD-entry 0x03 4 Start of Range
with IVHD-device

= IVHD-entry 0x04 4 End of Range
1 2 fn DeviceID
3 1 - Reserved

= IVHD-entry 0x40 8 Padding
1 7 - Reserved

= IVHD-entry 0x42 8 Alias Select
with IVHD-device
4 1 - Reserved
5 2 fn Source DeviceID
7 1 - Reserved

= IVHD-entry 0x43 8 Alias Start of Range
with IVHD-device
4 1 - Reserved
5 2 fn Source DeviceID
7 1 - Reserved

= IVHD-entry 0x46 8 Extended Select
with IVHD-device
4 4 flags Extended DTE Setting | 31 ATSDisabled

= IVHD-entry 0x47 8 Extended Start of Range
with IVHD-device
4 4 flags Extended DTE Setting | 31 ATSDisabled

= IVHD-entry 0x48 8 Special Device
1 2 - Reserved
3 1 flags DTE Setting | @IVHD-settings
4 1 dec Handle
5 2 fn Source DeviceID
7 1 codes Variety | 1 IOAPIC | 2 HPET

= IVHD-entry 0xf0 22+21:1 ACPI HID Device
with IVHD-device
4 8 text Hardware ID
12 8 text Compatible ID
20 1 codes Unique ID format | 0 none | 1 number | 2 text
21 1 dec Unique ID length
22 21:1 text Unique ID

= IVHD-entry 0x05-0x3f 4 reserved, of 4 bytes

= IVHD-entry 0x41-0x7f 8 reserved, of 8 bytes

= IVHD-entry 0x80-0xbf 16 reserved, of 16 bytes

= IVHD-entry 0xc0-0xef 32 reserved, of 32 bytes

= IVRS-block 0x20 32 I/O Virtualization Memory Definition (IVMD), all peripherals
with IVMD

= IVRS-block 0x21 32 I/O Virtualization Memory Definition (IVMD), specified peripheral
with IVMD

= IVRS-block 0x22 32 I/O Virtualization Memory Definition (IVMD), peripheral range
with IVMD

= IVMD * - what each IVMD has
1 1 flags Flags | 0 Unity | 1 IR | 2 IW | 3 Exclusion Range
2 2 dec Length
4 2 fn DeviceID
6 2 fn Auxiliary Data
8 8 - Reserved
16 8 - IVMD start address
24 8 - IVMD memory block length
";

/// The IORT (Arm DEN0049, E.f), and the VIOT (Virtual I/O Translation Table, version 0).
pub(crate) const IORT: &str = "
= IORT * - I/O Remapping Table
36 4 dec Number of IORT Nodes
40 4 - Offset to Array of IORT Nodes
44 4 - Reserved
48 <40:4 - Padding
40:4 {36:4} typed 0:1 1:2 IORT-node

= IORT-node * - what each node begins with
0 1 - Type
1 2 dec Length
3 1 dec Revision
4 4 - Identifier
8 4 dec Number of ID mappings
12 4 - Reference to ID Array

= IORT-mappings * - the ID array
12:4 {8:4} each 20 IORT-mapping

= IORT-mapping * - ID mapping
0 4 - Input base
4 4 dec+1 Number of IDs
8 4 - Output base
12 4 - Output Reference
16 4 flags Flags | 0 Single mapping

= IORT-memory-access * - Memory access properties
0 4 codes CCA: Cache Coherent Attribute | 0 not coherent | 1 fully coherent
4 1 flags AH: Allocation Hints | 0 TR: transient | 1 WA: write allocate | 2 RA: read allocate \
    | 3 AHO: allocation hints override
5 2 - Reserved
7 1 flags MAF: Memory Access Flags | 0 CPM: coherent path to memory \
    | 1 DACS: device attributes are cacheable and inner shareable | 2 CANWBS

= IORT-node 0 20 ITS Group
16 4 dec Number of ITSs
20 4[16:4] dec GIC ITS Identifier
with IORT-mappings

= IORT-node 1 29 Named component
16 4 flags Node Flags | 0 Stall Supported | 5:1 SubstreamID width
then IORT-memory-access
28 1 dec Device memory address size limit
29 z text Device object name
> <12:4 - Padding
with IORT-mappings

= IORT-node 2 32 Root complex
if 0:1 2 IORT-memory-access-16
24 4 flags ATS attribute | 0 ATS Supported | 1 PRI Supported | 2 PASID forwarding supported
28 4 dec PCI Segment number
32 1 dec Memory address size limit
if 3:1 0-2 IORT-root-complex-2
if 3:1 3-255 IORT-root-complex-3
if 3:1 4-255 IORT-root-complex-4
with IORT-mappings

= IORT-memory-access-16 * - Memory access properties after the node's head
then IORT-memory-access

= IORT-root-complex-2 * - up to revision 2
33 3 - Reserved

= IORT-root-complex-3 * - since revision 3
33 2 flags PASID capabilities | 4:0 Max PASID width
35 1 - Reserved

= IORT-root-complex-4 * - since revision 4
36 4 - Flags

= IORT-node 3 60 SMMUv1 or SMMUv2
16 8 - Base address
24 8 - Span
32 4 codes Model | 0 Generic SMMUv1 | 1 Generic SMMUv2 | 2 Arm Corelink MMU-400 | 3 Arm Corelink MMU-500 \
    | 4 Arm Corelink MMU-401 | 5 Cavium ThunderX SMMUv2
36 4 flags Flags | 0 DVM Supported | 1 Coherent page table walk supported
40 4 - Reference to Global Interrupt Array
44 4 dec Number of context interrupts
48 4 - Reference to Context Interrupt Array
52 4 dec Number of PMU Interrupts
56 4 - Reference to PMU Interrupt Array
40:4 {1} each 16 IORT-global-interrupts
48:4 8[44:4] - Context interrupt
56:4 8[52:4] - PMU Interrupt
with IORT-mappings

= IORT-global-interrupts * - Global interrupt array
0 4 dec SMMU_NSgIrpt
4 4 codes SMMU_NSgIrpt interrupt flags | 0 level-triggered | 1 edge-triggered
8 4 dec SMMU_NSgCfgIrpt
12 4 codes SMMU_NSgCfgIrpt interrupt flags | 0 level-triggered | 1 edge-triggered

= IORT-node 4 60 SMMUv3
16 8 - Base Address
24 4 flags Flags | 0 COHACC Override | 2:1 HTTU Override | 3 Proximity Domain Valid | 4 DeviceID mapping index valid
28 4 - Reserved
32 8 - VATOS Address
40 4 codes Model | 0 Generic SMMUv3 | 1 HiSilicon Hi161x SMMUv3 | 2 Cavium CN99xx SMMUv3
44 4 dec Event
48 4 dec PRI
52 4 dec GERR
56 4 dec Sync
60 4 dec Proximity domain
64 4 dec DeviceID mapping index
with IORT-mappings

= IORT-node 5 32 PMCG
16 8 - Page 0 Base Address
24 4 dec Overflow Interrupt GSIV
28 4 - Node reference
32 8 - Page 1 Base Address
with IORT-mappings

= IORT-node 6 28 Reserved Memory Range (RMR)
16 4 flags Flags | 0 Remapping permitted | 1 Access privileged | 9:2 Access attributes
20 4 dec Number of Memory Range Descriptors
24 4 - Reference to Memory Range Descriptor Array
with IORT-mappings
24:4 {20:4} each 20 IORT-range

= IORT-range * - Memory Range Descriptor
0 8 - Physical Range offset
8 8 - Physical Range length
16 4 - Reserved

= VIOT * - Virtual I/O Translation Table
36 2 dec Node count
38 2 dec Node offset
40 8 - Reserved
38:2 {36:2} typed 0:1 2:2 VIOT-node

= VIOT-node * - what each node begins with
0 1 - Type
1 1 - Reserved
2 2 dec Length

= VIOT-node 1 24 PCI Range
4 4 - Endpoint start
8 2 dec PCI Segment start
10 2 dec PCI Segment end
12 2 fn PCI BDF start
14 2 fn PCI BDF end
16 2 dec Output node
18 6 - Reserved

= VIOT-node 2 24 Single MMIO endpoint
4 4 - Endpoint ID
8 8 - Base address
16 2 dec Output node
18 6 - Reserved

= VIOT-node 3 16 virtio-iommu based on virtio-pci
4 2 dec PCI Segment
6 2 fn PCI BDF number
8 8 - Reserved

= VIOT-node 4 16 virtio-iommu based on virtio-mmio
4 4 - Reserved
8 8 - Base address
";
