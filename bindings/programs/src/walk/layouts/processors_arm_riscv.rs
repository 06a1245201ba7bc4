// Made by scripts/erase of crates/acpi_dump_walk/src/layouts/processors_arm_riscv.rt, where it is proved.
//! Tables of Arm and RISC-V machines.

/// Tables of Arm machines: the AEST (Arm DEN0085, revision 1), the AGDI (Arm DEN0093), the APMT (Arm DEN0117), the
/// MPAM (Arm DEN0065, 2.0) and the SDEI (Arm DEN0054, which has no fields); and the RHCT of RISC-V (RISC-V Hart
/// Capabilities Table, ACPI 6.6).
pub(crate) const MACHINES: &str = "
= SDEI * - Software Delegated Exceptions Interface Table

= AEST * - Arm Error Source Table
36 {*} typed 0:1 1:2 AEST-node

= AEST-node * - what each node begins with
0 1 - Type
1 2 dec Length
3 1 - Reserved
4 4 dec Offset to node-specific data
8 4 dec Offset to node interface
12 4 dec Offset to node interrupt array
16 4 dec Node interrupt array size
20 8 dec Timestamp rate
28 8 - Reserved
36 8 dec Error injection countdown rate

= AEST-node 0 44 Processor error node
4:4 {1} each 16 AEST-processor
with AEST-rest

= AEST-processor * - Processor node data
0 4 dec ACPI Processor ID
4 1 codes Resource type | 0 cache | 1 TLB | 2 generic
5 1 - Reserved
6 1 flags Flags | 0 Global | 1 Shared
7 1 - Revision
8 8 - Processor affinity

= AEST-node 1 44 Memory error node
4:4 {1} each 4 AEST-memory
with AEST-rest

= AEST-memory * - Memory controller node data
0 4 dec Proximity Domain

= AEST-node 2 44 SMMU error node
4:4 {1} each 8 AEST-smmu
with AEST-rest

= AEST-smmu * - SMMU node data
0 4 - IORT node reference
4 4 - Subcomponent reference

= AEST-node 3 44 Vendor-defined error node
4:4 {1} each 24 AEST-vendor
with AEST-rest

= AEST-vendor * - Vendor-defined node data
0 4 - Hardware ID
4 4 - Unique ID
8 16 - Vendor-specific data

= AEST-node 4 44 GIC error node
4:4 {1} each 8 AEST-gic
with AEST-rest

= AEST-gic * - GIC node data
0 4 codes Interface type | 0 GIC CPU | 1 GIC Distributor | 2 GIC Redistributor | 3 GIC ITS
4 4 - Instance identifier

= AEST-rest * - interface and interrupts of a node
8:4 {1} each 48 AEST-interface
12:4 {16:4} each 12 AEST-interrupt

= AEST-interface * - Node interface
0 1 codes Interface Type | 0 System register | 1 Memory-mapped
1 3 - Reserved
4 4 flags Flags | 0 Shared interface | 1 Clear MISCx after an error is handled
8 8 - Base address
16 4 dec Start error record index
20 4 dec Number of error records
24 8 - Error records implemented
32 8 - Error group-based status reporting supported
40 8 - Addressing mode

= AEST-interrupt * - Node interrupt
0 1 codes Interrupt type | 0 Fault Handling Interrupt | 1 Error Recovery Interrupt
1 2 - Reserved
3 1 flags Interrupt flags | 0 level-triggered
4 4 dec Interrupt GSIV
8 1 - ID
9 3 - Reserved

= AGDI * - Arm Generic Diagnostic Dump and Reset Device Interface
36 1 flags Flags | 0 signalled by an interrupt
37 3 - Reserved
40 4 dec SDEI Event Number
44 4 dec GSIV

= APMT * - Arm Performance Monitoring Unit Table
36 {*} own 0:2 APMT-node

= APMT-node * 56 Performance Monitoring Unit node
0 2 dec Node length
2 1 flags Node flags | 0 Dual-page extension | 1 Processor affinity is of a container | 2 64-bit single-copy atomic
3 1 codes Node type | 0 Memory controller | 1 SMMU | 2 PCIe root complex | 3 ACPI device | 4 CPU cache
4 4 - Identifier
8 8 - Node instance primary
16 4 - Node instance secondary
20 8 - Base address 0
28 8 - Base address 1
36 4 dec Overflow interrupt
40 4 - Reserved
44 4 flags Overflow interrupt flags | 0 edge-triggered
48 4 - Processor affinity
52 4 - Implementation ID

= MPAM * - Memory System Resource Partitioning and Monitoring Table
36 {*} own 0:2 MPAM-node

= MPAM-node * 72 Memory System Component (MSC) node
0 2 dec Length
2 1 codes Interface type | 0 memory-mapped | 10 PCC
3 1 - Reserved
4 4 - Identifier
8 8 - Base address
16 4 dec MMIO size
20 4 dec Overflow interrupt
24 4 - Overflow interrupt flags
28 4 - Reserved
32 4 - Overflow interrupt affinity
36 4 dec Error interrupt
40 4 - Error interrupt flags
44 4 - Reserved
48 4 - Error interrupt affinity
52 4 dec MAX_NRDY_USEC
56 8 text Hardware ID of linked device
64 4 - Instance ID of linked device
68 4 dec Number of resource nodes
72 {68:4} own 24+8*20:4 MPAM-resource

= MPAM-resource * 24 Resource node
0 4 - Identifier
4 1 dec RIS Index
5 2 - Reserved
7 1 codes Locator type | 0 Processor cache | 1 Memory | 2 SMMU | 3 Memory cache | 4 ACPI device | 5 Interconnect \
    | 0xff Unknown
if 7:1 0 MPAM-cache
if 7:1 1 MPAM-memory
if 7:1 2 MPAM-smmu
if 7:1 3 MPAM-memory-cache
if 7:1 4 MPAM-device
if 7:1 5 MPAM-interconnect
if 7:1 6-0xff MPAM-unknown
20 4 dec Number of functional dependencies
24 {20:4} each 8 MPAM-dependency

= MPAM-cache * - locator of a processor cache
8 8 - Cache reference
16 4 - Reserved

= MPAM-memory * - locator of memory
8 8 - Proximity domain
16 4 - Reserved

= MPAM-smmu * - locator of an SMMU
8 8 - SMMU interface
16 4 - Reserved

= MPAM-memory-cache * - locator of a memory cache
8 7 - Reserved
15 1 dec Level
16 4 - Reference

= MPAM-device * - locator of an ACPI device
8 8 text ACPI hardware ID
16 4 - ACPI unique ID

= MPAM-interconnect * - locator of an interconnect
8 8 - Interconnect descriptor table offset
16 4 - Reserved

= MPAM-unknown * - another locator
8 12 - Locator

= MPAM-dependency * - Functional dependency
0 4 - Producer
4 4 - Reserved

= RHCT * - RISC-V Hart Capabilities Table
36 4 flags Flags | 0 Timer cannot wake the processor
40 8 dec Time Base Frequency
48 4 dec Number of RHCT nodes
52 4 - Offset to the RHCT node array
52:4 {48:4} typed 0:2 2:2 RHCT-node

= RHCT-node * - what each node begins with
0 2 - Type
2 2 dec Length
4 2 - Revision

= RHCT-node 0 8 ISA String Node
6 2 dec ISA Length
8 6:2 text ISA string

= RHCT-node 1 10 Cache Management Operation (CMO) Extension Node
6 1 - Reserved
7 1 dec CBOM Block size
8 1 dec CBOP Block size
9 1 dec CBOZ Block size

= RHCT-node 2 8 MMU Node
6 1 - Reserved
7 1 codes MMU Type | 0 Sv39 | 1 Sv48 | 2 Sv57

= RHCT-node 0xffff 12 Hart Info Node
6 2 dec Number of Offsets
8 4 dec ACPI Processor UID
12 4[6:2] - Offset
";
