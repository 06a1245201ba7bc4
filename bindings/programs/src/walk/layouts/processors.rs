// Made by scripts/erase of crates/acpi_dump_walk/src/layouts/processors.rt, where it is proved.
//! Processors: their topology, their idle states, and the channels to what controls the platform.

/// The PPTT (ACPI 6.5, section 5.2.30), the LPIT (Intel Low Power S0 Idle), the PCCT (chapter 14), the
/// PDTT (section 5.2.29) and the CSRT (Microsoft: Core System Resources Table).
pub(crate) const PROCESSORS: &str = "
= PPTT * - Processor Properties Topology Table
36 {*} typed 0:1 1:1 PPTT-node

= PPTT-node * - what each structure begins with
0 1 - Type
1 1 dec Length
2 2 - Reserved

= PPTT-node 0 20 Processor hierarchy node structure
4 4 flags Flags | 0 Physical package | 1 ACPI Processor ID valid | 2 Processor is a Thread | 3 Node is a Leaf \
    | 4 Identical Implementation
8 4 - Parent
12 4 dec ACPI Processor ID
16 4 dec Number of private resources
20 4[16:4] - Private resource

= PPTT-node 1 24 Cache Type Structure
4 4 flags Flags | 0 Size property valid | 1 Number of sets valid | 2 Associativity valid | 3 Allocation type valid \
    | 4 Cache type valid | 5 Write policy valid | 6 Line size valid | 7 Cache ID valid
8 4 - Next Level of Cache
12 4 dec Size
16 4 dec Number of sets
20 1 dec Associativity
if 4:4 !0x38 PPTT-unstated
21 1 flags Attributes | 1:0/0 read allocate | 1:0/1 write allocate | 1:0/2 read and write allocate \
    | 1:0/3 read and write allocate | 3:2/0 data | 3:2/1 instruction | 3:2/2 unified | 3:2/3 unified \
    | 4:4/0 write back | 4:4/1 write through
22 2 dec Line size
24 4 - Cache ID

= PPTT-unstated * - of a cache whose flags have none of the attributes as valid
21 1 - Attributes

= PPTT-node 2 30 ID structure
4 4 text VENDOR_ID
8 8 - LEVEL_1_ID
16 8 - LEVEL_2_ID
24 2 dec MAJOR_REV
26 2 dec MINOR_REV
28 2 dec SPIN_REV

= LPIT * - Low Power Idle Table
36 {*} typed 0:4 4:4 LPIT-state

= LPIT-state * - what each structure begins with
0 4 - Type
4 4 dec Length

= LPIT-state 0 56 Native C-state Instruction based LPI structure
8 2 dec Unique ID
10 2 - Reserved
12 4 flags Flags | 0 Disabled | 1 Counter Not Available
16 12 gas Entry Trigger
28 4 dec Residency
32 4 dec Latency
36 12 gas Residency Counter
48 8 dec Residency Counter Frequency

= PCCT * - Platform Communications Channel Table
36 4 flags Flags | 0 Platform Interrupt
40 8 - Reserved
48 {*} typed 0:1 1:1 PCCT-subspace

= PCCT-subspace * - what each structure begins with
0 1 - Type
1 1 dec Length

= PCCT-subspace 0 62 Generic Communications Subspace
2 6 - Reserved
with PCCT-memory

= PCCT-memory * - memory, doorbell and timing of types 0 to 2
8 8 - Base Address
16 8 - Length
24 12 gas Doorbell Register
36 8 - Doorbell Preserve
44 8 - Doorbell Write
52 4 dec Nominal Latency
56 4 dec Maximum Periodic Access Rate
60 2 dec Minimum Request Turnaround Time

= PCCT-interrupt * - interrupt of types 1 to 4
2 4 dec Platform Interrupt
6 1 flags Platform Interrupt Flags | 0 active low | 1 edge-triggered
7 1 - Reserved

= PCCT-subspace 1 62 HW-Reduced Communications Subspace
with PCCT-interrupt
with PCCT-memory

= PCCT-subspace 2 90 HW-Reduced Communications Subspace Type 2
with PCCT-interrupt
with PCCT-memory
62 12 gas Platform Interrupt Ack Register
74 8 - Platform Interrupt Ack Preserve
82 8 - Platform Interrupt Ack Write

= PCCT-subspace 3 164 Extended PCC Subspace, initiator
with PCCT-extended

= PCCT-subspace 4 164 Extended PCC Subspace, responder
with PCCT-extended

= PCCT-extended * - types 3 and 4
with PCCT-interrupt
8 8 - Base Address
16 4 - Memory Range Length
20 12 gas Doorbell Register
32 8 - Doorbell Preserve
40 8 - Doorbell Write
48 4 dec Nominal Latency
52 4 dec Maximum Periodic Access Rate
56 4 dec Minimum Request Turnaround Time
60 12 gas Platform Interrupt Ack Register
72 8 - Platform Interrupt Ack Preserve
80 8 - Platform Interrupt Ack Set Mask
88 8 - Reserved
96 12 gas Command Complete Check Register Address
108 8 - Command Complete Check Mask
116 12 gas Command Update Register Address
128 8 - Command Update Preserve mask
136 8 - Command Update Set mask
144 12 gas Error Status Register
156 8 - Error Status Mask

= PCCT-subspace 5 96 HW Registers based Communications Subspace
2 2 - Version
4 8 - Base Address
12 8 - Shared Memory Range Length
20 12 gas Doorbell Register
32 8 - Doorbell Preserve
40 8 - Doorbell Write
48 12 gas Command Complete Check Register
60 8 - Command Complete Check Mask
68 12 gas Error Status Register
80 8 - Error Status Mask
88 4 dec Nominal Latency
92 4 dec Minimum Request Turnaround Time

= PDTT * - Platform Debug Trigger Table
36 1 dec Trigger Count
37 3 - Reserved
40 4 dec Trigger Identifier Array Offset
40:4 {36:1} each 2 PDTT-trigger

= PDTT-trigger * - PDTT Platform Communication Channel Identifier
0 1 - PDTT PCC Sub Channel Identifier
1 1 flags Flags | 0 Runtime | 1 Wait for Completion | 2 Trigger Order

= CSRT * - Core System Resources Table
36 {*} own 0:4 CSRT-group

= CSRT-group * 24 Resource Group
0 4 dec Length
4 4 text Vendor ID
8 4 - Subvendor ID
12 2 - Device ID
14 2 - Subdevice ID
16 2 - Revision
18 2 - Reserved
20 4 dec Shared Info Length
if 20:4 28 CSRT-dma
if 20:4 0-27 CSRT-shared
if 20:4 29-0xffffffff CSRT-shared
> {*} own 0:4 CSRT-descriptor

= CSRT-dma * - shared information of DMA controllers
24 2 - Major Version
26 2 - Minor Version
28 4 - MMIO Base Address Low
32 4 - MMIO Base Address High
36 4 dec GSI Interrupt
40 1 - Interrupt Polarity
41 1 - Interrupt Mode
42 1 dec Number of Channels
43 1 dec DMA Address Width
44 2 dec Base Request Line
46 2 dec Number of Handshake Signals
48 4 dec Maximum Block Transfer Size

= CSRT-shared * - other shared information
24 20:4 - Shared Info

= CSRT-descriptor * 12 Resource Descriptor
0 4 dec Length
4 2 codes Type | 1 interrupt | 2 timer | 3 DMA
6 2 - Subtype
8 4 text UID
";
