// Made by scripts/erase of crates/acpi_dump_walk/src/layouts/localities.rt, where it is proved.
//! The SRAT, the SLIT, the MSCT and the HMAT (ACPI 6.5).

/// The SRAT (section 5.2.16), the SLIT (5.2.17), the MSCT (5.2.19) and the HMAT (5.2.29, whose
/// revision 1 is that of ACPI 6.2).
pub(crate) const LOCALITIES: &str = "
= SRAT * - System Resource Affinity Table
36 4 - Reserved
40 8 - Reserved
48 {*} typed 0:1 1:1 SRAT-entry

= SRAT-entry * - what each structure begins with
0 1 - Type
1 1 dec Length

= SRAT-entry 0 16 Processor Local APIC/SAPIC Affinity
2 1 dec Proximity Domain [7:0]
3 1 dec APIC ID
4 4 flags Flags | 0 Enabled
8 1 dec Local SAPIC EID
9 3 dec Proximity Domain [31:8]
12 4 dec Clock Domain

= SRAT-entry 1 40 Memory Affinity
2 4 dec Proximity Domain
6 2 - Reserved
8 8 - Base Address
16 8 - Length
24 4 - Reserved
28 4 flags Flags | 0 Enabled | 1 Hot Pluggable | 2 NonVolatile
32 8 - Reserved

= SRAT-entry 2 24 Processor Local x2APIC Affinity
2 2 - Reserved
4 4 dec Proximity Domain
8 4 dec X2APIC ID
12 4 flags Flags | 0 Enabled
16 4 dec Clock Domain
20 4 - Reserved

= SRAT-entry 3 18 GICC Affinity
2 4 dec Proximity Domain
6 4 dec ACPI Processor UID
10 4 flags Flags | 0 Enabled
14 4 dec Clock Domain

= SRAT-entry 4 12 GIC Interrupt Translation Service (ITS) Affinity
2 4 dec Proximity Domain
6 2 - Reserved
8 4 dec ITS ID

= SRAT-entry 5 32 Generic Initiator Affinity
then SRAT-device

= SRAT-entry 6 32 Generic Port Affinity
then SRAT-device

= SRAT-device * - by offsets after the type and the length
0 1 - Reserved
1 1 codes Device Handle Type | 0 ACPI | 1 PCI
2 4 dec Proximity Domain
6 16 - Device Handle
22 4 flags Flags | 0 Enabled | 1 Architectural Transactions
26 4 - Reserved

= SRAT-entry 7 20 RINTC Affinity
2 2 - Reserved
4 4 dec Proximity Domain
8 4 dec ACPI Processor UID
12 4 flags Flags | 0 Enabled
16 4 dec Clock Domain

= SLIT * - System Locality Information Table
36 8 dec Number of System Localities
44 36:8[36:8] row Entry from locality

= MSCT * - Maximum System Characteristics Table
36 4 - Offset to Proximity Domain Information Structure
40 4 dec Maximum Number of Proximity Domains
44 4 dec Maximum Number of Clock Domains
48 8 - Maximum Physical Address
36:4 {*} own 1:1 MSCT-domain

= MSCT-domain * 22 Maximum Proximity Domain Information Structure
0 1 - Revision
1 1 dec Length
2 4 dec Proximity Domain Range (low)
6 4 dec Proximity Domain Range (high)
10 4 dec Maximum Processor Capacity
14 8 - Maximum Memory Capacity

= HMAT * - Heterogeneous Memory Attribute Table
36 4 - Reserved
if 8:1 0-1 HMAT-1
if 8:1 2-255 HMAT-2

= HMAT-1 * - revision 1
40 {*} typed 0:2 4:4 HMAT-entry-1

= HMAT-2 * - revision 2
40 {*} typed 0:2 4:4 HMAT-entry

= HMAT-entry * - what each structure begins with
0 2 - Type
2 2 - Reserved
4 4 dec Length

= HMAT-entry-1 * - what each structure begins with
0 2 - Type
2 2 - Reserved
4 4 dec Length

= HMAT-entry-1 0 40 Memory Subsystem Address Range Structure
8 2 flags Flags | 0:0/0 Processor Proximity Domain field isn't valid | 0:0/1 Processor Proximity Domain field is valid \
    | 1:1/0 Memory Proximity Domain field isn't valid | 1:1/1 Memory Proximity Domain field is valid \
    | 2 Reservation hint
10 2 - Reserved
12 4 dec Processor Proximity Domain
16 4 dec Memory Proximity Domain
20 4 - Reserved
24 8 - System Physical Address Range Base
32 8 - System Physical Address Range Length

= HMAT-entry-1 1 32 System Locality Latency and Bandwidth Information Structure
8 1 flags Flags | @HMAT-hierarchy
9 1 codes Data Type | @HMAT-data-types
10 2 - Reserved
12 4 dec Number of Initiator Proximity Domains
16 4 dec Number of Target Proximity Domains
20 4 - Reserved
24 8 dec Entry Base Unit
32 4[12:4] dec Initiator Proximity Domain List
> 4[16:4] dec Target Proximity Domain List
> 2[12:4*16:4] dec Entry

= HMAT-entry-1 2 32 Memory Side Cache Information Structure
8 4 dec Memory Proximity Domain
12 4 - Reserved
16 8 dec Memory Side Cache Size
24 4 flags Cache Attributes | @HMAT-cache-attributes
28 2 - Reserved
30 2 dec Number of SMBIOS handles
32 2[30:2] - SMBIOS Handle

= HMAT-hierarchy * - Memory Hierarchy
3:0/0 Memory
3:0/1 First level memory side cache
3:0/2 Second level memory side cache
3:0/3 Third level memory side cache
4 Minimum transfer size to achieve values
5 Non-sequential transfers

= HMAT-data-types * - Data Type
0 Access Latency
1 Read Latency
2 Write Latency
3 Access Bandwidth
4 Read Bandwidth
5 Write Bandwidth

= HMAT-cache-attributes * - Cache Attributes
3:0 Total Cache Levels
7:4 Cache Level
11:8/0 Associativity None
11:8/1 Direct Mapped
11:8/2 Complex Cache Indexing
15:12/0 Write Policy None
15:12/1 Write Back
15:12/2 Write Through
31:16 Cache Line size

= HMAT-entry 0 40 Memory Proximity Domain Attributes Structure
8 2 flags Flags | 0:0/0 Proximity Domain for the Attached Initiator isn't valid \
    | 0:0/1 Proximity Domain for the Attached Initiator is valid
10 2 - Reserved
12 4 dec Proximity Domain for the Attached Initiator
16 4 dec Proximity Domain for the Memory
20 4 - Reserved
24 8 - Reserved
32 8 - Reserved

= HMAT-entry 1 32 System Locality Latency and Bandwidth Information Structure
8 1 flags Flags | @HMAT-hierarchy
9 1 codes Data Type | @HMAT-data-types
10 1 dec MinTransferSize
11 1 - Reserved
12 4 dec Number of Initiator Proximity Domains
16 4 dec Number of Target Proximity Domains
20 4 - Reserved
24 8 dec Entry Base Unit
32 4[12:4] dec Initiator Proximity Domain List
> 4[16:4] dec Target Proximity Domain List
> 2[12:4*16:4] dec Entry

= HMAT-entry 2 32 Memory Side Cache Information Structure
8 4 dec Memory Proximity Domain
12 4 - Reserved
16 8 dec Memory Side Cache Size
24 4 flags Cache Attributes | @HMAT-cache-attributes
28 2 codes Address Mode | 0 not specified | 1 extended linear
30 2 dec Number of SMBIOS handles
32 2[30:2] - SMBIOS Handle
";
