// Made by scripts/erase of crates/acpi_dump_walk/src/layouts/remapping.rt, where it is proved.
//! What remaps devices on RISC-V and LoongArch, and what a machine boots from over a network.

/// The RIMT (RISC-V I/O Mapping Table 1.0) and the IOVT (LoongArch I/O Virtualization Table 0.1).
pub(crate) const REMAPPING: &str = "
= RIMT * - RISC-V I/O Mapping Table
36 4 dec Number of RIMT Nodes
40 4 - Offset to RIMT Node Array
44 4 - Reserved
48 <40:4 - Padding
40:4 {36:4} typed 0:1 2:2 RIMT-node

= RIMT-node * - what each node begins with
0 1 - Type
1 1 dec Revision
2 2 dec Length
4 2 - Reserved
6 2 - ID

= RIMT-node 0 40 IOMMU
8 8 text Hardware ID
16 8 - Base Address
24 4 flags Flags | 0 PCIe device | 1 Proximity Domain is valid
28 4 dec Proximity Domain
32 2 dec PCIe Segment Number
34 2 fn PCIe B/D/F
36 2 dec Number of Interrupt Wires
38 2 - Interrupt Wire Array Offset
38:2 {36:2} each 8 RIMT-wire

= RIMT-wire * - Interrupt Wire
0 4 dec Interrupt Number
4 4 flags Flags | 0/0 edge-triggered | 0/1 level-triggered | 1/0 active low | 1/1 active high

= RIMT-mapping * - ID Mapping
0 4 - Source ID Base
4 4 dec Number of IDs
8 4 - Destination Device ID Base
12 4 - Destination IOMMU Offset
16 4 flags Flags | 0 ATS Required | 1 PRI Required

= RIMT-node 1 20 PCIe Root Complex
8 4 flags Flags | 0 ATS Supported | 1 PRI Supported
12 2 - Reserved
14 2 dec PCIe Segment Number
16 2 - ID Mapping Array Offset
18 2 dec Number of ID Mappings
16:2 {18:2} each 20 RIMT-mapping

= RIMT-node 2 12 Platform Device
8 2 - ID Mapping Array Offset
10 2 dec Number of ID Mappings
12 z text Device Object Name
> <8:2 - Padding
8:2 {10:2} each 20 RIMT-mapping

= IOVT * - I/O Virtualization Table
36 2 dec IOMMU Count
38 2 - IOMMU Offset
40 8 - Reserved
38:2 {36:2} typed 0:2 2:2 IOVT-unit

= IOVT-unit * - what each unit begins with
0 2 - Type
2 2 dec Length

= IOVT-unit 0 64 IOMMU version 1
4 4 flags Flags | 0 PCI Device | 1 Proximity Domain is valid | 2 Manageable Devices Range | 3 HW Capability Supported \
    | 4 MSI Interrupt Address
8 2 dec PCI Segment Number
10 2 dec Physical Address Width
12 2 dec Virtual Address Width
14 2 dec Max Page Level
16 8 - Page Size Supported
24 4 - IOMMU DeviceID
28 8 - IOMMU Base Address
36 4 dec IOMMU Register Size
40 1 - Interrupt Type
41 3 - Reserved
44 4 dec Global System Interrupt
48 4 dec Proximity Domain
52 4 dec Max Device Number
56 4 dec Number of Device Entries
60 4 - Offset of Device Entries
60:4 {56:4} typed 0:1 1:1 IOVT-device

= IOVT-device * - what each device begins with
0 1 - Type
1 1 dec Length
2 1 - Flags
3 3 - Reserved
6 2 fn DeviceID

= IOVT-device 0 8 A single PCI device

= IOVT-device 1 8 Start of range

= IOVT-device 2 8 End of range
";

/// The IBFT (Microsoft: iSCSI Boot Firmware Table 1.01) and the NBFT (NVM Express Boot Specification 1.0). What their
/// references of texts point to isn't shown by itself.
pub(crate) const NETWORK: &str = "
= IBFT * - iSCSI Boot Firmware Table
36 12 - Reserved
48 {1} typed 0:1 2:2 IBFT-structure
if 56:2 1-0xffff IBFT-initiator
if 58:2 1-0xffff IBFT-NIC-0
if 60:2 1-0xffff IBFT-target-0
if 62:2 1-0xffff IBFT-NIC-1
if 64:2 1-0xffff IBFT-target-1

= IBFT-initiator * - where the Initiator is
56:2 {1} typed 0:1 2:2 IBFT-structure

= IBFT-NIC-0 * - where NIC 0 is
58:2 {1} typed 0:1 2:2 IBFT-structure

= IBFT-target-0 * - where Target 0 is
60:2 {1} typed 0:1 2:2 IBFT-structure

= IBFT-NIC-1 * - where NIC 1 is
62:2 {1} typed 0:1 2:2 IBFT-structure

= IBFT-target-1 * - where Target 1 is
64:2 {1} typed 0:1 2:2 IBFT-structure

= IBFT-structure * - what each structure begins with
0 1 - Structure ID
1 1 - Version
2 2 dec Length
4 1 dec Index

= IBFT-structure 1 18 Control
5 1 flags Flags | 0 Boot Failover
6 2 - Extensions
8 2 - Initiator Offset
10 2 - NIC 0 Offset
12 2 - Target 0 Offset
14 2 - NIC 1 Offset
16 2 - Target 1 Offset
18 * - Further offsets

= IBFT-structure 2 74 Initiator
5 1 flags Flags | 0 Block Valid | 1 Firmware Boot Selected
6 16 row iSNS Server
22 16 row SLP Server
38 16 row Primary Radius Server
54 16 row Secondary Radius Server
70 2 dec Initiator Name Length
72 2 - Initiator Name Offset

= IBFT-structure 3 102 NIC
5 1 flags Flags | 0 Block Valid | 1 Firmware Boot Selected | 2 Global
6 16 row IP Address
22 1 dec Subnet Mask Prefix
23 1 codes Origin | 0 other | 1 manual | 2 well-known | 3 DHCP | 4 router advertisement | 15 unchanged
24 16 row Gateway
40 16 row Primary DNS
56 16 row Secondary DNS
72 16 row DHCP
88 2 dec VLAN
90 6 row MAC Address
96 2 fn PCI Bus/Dev/Func
98 2 dec Host Name Length
100 2 - Host Name Offset

= IBFT-structure 4 54 Target
5 1 flags Flags | 0 Block Valid | 1 Firmware Boot Selected | 2 Use Radius CHAP | 3 Use Radius rCHAP
6 16 row Target IP Address
22 2 dec Target IP Socket
24 8 row Target Boot LUN
32 1 codes CHAP Type | 0 no CHAP | 1 CHAP | 2 mutual CHAP
33 1 dec NIC Association
34 2 dec Target Name Length
36 2 - Target Name Offset
38 2 dec CHAP Name Length
40 2 - CHAP Name Offset
42 2 dec CHAP Secret Length
44 2 - CHAP Secret Offset
46 2 dec Reverse CHAP Name Length
48 2 - Reverse CHAP Name Offset
50 2 dec Reverse CHAP Secret Length
52 2 - Reverse CHAP Secret Offset

= NBFT * - NVMe Boot Firmware Table
36 4 - Heap Offset
40 4 dec Heap Length
44 4 - Driver Device Path Signature Offset
48 2 dec Driver Device Path Signature Length
50 1 dec Minor Revision
51 13 - Reserved
64 {1} each 64 NBFT-control
if 72:4 1-0xffffffff NBFT-host
if 87:1 1-255 NBFT-interfaces
if 95:1 1-255 NBFT-namespaces
if 103:1 1-255 NBFT-securities
if 111:1 1-255 NBFT-discoveries

= NBFT-control * - Control
0 1 - Structure ID
1 1 dec Major Revision
2 1 dec Minor Revision
3 1 - Reserved
4 2 dec Control Structure Length
6 1 flags Flags | 0 Structure Valid
7 1 - Reserved
8 4 - Host Descriptor Offset
12 2 dec Host Descriptor Length
14 1 - Host Descriptor Version
15 1 - Reserved
16 4 - HFI Descriptor List Offset
20 2 dec HFI Descriptor Length
22 1 - HFI Descriptor Version
23 1 dec Number of Host Fabric Interfaces
24 4 - Subsystem Namespace Descriptor List Offset
28 2 dec Subsystem Namespace Descriptor Length
30 1 - Subsystem Namespace Descriptor Version
31 1 dec Number of Subsystem Namespaces
32 4 - Security Descriptor List Offset
36 2 dec Security Descriptor Length
38 1 - Security Descriptor Version
39 1 dec Number of Security Profiles
40 4 - Discovery Descriptor List Offset
44 2 dec Discovery Descriptor Length
46 1 - Discovery Descriptor Version
47 1 dec Number of Discovery Entries
48 16 - Reserved

= NBFT-host * - where the Host Descriptor is
72:4 {1} each 76:2 NBFT-host-descriptor

= NBFT-host-descriptor * - Host Descriptor
0 1 - Structure ID
1 1 flags Flags | 0 Descriptor Valid | 1 Host ID is configured | 2 Host NQN is configured
2 16 guid Host ID
18 4 - Host NQN Offset
22 2 dec Host NQN Length
24 8 - Reserved

= NBFT-interfaces * - where HFI Descriptors are
80:4 {87:1} each 84:2 NBFT-interface

= NBFT-interface * - Host Fabric Interface Descriptor
0 1 - Structure ID
1 1 dec HFI Descriptor Index
2 1 flags Flags | 0 Descriptor Valid
3 1 codes HFI Transport Type | 3 NVMe/TCP
4 12 - Reserved
16 4 - HFI Transport Info Descriptor Offset
20 2 dec HFI Transport Info Descriptor Length
22 10 - Reserved

= NBFT-namespaces * - where Subsystem Namespace Descriptors are
88:4 {95:1} each 92:2 NBFT-namespace

= NBFT-namespace * - Subsystem Namespace Descriptor
0 1 - Structure ID
1 2 dec SSNS Descriptor Index
3 2 flags Flags | 0 Descriptor Valid
5 1 codes Transport Type | 3 NVMe/TCP
6 2 - Transport Specific Flags
8 1 dec Primary Discovery Controller Index
9 1 - Reserved
10 4 - Subsystem Transport Address Offset
14 2 dec Subsystem Transport Address Length
16 4 - Subsystem Transport Service Identifier Offset
20 2 dec Subsystem Transport Service Identifier Length
22 2 dec Subsystem Port ID
24 4 dec Namespace ID
28 1 codes Namespace Identifier Type | 1 EUI-64 | 2 NGUID | 3 UUID
29 16 row Namespace Identifier
45 1 dec Security Profile Descriptor Index
46 1 dec Primary HFI Descriptor Index
47 1 - Reserved
48 4 - Secondary HFI Associations Offset
52 2 dec Secondary HFI Associations Length
54 4 - Subsystem and Namespace NQN Offset
58 2 dec Subsystem and Namespace NQN Length
60 4 - SSNS Extended Information Descriptor Offset
64 2 dec SSNS Extended Information Descriptor Length
66 62 - Reserved

= NBFT-securities * - where Security Profile Descriptors are
96:4 {103:1} each 100:2 NBFT-security

= NBFT-security * - Security Profile Descriptor
0 1 - Structure ID
1 1 dec Security Descriptor Index
2 2 flags Flags | 0 Descriptor Valid
4 1 - Secret Type
5 1 - Reserved
6 4 - Secure Channel Algorithms Offset
10 2 dec Secure Channel Algorithms Length
12 4 - Authentication Protocols Offset
16 2 dec Authentication Protocols Length
18 4 - Cipher Suites Offset
22 2 dec Cipher Suites Length
24 4 - DH Groups Offset
28 2 dec DH Groups Length
30 4 - Secure Hash Functions Offset
34 2 dec Secure Hash Functions Length
36 4 - Secret Keypath Offset
40 2 dec Secret Keypath Length
42 22 - Reserved

= NBFT-discoveries * - where Discovery Descriptors are
104:4 {111:1} each 108:2 NBFT-discovery

= NBFT-discovery * - Discovery Descriptor
0 1 - Structure ID
1 1 flags Flags | 0 Descriptor Valid
2 1 dec Discovery Descriptor Index
3 1 dec HFI Descriptor Index
4 1 dec Security Profile Descriptor Index
5 1 - Reserved
6 4 - Discovery Controller Address Offset
10 2 dec Discovery Controller Address Length
12 4 - Discovery Controller NQN Offset
16 2 dec Discovery Controller NQN Length
18 14 - Reserved
";
