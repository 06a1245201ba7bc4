// Made by scripts/erase of crates/acpi_dump_walk/src/layouts/management.rt, where it is proved.
//! Management of the platform, power supplies, the embedded controller and audio.

/// The ASF! (DMTF DSP0136, Alert Standard Format 2.0), the MCHI (DMTF DSP0256, Management Component Transport
/// Protocol), the SPMI (IPMI 2.0, appendix C), the SBST (ACPI 6.5, section 5.2.14), the ECDT (5.2.15)
/// and the NHLT (Intel: Non HD Audio ACPI Specification 0.8).
pub(crate) const MANAGEMENT: &str = "
= ASF! * - Alert Standard Format Table
36 {*} typed 0:1 2:2 ASF-record

= ASF-record * - what each record begins with
0 1 flags Type | 6:0 Type | 7 Last record
1 1 - Reserved
2 2 dec Record Length

= ASF-record 0x00 16 ASF_INFO
with ASF_INFO

= ASF-record 0x80 16 ASF_INFO
with ASF_INFO

= ASF_INFO * - ASF_INFO
4 1 dec Minimum Watchdog Reset Value
5 1 dec Minimum ASF Sensor Inter-poll Wait Time
6 2 - System ID
8 4 - IANA Manufacturer ID
12 1 - Feature Flags
13 3 - Reserved

= ASF-record 0x01 8 ASF_ALRT
with ASF_ALRT

= ASF-record 0x81 8 ASF_ALRT
with ASF_ALRT

= ASF_ALRT * - ASF_ALRT
4 1 - Assertion Event Bit Mask
5 1 - Deassertion Event Bit Mask
6 1 dec Number of Alerts
7 1 dec Array Element Length
8 {6:1} each 7:1 ASF-alert

= ASF-alert * - Alert
0 1 - Device Address
1 1 - Command
2 1 - Data Mask
3 1 - Compare Value
4 1 - Event Sensor Type
5 1 - Event Type
6 1 - Event Offset
7 1 - Event Source Type
8 1 - Event Severity
9 1 - Sensor Number
10 1 - Entity
11 1 - Entity Instance

= ASF-record 0x02 8 ASF_RCTL
with ASF_RCTL

= ASF-record 0x82 8 ASF_RCTL
with ASF_RCTL

= ASF_RCTL * - ASF_RCTL
4 1 dec Number of Controls
5 1 dec Array Element Length
6 2 - Reserved
8 {4:1} each 5:1 ASF-control

= ASF-control * - Control
0 1 codes Control Function | 0 Reset | 1 Power-off | 2 Power-on | 3 Power Cycle Reset
1 1 - Control Device Address
2 1 - Control Command
3 1 - Control Value

= ASF-record 0x03 23 ASF_RMCP
with ASF_RMCP

= ASF-record 0x83 23 ASF_RMCP
with ASF_RMCP

= ASF_RMCP * - ASF_RMCP
4 7 - Remote Control Capabilities
11 1 - RMCP Boot Options Completion Code
12 4 - RMCP IANA Enterprise ID
16 1 - RMCP Special Command
17 2 - RMCP Special Command Parameter
19 2 - RMCP Boot Options
21 2 - RMCP OEM Parameters

= ASF-record 0x04 6 ASF_ADDR
with ASF_ADDR

= ASF-record 0x84 6 ASF_ADDR
with ASF_ADDR

= ASF_ADDR * - ASF_ADDR
4 1 - SEEPROM Address
5 1 dec Number of Devices
6 5:1 - Fixed SMBus Addresses

= MCHI * - Management Controller Host Interface Table
36 1 - Interface Type
37 1 - Protocol Identifier
38 8 - Protocol Data
46 1 flags Interrupt Type | 0 SCI triggered through GPE | 1 I/O APIC interrupt
47 1 dec GPE
48 1 flags PCI Device Flag | 0 PCI device
49 4 dec Global System Interrupt
53 12 gas Base Address
65 1 dec PCI Segment Group Number
66 1 dec PCI Bus Number
67 1 dec PCI Device Number
68 1 dec PCI Function Number

= SPMI * - Service Processor Management Interface Description Table
36 1 codes Interface Type | 1 KCS | 2 SMIC | 3 BT | 4 SSIF
37 1 - Reserved
38 2 - Specification Revision
40 1 flags Interrupt Type | 0 SCI triggered through GPE | 1 I/O APIC interrupt
41 1 dec GPE
42 1 - Reserved
43 1 flags PCI Device Flag | 0 PCI device
44 4 dec Global System Interrupt
48 12 gas Base Address
if 43:1 !1 SPMI-uid
if 43:1 &1 SPMI-pci
64 1 - Reserved

= SPMI-pci * - of a PCI device
60 1 dec PCI Segment Group Number
61 1 dec PCI Bus Number
62 1 dec PCI Device Number
63 1 dec PCI Function Number

= SPMI-uid * - of another device
60 4 dec UID

= SBST * - Smart Battery Specification Table
36 4 dec Warning Energy Level
40 4 dec Low Energy Level
44 4 dec Critical Energy Level

= ECDT * - Embedded Controller Boot Resources Table
36 12 gas EC_CONTROL
48 12 gas EC_DATA
60 4 dec UID
64 1 dec GPE_BIT
65 z text EC_ID

= NHLT * - Non HD Audio Link Table
36 1 dec Endpoint Count
37 {36:1} own 0:4 NHLT-endpoint
> * - OED Config

= NHLT-endpoint * 19 Endpoint Descriptor
0 4 dec Endpoint Descriptor Length
4 1 codes Link Type | 0 HD Audio | 1 DSP | 2 PDM | 3 SSP | 4 SlimBus | 5 SoundWire
5 1 dec Instance ID
6 2 - Vendor ID
8 2 - Device ID
10 2 - Revision ID
12 4 - Subsystem ID
16 1 - Device Type
17 1 codes Direction | 0 render | 1 capture
18 1 dec Virtual Bus ID
then NHLT-config

= NHLT-config * - Specific Config and Formats Config
0 4 dec Capabilities Size
4 0:4 - Capabilities
then NHLT-formats

= NHLT-formats * - Formats Config
0 1 dec Formats Count
1 {0:1} own 44+40:4 NHLT-format

= NHLT-format * 44 Format Config
0 2 - wFormatTag
2 2 dec nChannels
4 4 dec nSamplesPerSec
8 4 dec nAvgBytesPerSec
12 2 dec nBlockAlign
14 2 dec wBitsPerSample
16 2 dec cbSize
18 2 dec wValidBitsPerSample
20 4 - dwChannelMask
24 16 guid SubFormat
40 4 dec Capabilities Size
44 40:4 - Capabilities
";
