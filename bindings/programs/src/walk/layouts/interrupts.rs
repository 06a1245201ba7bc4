// Made by scripts/erase of crates/acpi_dump_walk/src/layouts/interrupts.rt, where it is proved.
//! The MADT and the GTDT (ACPI 6.5).

/// The MADT (section 5.2.12, table 5.19).
pub(crate) const MADT: &str = "
= APIC * - Multiple APIC Description Table
36 4 - Local Interrupt Controller Address
40 4 flags Flags | 0 PCAT_COMPAT
44 {*} typed 0:1 1:1 MADT-entry

= MADT-entry * - what each entry begins with
0 1 - Type
1 1 dec Length

= local-apic-flags * - Local APIC Flags (table 5.23)
0 Enabled
1 Online Capable

= mps-inti-flags * - MPS INTI Flags (table 5.26)
0x0 as the bus has it
0x1 active high, triggered as the bus has it
0x2 reserved polarity, triggered as the bus has it
0x3 active low, triggered as the bus has it
0x4 active as the bus has it, edge-triggered
0x5 active high, edge-triggered
0x6 reserved polarity, edge-triggered
0x7 active low, edge-triggered
0x8 active as the bus has it, reserved trigger mode
0x9 active high, reserved trigger mode
0xa reserved polarity, reserved trigger mode
0xb active low, reserved trigger mode
0xc active as the bus has it, level-triggered
0xd active high, level-triggered
0xe reserved polarity, level-triggered
0xf active low, level-triggered

= MADT-entry 0x00 8 Processor Local APIC
2 1 dec ACPI Processor UID
3 1 dec APIC ID
4 4 flags Flags | @local-apic-flags

= MADT-entry 0x01 12 I/O APIC
2 1 dec I/O APIC ID
3 1 - Reserved
4 4 - I/O APIC Address
8 4 dec Global System Interrupt Base

= MADT-entry 0x02 10 Interrupt Source Override
2 1 dec Bus
3 1 dec Source
4 4 dec Global System Interrupt
8 2 codes Flags | @mps-inti-flags

= MADT-entry 0x03 8 NMI Source
2 2 codes Flags | @mps-inti-flags
4 4 dec Global System Interrupt

= MADT-entry 0x04 6 Local APIC NMI
2 1 dec ACPI Processor UID | 0xff all processors
3 2 codes Flags | @mps-inti-flags
5 1 dec Local APIC LINT#

= MADT-entry 0x05 12 Local APIC Address Override
2 2 - Reserved
4 8 - Local APIC Address

= MADT-entry 0x06 16 I/O SAPIC
2 1 dec I/O APIC ID
3 1 - Reserved
4 4 dec Global System Interrupt Base
8 8 - I/O SAPIC Address

= MADT-entry 0x07 16 Local SAPIC
2 1 dec ACPI Processor ID
3 1 dec Local SAPIC ID
4 1 dec Local SAPIC EID
5 3 - Reserved
8 4 flags Flags | @local-apic-flags
12 4 dec ACPI Processor UID Value
> z text ACPI Processor UID String

= MADT-entry 0x08 16 Platform Interrupt Sources
2 2 codes Flags | @mps-inti-flags
4 1 codes Interrupt Type | 1 PMI | 2 INIT | 3 Corrected Platform Error Interrupt
5 1 dec Processor ID
6 1 dec Processor EID
7 1 - I/O SAPIC Vector
8 4 dec Global System Interrupt
12 4 flags Platform Interrupt Source Flags | 0 CPEI Processor Override

= MADT-entry 0x09 16 Processor Local x2APIC
2 2 - Reserved
4 4 dec X2APIC ID
8 4 flags Flags | @local-apic-flags
12 4 dec ACPI Processor UID

= MADT-entry 0x0a 12 Local x2APIC NMI
2 2 codes Flags | @mps-inti-flags
4 4 dec ACPI Processor UID | 0xffffffff all processors
8 1 dec Local x2APIC LINT#
9 3 - Reserved

= MADT-entry 0x0b 40 GIC CPU Interface (GICC)
2 2 - Reserved
4 4 dec CPU Interface Number
8 4 dec ACPI Processor UID
12 4 flags Flags | 0 Enabled | 1 Performance Interrupt Mode | 2 VGIC Maintenance interrupt Mode Flags | 3 Online Capable
16 4 - Parking Protocol Version
20 4 dec Performance Interrupt GSIV
24 8 - Parked Address
32 8 - Physical Base Address
40 8 - GICV
48 8 - GICH
56 4 dec VGIC Maintenance interrupt
60 8 - GICR Base Address
68 8 - MPIDR
76 1 dec Processor Power Efficiency Class
77 1 - Reserved
78 2 dec SPE overflow Interrupt
80 2 dec TRBE Interrupt

= MADT-entry 0x0c 24 GIC Distributor (GICD)
2 2 - Reserved
4 4 dec GIC ID
8 8 - Physical Base Address
16 4 - System Vector Base
20 1 codes GIC version | 0 as the hardware tells | 1 GICv1 | 2 GICv2 | 3 GICv3 | 4 GICv4
21 3 - Reserved

= MADT-entry 0x0d 24 GIC MSI Frame
2 2 - Reserved
4 4 dec GIC MSI Frame ID
8 8 - Physical Base Address
16 4 flags Flags | 0 SPI Count/Base Select
20 2 dec SPI Count
22 2 dec SPI Base

= MADT-entry 0x0e 16 GIC Redistributor (GICR)
2 2 - Reserved
4 8 - Discovery Range Base Address
12 4 - Discovery Range Length

= MADT-entry 0x0f 20 GIC Interrupt Translation Service (ITS)
2 2 - Reserved
4 4 dec GIC ITS ID
8 8 - Physical Base Address
16 4 - Reserved

= MADT-entry 0x10 16 Multiprocessor Wakeup
2 2 - MailBoxVersion
4 4 - Reserved
8 8 - MailBoxAddress

= MADT-entry 0x11 15 Core Programmable Interrupt Controller (CORE PIC)
2 1 - Version
3 4 dec ACPI Processor ID
7 4 dec Physical Processor ID
11 4 flags Flags | 0 Enabled

= MADT-entry 0x12 23 Legacy I/O Programmable Interrupt Controller (LIO PIC)
2 1 - Version
3 8 - Base Address
11 2 - Size
13 2 - Cascade vector
15 8 - Cascade vector mapping

= MADT-entry 0x13 21 HyperTransport Programmable Interrupt Controller (HT PIC)
2 1 - Version
3 8 - Base Address
11 2 - Size
13 8 - Cascade Vector

= MADT-entry 0x14 13 Extend I/O Programmable Interrupt Controller (EIO PIC)
2 1 - Version
3 1 - Cascade vector
4 1 dec Node
5 8 - Node Map

= MADT-entry 0x15 19 MSI Programmable Interrupt Controller (MSI PIC)
2 1 - Version
3 8 - Message Address
11 4 dec Start
15 4 dec Count

= MADT-entry 0x16 17 Bridge I/O Programmable Interrupt Controller (BIO PIC)
2 1 - Version
3 8 - Base Address
11 2 - Size
13 2 dec Hardware ID
15 2 dec GSI Base

= MADT-entry 0x17 13 Low Pin Count Programmable Interrupt Controller (LPC PIC)
2 1 - Version
3 8 - Base Address
11 2 - Size

= MADT-entry 0x18 20 RISC-V Interrupt Controller (RINTC)
2 1 - Version
3 1 - Reserved
4 4 flags Flags | @local-apic-flags
8 8 dec Hart ID
16 4 dec ACPI Processor UID
20 4 - External Interrupt Controller ID
24 8 - IMSIC Base address
32 4 - IMSIC Size

= MADT-entry 0x19 16 RISC-V Incoming MSI Controller (IMSIC)
2 1 - Version
3 1 - Reserved
4 4 - Flags
8 2 dec Number of supervisor mode Interrupt Identities
10 2 dec Number of guest mode Interrupt Identities
12 1 dec Guest Index Bits
13 1 dec Hart Index Bits
14 1 dec Group Index Bits
15 1 dec Group Index Shift

= MADT-entry 0x1a 36 RISC-V Advanced Platform Level Interrupt Controller (APLIC)
2 1 - Version
3 1 dec APLIC ID
4 4 - Flags
8 8 text Hardware ID
16 2 dec Number of IDCs
18 2 dec Total External Interrupt Sources Supported
20 4 dec Global System Interrupt Base
24 8 - APLIC Address
32 4 - APLIC size

= MADT-entry 0x1b 36 RISC-V Platform Level Interrupt Controller (PLIC)
2 1 - Version
3 1 dec PLIC ID
4 8 text Hardware ID
12 2 dec Total External Interrupt Sources Supported
14 2 dec Max Priority
16 4 - Flags
20 4 - PLIC Size
24 8 - PLIC Address
32 4 dec Global System Interrupt Base
";

/// The GTDT (section 5.2.25, table 5.122). Its fields of the virtual timer of EL2 came with revision 3,
/// and structures of platform timers may begin in their place.
pub(crate) const GTDT: &str = "
= GTDT * - Generic Timer Description Table
36 8 - CntControlBase Physical Address
44 4 - Reserved
48 4 dec Secure EL1 Timer GSIV
52 4 codes Secure EL1 Timer Flags | @timer-flags
56 4 dec Non-Secure EL1 Timer GSIV
60 4 codes Non-Secure EL1 Timer Flags | @timer-flags
64 4 dec Virtual EL1 Timer GSIV
68 4 codes Virtual EL1 Timer Flags | @timer-flags
72 4 dec EL2 Timer GSIV
76 4 codes EL2 Timer Flags | @timer-flags
if 8:1 2-255 platform-timers

= platform-timers * - since revision 2
80 8 - CntReadBase Physical Address
88 4 dec Platform Timer Count
92 4 dec Platform Timer Offset
if 8:1 3-255 revision-3
92:4 {88:4} typed 0:1 1:2 GTDT-structure

= revision-3 * - since revision 3
if 88:4 0 virtual-el2
if 88:4 1-0xffffffff virtual-el2-before

= virtual-el2-before * - if no structure begins in its place
if 92:4 104-0xffffffff virtual-el2

= virtual-el2 * - the virtual timer of EL2
96 4 dec Virtual EL2 Timer GSIV
100 4 codes Virtual EL2 Timer Flags | @timer-flags

= timer-flags * - Flag Definitions (table 5.123)
0 active high, level-triggered
1 active high, edge-triggered
2 active low, level-triggered
3 active low, edge-triggered
4 active high, level-triggered, always on
5 active high, edge-triggered, always on
6 active low, level-triggered, always on
7 active low, edge-triggered, always on

= GTDT-structure * - Platform Timer Type Structures (table 5.124)
0 1 - Type
1 2 dec Length
3 1 - Reserved

= GTDT-structure 0 20 GT Block
4 8 - GT Block Physical address
12 4 dec GT Block Timer Count
16 4 dec GT Block Timer Offset
16:4 {12:4} each 40 GT-frame

= GT-frame * - GT Block Timer
0 1 dec GT Frame Number
1 3 - Reserved
4 8 - GTx Physical address (CntBaseX)
12 8 - GTx Physical address (CntEL0BaseX)
20 4 dec GTx Physical Timer GSIV
24 4 codes GTx Physical Timer Flags | @frame-timer-flags
28 4 dec GTx Virtual Timer GSIV
32 4 codes GTx Virtual Timer Flags | @frame-timer-flags
36 4 flags GTx Common Flags | 0 Secure Timer | 1 Always-on Capability

= frame-timer-flags * - Physical and Virtual Timer Flags (table 5.127)
0 active high, level-triggered
1 active high, edge-triggered
2 active low, level-triggered
3 active low, edge-triggered

= GTDT-structure 1 28 Arm Generic Watchdog
4 8 - RefreshFrame Physical Address
12 8 - WatchdogControlFrame Physical Address
20 4 dec Watchdog Timer GSIV
24 4 codes Watchdog Timer Flags | @watchdog-flags

= watchdog-flags * - Watchdog Timer Flags (table 5.130)
0 active high, level-triggered
1 active high, edge-triggered
2 active low, level-triggered
3 active low, edge-triggered
4 active high, level-triggered, secure
5 active high, edge-triggered, secure
6 active low, level-triggered, secure
7 active low, edge-triggered, secure
";
