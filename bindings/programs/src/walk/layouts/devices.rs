// Made by scripts/erase of crates/acpi_dump_walk/src/layouts/devices.rt, where it is proved.
//! Buses, timers, consoles and graphics.

/// PCI configuration space, consoles and debug ports: the MCFG (PCI Firmware Specification 3.3, tables 4-2
/// and 4-3), the SPCR (Microsoft: Serial Port Console Redirection Table), the DBG2 (Microsoft Debug Port
/// Table 2) and the DBGP (Microsoft: Debug Port Specification).
pub(crate) const PORTS: &str = "
= MCFG * - PCI Express memory mapped configuration space base address description table
36 8 - Reserved
44 {*} each 16 MCFG-entry

= MCFG-entry * - Configuration space
0 8 - Base Address
8 2 dec PCI Segment Group Number
10 1 dec Start Bus Number
11 1 dec End Bus Number
12 4 - Reserved

= SPCR * - Serial Port Console Redirection Table
36 1 codes Interface Type | @serial-subtypes
37 3 - Reserved
40 12 gas Base Address
52 1 flags Interrupt Type | 0 8259 | 1 I/O APIC | 2 I/O SAPIC | 3 Arm GIC | 4 RISC-V PLIC or APLIC
53 1 dec IRQ
54 4 dec Global System Interrupt
58 1 codes Configured Baud Rate | 0 as it is | 3 9600 | 4 19200 | 6 57600 | 7 115200
59 1 codes Parity | 0 no parity
60 1 codes Stop Bits | 1 1 stop bit
61 1 flags Flow Control | 0 DCD | 1 RTS/CTS | 2 XON/XOFF
62 1 codes Terminal Type | 0 VT100 | 1 extended VT100 | 2 VT-UTF8 | 3 ANSI
63 1 - Language
64 2 - PCI Device ID
66 2 - PCI Vendor ID
68 1 - PCI Bus Number
69 1 - PCI Device Number
70 1 - PCI Function Number
71 4 flags PCI Flags | 0 do not suppress PnP device enumeration or disable power management
75 1 - PCI Segment
76 4 dec UART Clock Frequency
80 4 dec Precise Baud Rate
84 2 dec NamespaceStringLength
86 2 dec NamespaceStringOffset
86:2 84:2 text NamespaceString

= serial-subtypes * - debug port subtypes of serial ports
0x00 full 16550
0x01 full 16450
0x02 MAX311xE SPI
0x03 Arm PL011
0x04 MSM8x60
0x05 Nvidia 16550
0x06 TI OMAP
0x08 APM88xxxx
0x09 MSM8974
0x0a SAM5250
0x0b Intel USIF
0x0c i.MX 6
0x0d Arm SBSA generic, 32-bit accesses
0x0e Arm SBSA generic
0x0f Arm DCC
0x10 BCM2835
0x11 SDM845 with a clock of 1.8432 MHz
0x12 16550 by generic address
0x13 SDM845 with a clock of 7.372 MHz
0x14 Intel LPSS
0x15 RISC-V SBI console

= DBG2 * - Debug Port Table 2
36 4 - OffsetDbgDeviceInfo
40 4 dec NumberDbgDeviceInfo
36:4 {40:4} own 1:2 DBG2-device

= DBG2-device * 22 Debug Device Information
0 1 - Revision
1 2 dec Length
3 1 dec NumberofGenericAddressRegisters
4 2 dec NamespaceStringLength
6 2 dec NamespaceStringOffset
8 2 dec OemDataLength
10 2 dec OemDataOffset
12 2 codes Port Type | 0x8000 Serial | 0x8001 1394 | 0x8002 USB | 0x8003 Net
if 12:2 0x8000 DBG2-serial
if 12:2 0x8001 DBG2-1394
if 12:2 0x8002 DBG2-usb
if 12:2 0-0x7fff DBG2-other
if 12:2 0x8003-0xffff DBG2-other
16 2 - Reserved
18 2 dec BaseAddressRegisterOffset
20 2 dec AddressSizeOffset
18:2 12[3:1] gas BaseAddressRegister
20:2 4[3:1] - AddressSize
6:2 4:2 text NamespaceString
10:2 8:2 - OemData

= DBG2-serial * - subtype of a serial port
14 2 codes Port Subtype | @serial-subtypes

= DBG2-1394 * - subtype of an IEEE 1394 port
14 2 codes Port Subtype | 0 IEEE1394 Standard Host Controller Interface

= DBG2-usb * - subtype of a USB port
14 2 codes Port Subtype | 0 XHCI-compliant controller with debug interface \
    | 1 EHCI-compliant controller with debug interface

= DBG2-other * - subtype of another port
14 2 - Port Subtype

= DBGP * - Debug Port Table
36 1 codes Interface Type | 0 full 16550 | 1 16550 subset
37 3 - Reserved
40 12 gas Base Address
";

/// Timers and watchdogs: the HPET (IA-PC HPET Specification 1.0a, section 3.2.4), the WAET (Microsoft: Windows
/// ACPI Emulated Devices Table), the WDRT (Microsoft: Watchdog Timer Hardware Requirements), the WDAT
/// (Microsoft: Hardware Watchdog Timers Design Specification), the WDDT (Intel: Watchdog Descriptor Table), the
/// VRTC and the MTMR (Intel: Simple Firmware Interface's tables under ACPI).
pub(crate) const TIMERS: &str = "
= HPET * - IA-PC High Precision Event Timer Table
36 4 parts Event Timer Block ID | 31:16 VENDOR_ID | 15 LEG_RT_CAP | 13 COUNT_SIZE_CAP | 12:8 NUM_TIM_CAP \
    | 7:0 REV_ID
40 12 gas BASE_ADDRESS
52 1 dec HPET Number
53 2 dec Main Counter Minimum Clock_tick
55 1 flags Page Protection And OEM Attribute | 3:0/1 4 KB page protection | 3:0/2 64 KB page protection \
    | 7:4 OEM attribute

= WAET * - Windows ACPI Emulated Devices Table
36 4 flags Emulated Device Flags | 0 RTC good | 1 ACPI PM timer good

= WDAT * - Watchdog Action Table
36 4 dec Watchdog Header Length
40 2 dec PCI Segment
42 1 dec PCI Bus Number
43 1 dec PCI Device Number
44 1 dec PCI Function Number
45 3 - Reserved
48 4 dec Timer Period
52 4 dec Maximum Count
56 4 dec Minimum Count
60 1 flags Watchdog Flags | 0 Watchdog Enabled | 7 Stopped in sleep state
61 3 - Reserved
64 4 dec Number of Watchdog Instruction Entries
68 {64:4} each 24 WDAT-entry

= WDAT-entry * - Watchdog Instruction Entry
0 1 codes Watchdog Action | @WDAT-actions
1 1 flags Instruction Flags | 6:0/0 READ_VALUE | 6:0/1 READ_COUNTDOWN | 6:0/2 WRITE_VALUE | 6:0/3 WRITE_COUNTDOWN \
    | 7 PRESERVE_REGISTER
2 2 - Reserved
4 12 gas Register Region
16 4 - Value
20 4 - Mask

= WDAT-actions * - Watchdog Actions
0x01 RESET
0x04 QUERY_CURRENT_COUNTDOWN_PERIOD
0x05 QUERY_COUNTDOWN_PERIOD
0x06 SET_COUNTDOWN_PERIOD
0x08 QUERY_RUNNING_STATE
0x09 SET_RUNNING_STATE
0x0a QUERY_STOPPED_STATE
0x0b SET_STOPPED_STATE
0x10 QUERY_REBOOT
0x11 SET_REBOOT
0x12 QUERY_SHUTDOWN
0x13 SET_SHUTDOWN
0x20 QUERY_WATCHDOG_STATUS
0x21 SET_WATCHDOG_STATUS

= WDRT * - Watchdog Resource Table
36 12 gas Control Register Address
48 12 gas Count Register Address
60 2 - PCI Device ID
62 2 - PCI Vendor ID
64 1 dec PCI Bus Number
65 1 dec PCI Device Number
66 1 dec PCI Function Number
67 1 dec PCI Segment
68 2 dec Maximum Count
70 1 codes Units | 0 1 second | 1 100 milliseconds | 2 10 milliseconds

= WDDT * - Watchdog Descriptor Table
36 2 - Specification Version
38 2 - Description Table Version
40 2 - PCI Vendor ID
42 12 gas Watchdog Timer Base Address
54 2 dec Timer Maximum Count
56 2 dec Timer Minimum Count
58 2 dec Timer Count Period
60 2 flags Watchdog Status | 0 Available | 1 Active | 2 Owned by the OS | 11 User reset | 12 Watchdog reset \
    | 13 Power failure | 14 Unknown reset
62 2 flags Watchdog Capability | 0 Automatic reset | 1 Alert support

= VRTC * - Virtual Real Time Clock Table
36 {*} each 16 VRTC-entry

= VRTC-entry * - Real Time Clock
0 12 gas Physical Address
12 4 dec IRQ

= MTMR * - MID Timer Table
36 {*} each 20 MTMR-entry

= MTMR-entry * - Timer
0 12 gas Physical Address
12 4 dec Frequency
16 4 dec IRQ
";
