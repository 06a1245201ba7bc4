// Made by scripts/erase of crates/acpi_dump_walk/src/layouts/errors.rt, where it is proved.
//! Errors of the hardware (ACPI 6.5, chapter 18).

/// The BERT (table 18.16), the CPEP (section 5.2.18), the EINJ (table 18.25), the ERST (18.17) and the HEST (18.3).
pub(crate) const ERRORS: &str = "
= BERT * - Boot Error Record Table
36 4 dec Boot Error Region Length
40 8 - Boot Error Region

= CPEP * - Corrected Platform Error Polling Table
36 8 - Reserved
44 {*} typed 0:1 1:1 CPEP-entry

= CPEP-entry * - what each structure begins with
0 1 - Type
1 1 dec Length

= CPEP-entry 0 8 Corrected Platform Error Polling Processor Structure
2 1 dec Processor ID
3 1 dec Processor EID
4 4 dec Polling Interval

= EINJ * - Error Injection Table
36 4 dec Injection Header Size
40 1 - Injection Flags
41 3 - Reserved
44 4 dec Injection Entry Count
48 {44:4} each 32 EINJ-entry

= EINJ-entry * - Injection Instruction Entry
0 1 codes Injection Action | @EINJ-actions
1 1 codes Instruction | @EINJ-instructions
2 1 flags Flags | 0 PRESERVE_REGISTER
3 1 - Reserved
4 12 gas Register Region
16 8 - Value
24 8 - Mask

= EINJ-actions * - Error Injection Actions (table 18.24)
0x00 BEGIN_INJECTION_OPERATION
0x01 GET_TRIGGER_ERROR_ACTION_TABLE
0x02 SET_ERROR_TYPE
0x03 GET_ERROR_TYPE
0x04 END_OPERATION
0x05 EXECUTE_OPERATION
0x06 CHECK_BUSY_STATUS
0x07 GET_COMMAND_STATUS
0x08 SET_ERROR_TYPE_WITH_ADDRESS
0x09 GET_EXECUTE_OPERATION_TIMINGS
0xff TRIGGER_ERROR

= EINJ-instructions * - Injection Instructions (table 18.28)
0 READ_REGISTER
1 READ_REGISTER_VALUE
2 WRITE_REGISTER
3 WRITE_REGISTER_VALUE
4 NOOP

= ERST * - Error Record Serialization Table
36 4 dec Serialization Header Size
40 4 - Reserved
44 4 dec Instruction Entry Count
48 {44:4} each 32 ERST-entry

= ERST-entry * - Serialization Instruction Entry
0 1 codes Serialization Action | @ERST-actions
1 1 codes Instruction | @ERST-instructions
2 1 flags Flags | 0 PRESERVE_REGISTER
3 1 - Reserved
4 12 gas Register Region
16 8 - Value
24 8 - Mask

= ERST-actions * - Error Record Serialization Actions (table 18.18)
0x00 BEGIN_WRITE_OPERATION
0x01 BEGIN_READ_OPERATION
0x02 BEGIN_CLEAR_OPERATION
0x03 END_OPERATION
0x04 SET_RECORD_OFFSET
0x05 EXECUTE_OPERATION
0x06 CHECK_BUSY_STATUS
0x07 GET_COMMAND_STATUS
0x08 GET_RECORD_IDENTIFIER
0x09 SET_RECORD_IDENTIFIER
0x0a GET_RECORD_COUNT
0x0b BEGIN_DUMMY_WRITE_OPERATION
0x0d GET_ERROR_LOG_ADDRESS_RANGE
0x0e GET_ERROR_LOG_ADDRESS_RANGE_LENGTH
0x0f GET_ERROR_LOG_ADDRESS_RANGE_ATTRIBUTES
0x10 GET_EXECUTE_OPERATION_TIMINGS

= ERST-instructions * - Serialization Instructions (table 18.21)
0x00 READ_REGISTER
0x01 READ_REGISTER_VALUE
0x02 WRITE_REGISTER
0x03 WRITE_REGISTER_VALUE
0x04 NOOP
0x05 LOAD_VAR1
0x06 LOAD_VAR2
0x07 STORE_VAR1
0x08 ADD
0x09 SUBTRACT
0x0a ADD_VALUE
0x0b SUBTRACT_VALUE
0x0c STALL
0x0d STALL_WHILE_TRUE
0x0e SKIP_NEXT_INSTRUCTION_IF_TRUE
0x0f GOTO
0x10 SET_SRC_ADDRESS_BASE
0x11 SET_DST_ADDRESS_BASE
0x12 MOVE_DATA

= HEST * - Hardware Error Source Table
36 4 dec Error Source Count
40 {*} sized 0:2 HEST-source

= HEST-source * - what each structure begins with
0 2 - Type
2 2 dec Source Id

= HEST-source 0 40+28*32:1 IA-32 Architecture Machine Check Exception
4 2 - Reserved
6 1 flags Flags | 0 FIRMWARE_FIRST | 2 GHES_ASSIST
7 1 codes Enabled | 1 enabled
8 4 dec Number of Records To Pre-allocate
12 4 dec Max Sections Per Record
16 8 - Global Capability Init Data
24 8 - Global Control Init Data
32 1 dec Number Of Hardware Banks
33 7 - Reserved
40 {32:1} each 28 HEST-bank

= HEST-bank * - IA-32 Architecture Machine Check Bank Structure
0 1 dec Bank Number
1 1 codes Clear Status On Initialization | 0 cleared | 1 not cleared
2 1 codes Status Data Format | 0 IA-32 MCA | 1 Intel 64 MCA | 2 AMD64MCA
3 1 - Reserved
4 4 - Control Register MSR Address
8 8 - Control Init Data
16 4 - Status Register MSR Address
20 4 - Address Register MSR Address
24 4 - Misc Register MSR Address

= HEST-source 1 48+28*44:1 IA-32 Architecture Corrected Machine Check
4 2 - Reserved
6 1 flags Flags | 0 FIRMWARE_FIRST | 2 GHES_ASSIST
7 1 codes Enabled | 1 enabled
8 4 dec Number of Records To Pre-allocate
12 4 dec Max Sections Per Record
then HEST-notification
44 1 dec Number Of Hardware Banks
45 3 - Reserved
48 {44:1} each 28 HEST-bank

= HEST-notification * - Hardware Error Notification Structure (table 18.14)
0 1 codes Type | @HEST-notification-types
1 1 dec Length
2 2 flags Configuration Write Enable | 0 Type | 1 Poll Interval | 2 Switch To Polling Threshold Value \
    | 3 Switch To Polling Threshold Window | 4 Error Threshold Value | 5 Error Threshold Window
4 4 dec Poll Interval
8 4 dec Vector
12 4 dec Switch To Polling Threshold Value
16 4 dec Switch To Polling Threshold Window
20 4 dec Error Threshold Value
24 4 dec Error Threshold Window

= HEST-notification-types * - Hardware Error Notification types
0 Polled
1 External Interrupt
2 Local Interrupt
3 SCI
4 NMI
5 CMCI
6 MCE
7 GPIO-Signal
8 ARMv8 SEA
9 ARMv8 SEI
10 External Interrupt - GSIV
11 Software Delegated Exception

= HEST-source 2 20 IA-32 Architecture Non-Maskable Interrupt
4 4 - Reserved
8 4 dec Number of Records To Pre-allocate
12 4 dec Max Sections Per Record
16 4 dec Max Raw Data Length

= HEST-aer * - what each structure of PCI Express has
4 2 - Reserved
6 1 flags Flags | 0 FIRMWARE_FIRST | 1 GLOBAL
7 1 codes Enabled | 1 enabled
8 4 dec Number of Records To Pre-allocate
12 4 dec Max Sections Per Record
16 4 flags Bus | 7:0 bus | 23:8 segment
20 2 dec Device
22 2 dec Function
24 2 - Device Control
26 2 - Reserved
28 4 - Uncorrectable Error Mask
32 4 - Uncorrectable Error Severity
36 4 - Correctable Error Mask
40 4 - Advanced Error Capabilities and Control

= HEST-source 6 48 PCI Express Root Port AER Structure
with HEST-aer
44 4 - Root Error Command

= HEST-source 7 44 PCI Express Device AER Structure
with HEST-aer

= HEST-source 8 56 PCI Express Bridge AER Structure
with HEST-aer
44 4 - Secondary Uncorrectable Error Mask
48 4 - Secondary Uncorrectable Error Severity
52 4 - Secondary Advanced Error Capabilities and Control

= HEST-ghes * - what both structures of generic hardware errors have
4 2 dec Related Source Id
6 1 - Flags
7 1 codes Enabled | 1 enabled
8 4 dec Number of Records To Pre-allocate
12 4 dec Max Sections Per Record
16 4 dec Max Raw Data Length
20 12 gas Error Status Address
then HEST-notification
60 4 dec Error Status Block Length

= HEST-source 9 64 Generic Hardware Error Source Structure
with HEST-ghes

= HEST-source 10 92 Generic Hardware Error Source version 2 (GHESv2) Structure
with HEST-ghes
64 12 gas Read Ack Register
76 8 - Read Ack Preserve
84 8 - Read Ack Write

= HEST-source 11 48+28*44:1 IA-32 Architecture Deferred Machine Check
4 2 - Reserved
6 1 flags Flags | 0 FIRMWARE_FIRST | 2 GHES_ASSIST
7 1 codes Enabled | 1 enabled
8 4 dec Number of Records To Pre-allocate
12 4 dec Max Sections Per Record
then HEST-notification
44 1 dec Number Of Hardware Banks
45 3 - Reserved
48 {44:1} each 28 HEST-bank
";
