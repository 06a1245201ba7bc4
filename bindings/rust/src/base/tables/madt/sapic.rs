// Made by scripts/erase of crates/acpi_base/src/tables/madt/sapic.rt, where it is proved.
//! Entries of the SAPIC model (ACPI 6.4, sections 5.2.12.9 to 5.2.12.11).

mod readings;

use super::entry::EntryHeader;

/// I/O SAPIC: one that is used in place of the I/O APIC of the same id (ACPI 6.4, section 5.2.12.9).
#[derive(Clone, Copy, Debug)]
#[repr(C)]
#[non_exhaustive]
pub struct IoSapicEntry {
    /// Type and Length: the entry's type, and its length in bytes.
    pub header: EntryHeader,
    /// I/O APIC ID: the id of the I/O SAPIC.
    pub io_apic_id: u8,
    /// Global System Interrupt Base: the global system interrupt of its first input.
    pub global_system_interrupt_base: u32,
    /// I/O SAPIC Address: the physical address of its registers.
    pub io_sapic_address: u64,
}

/// Local SAPIC: a processor and its local SAPIC. ACPI Processor UID String, the text after the
/// number, is not read (ACPI 6.4, section 5.2.12.10).
#[derive(Clone, Copy, Debug)]
#[repr(C)]
#[non_exhaustive]
pub struct LocalSapicEntry {
    /// Type and Length: the entry's type, and its length in bytes.
    pub header: EntryHeader,
    /// ACPI Processor ID: the number by which the namespace names the processor.
    pub processor_id: u8,
    /// Local SAPIC ID: the id of the processor's local SAPIC.
    pub local_sapic_id: u8,
    /// Local SAPIC EID: the extended id of the processor's local SAPIC.
    pub local_sapic_eid: u8,
    /// Flags: bit 0 Enabled, the processor can be used.
    pub flags: u32,
    /// ACPI Processor UID Value: the `_UID` of the processor's object, if that is a number.
    pub processor_uid: u32,
}

/// Platform Interrupt Source: an interrupt of the platform itself (ACPI 6.4, section 5.2.12.11).
#[derive(Clone, Copy, Debug)]
#[repr(C)]
#[non_exhaustive]
pub struct PlatformInterruptSourceEntry {
    /// Type and Length: the entry's type, and its length in bytes.
    pub header: EntryHeader,
    /// MPS INTI Flags: bits 0 and 1 the polarity, bits 2 and 3 the trigger mode.
    pub flags: u16,
    /// Interrupt Type: 1 PMI (platform management), 2 INIT, 3 Corrected Platform Error.
    pub interrupt_type: u8,
    /// Processor ID: the local SAPIC id of the processor that the interrupt goes to.
    pub processor_id: u8,
    /// Processor EID: the extended id of the local SAPIC of that processor.
    pub processor_eid: u8,
    /// I/O SAPIC Vector: the vector of the interrupt at the I/O SAPIC.
    pub io_sapic_vector: u8,
    /// Global System Interrupt: the interrupt.
    pub global_system_interrupt: u32,
    /// Platform Interrupt Source Flags: bit 0 CPEI Processor Override, another processor may be used.
    pub platform_interrupt_source_flags: u32,
}
