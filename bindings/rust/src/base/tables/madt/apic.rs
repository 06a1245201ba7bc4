// Made by scripts/erase of crates/acpi_base/src/tables/madt/apic.rt, where it is proved.
//! Entries of the APIC model (ACPI 6.4, sections 5.2.12.2 to 5.2.12.8, 5.2.12.12 and 5.2.12.13).

mod readings;

use super::entry::EntryHeader;

/// Processor Local APIC: a processor and its local APIC (ACPI 6.4, section 5.2.12.2).
#[derive(Clone, Copy, Debug)]
#[repr(C)]
#[non_exhaustive]
pub struct LocalApicEntry {
    /// Type and Length: the entry's type, and its length in bytes.
    pub header: EntryHeader,
    /// ACPI Processor UID: the `_UID` of the processor's object in the namespace.
    pub processor_id: u8,
    /// APIC ID: the id of the processor's local APIC.
    pub apic_id: u8,
    /// Flags: bit 0 Enabled, the processor can be used; bit 1 Online Capable, it can be enabled later.
    pub flags: u32,
}

/// I/O APIC (ACPI 6.4, section 5.2.12.3).
#[derive(Clone, Copy, Debug)]
#[repr(C)]
#[non_exhaustive]
pub struct IoApicEntry {
    /// Type and Length: the entry's type, and its length in bytes.
    pub header: EntryHeader,
    /// I/O APIC ID: its id.
    pub io_apic_id: u8,
    /// I/O APIC Address: the physical address of its registers.
    pub io_apic_address: u32,
    /// Global System Interrupt Base: the global system interrupt of its first input.
    pub global_system_interrupt_base: u32,
}

/// Interrupt Source Override: an ISA interrupt that is not wired to the global system interrupt of
/// the same number (ACPI 6.4, section 5.2.12.5).
#[derive(Clone, Copy, Debug)]
#[repr(C)]
#[non_exhaustive]
pub struct InterruptSourceOverrideEntry {
    /// Type and Length: the entry's type, and its length in bytes.
    pub header: EntryHeader,
    /// Bus: 0 for ISA, the only bus that is defined.
    pub bus: u8,
    /// Source: the interrupt (IRQ) on that bus.
    pub irq: u8,
    /// Global System Interrupt: the interrupt that the source is wired to.
    pub global_system_interrupt: u32,
    /// MPS INTI Flags: bits 0 and 1 the polarity, bits 2 and 3 the trigger mode.
    pub flags: u16,
}

/// NMI Source: an interrupt that is to be non-maskable (ACPI 6.4, section 5.2.12.6).
#[derive(Clone, Copy, Debug)]
#[repr(C)]
#[non_exhaustive]
pub struct NmiSourceEntry {
    /// Type and Length: the entry's type, and its length in bytes.
    pub header: EntryHeader,
    /// MPS INTI Flags: bits 0 and 1 the polarity, bits 2 and 3 the trigger mode.
    pub flags: u16,
    /// Global System Interrupt: the interrupt that is non-maskable.
    pub global_system_interrupt: u32,
}

/// Local APIC NMI: the LINT pin of a local APIC that NMIs are connected to (ACPI 6.4, section
/// 5.2.12.7).
#[derive(Clone, Copy, Debug)]
#[repr(C)]
#[non_exhaustive]
pub struct LocalApicNmiEntry {
    /// Type and Length: the entry's type, and its length in bytes.
    pub header: EntryHeader,
    /// ACPI Processor UID: the `_UID` of the processor's object; 0xff for all processors.
    pub processor_id: u8,
    /// LINT# of the local APIC: 0 for LINT0, 1 for LINT1.
    pub nmi_line: u8,
    /// MPS INTI Flags: bits 0 and 1 the polarity, bits 2 and 3 the trigger mode.
    pub flags: u16,
}

/// Local APIC Address Override: a 64-bit address of the local APICs, in place of the 32-bit one in
/// the MADT itself (ACPI 6.4, section 5.2.12.8).
#[derive(Clone, Copy, Debug)]
#[repr(C)]
#[non_exhaustive]
pub struct LocalApicAddressOverrideEntry {
    /// Type and Length: the entry's type, and its length in bytes.
    pub header: EntryHeader,
    /// Local APIC Address: the physical address at which each processor reaches its local APIC.
    pub local_apic_address: u64,
}

/// Processor Local x2APIC: a processor and its local x2APIC (ACPI 6.4, section 5.2.12.12).
#[derive(Clone, Copy, Debug)]
#[repr(C)]
#[non_exhaustive]
pub struct LocalX2ApicEntry {
    /// Type and Length: the entry's type, and its length in bytes.
    pub header: EntryHeader,
    /// X2APIC ID: the id of the processor's local x2APIC.
    pub x2apic_id: u32,
    /// Flags: bit 0 Enabled, the processor can be used; bit 1 Online Capable, it can be enabled later.
    pub flags: u32,
    /// ACPI Processor UID: the `_UID` of the processor's object in the namespace.
    pub processor_uid: u32,
}

/// Local x2APIC NMI: the LINT pin of a local x2APIC that NMIs are connected to (ACPI 6.4, section
/// 5.2.12.13).
#[derive(Clone, Copy, Debug)]
#[repr(C)]
#[non_exhaustive]
pub struct X2ApicNmiEntry {
    /// Type and Length: the entry's type, and its length in bytes.
    pub header: EntryHeader,
    /// MPS INTI Flags: bits 0 and 1 the polarity, bits 2 and 3 the trigger mode.
    pub flags: u16,
    /// ACPI Processor UID: the `_UID` of the processor's object; 0xffffffff for all processors.
    pub processor_uid: u32,
    /// LINT# of the local APIC: 0 for LINT0, 1 for LINT1.
    pub nmi_line: u8,
}
