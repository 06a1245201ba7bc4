// Made by scripts/erase of crates/acpi_base/src/tables/madt/gic.rt, where it is proved.
//! Entries of the GIC model (ACPI 6.4, sections 5.2.12.14 to 5.2.12.18).

mod readings;

use super::entry::EntryHeader;
use crate::base::extended::ExtendedField;

/// GIC CPU Interface (GICC): a processor and its interface to the generic interrupt controller. A
/// field that reaches past the end of a short entry is read as if zeros followed (ACPI 6.4, section
/// 5.2.12.14).
#[derive(Clone, Copy, Debug)]
#[repr(C)]
#[non_exhaustive]
pub struct GiccEntry {
    /// Type and Length: the entry's type, and its length in bytes.
    pub header: EntryHeader,
    /// CPU Interface Number: the number of the interface.
    pub cpu_interface_number: u32,
    /// ACPI Processor UID: the `_UID` of the processor's object in the namespace.
    pub processor_uid: u32,
    /// Flags: bit 0 Enabled, the processor can be used. Bit 1 Performance Interrupt Mode and bit 2 VGIC
    /// Maintenance Interrupt Mode: if set, that interrupt is edge-triggered. Bit 3 Online Capable, since
    /// ACPI 6.5: a processor that isn't enabled can be enabled later.
    pub flags: u32,
    /// Parking Protocol Version: 0 if the processor has none.
    pub parking_protocol_version: u32,
    /// Performance Interrupt GSIV: the interrupt of the performance counters.
    pub performance_interrupt_gsiv: u32,
    /// Parked Address: the physical address of the parking protocol's mailbox.
    pub parked_address: u64,
    /// Physical Base Address (GICC): that of the interface's registers.
    pub gic_registers_address: u64,
    /// GICV: the physical address of the virtual interface's registers.
    pub gic_virtual_registers_address: u64,
    /// GICH: the physical address of the registers that control the virtual interface.
    pub gic_hypervisor_registers_address: u64,
    /// VGIC Maintenance interrupt: that of the virtual interface.
    pub vgic_maintenance_interrupt: u32,
    /// GICR Base Address: that of the processor's redistributor. 0: it is in one of the ranges of
    /// a `GicRedistributorEntry`.
    pub gicr_base_address: u64,
    /// MPIDR: the processor's affinity, as in its register of that name.
    pub mpidr: u64,
    /// Processor Power Efficiency Class: how much power it takes next to the others; less is less.
    pub processor_power_efficiency_class: u8,
    /// SPE overflow Interrupt: that of the statistical profiling extension. 0: there is none.
    pub spe_overflow_interrupt: u16,
    /// TRBE Interrupt: that of the trace buffer, for the MADT's revision 6 and above. 0: there is none.
    pub trbe_interrupt: ExtendedField<u16, 6>,
}

/// GIC Distributor (GICD): that of the generic interrupt controller (ACPI 6.4, section 5.2.12.15).
#[derive(Clone, Copy, Debug)]
#[repr(C)]
#[non_exhaustive]
pub struct GicdEntry {
    /// Type and Length: the entry's type, and its length in bytes.
    pub header: EntryHeader,
    /// GIC ID: the id of the distributor.
    pub gic_id: u32,
    /// Physical Base Address: that of its registers.
    pub physical_base_address: u64,
    /// System Vector Base: the first interrupt of the distributor; reserved, and 0.
    pub system_vector_base: u32,
    /// GIC version: that of the controller, 1 to 4. 0: the hardware has it.
    pub gic_version: u8,
}

/// GIC MSI Frame: a frame that turns messages into interrupts (ACPI 6.4, section 5.2.12.16).
#[derive(Clone, Copy, Debug)]
#[repr(C)]
#[non_exhaustive]
pub struct GicMsiFrameEntry {
    /// Type and Length: the entry's type, and its length in bytes.
    pub header: EntryHeader,
    /// GIC MSI Frame ID: the id of the frame.
    pub frame_id: u32,
    /// Physical Base Address: that of its registers.
    pub physical_base_address: u64,
    /// Flags: bit 0 SPI Count/Base Select, the next two fields count and not the registers.
    pub flags: u32,
    /// SPI Count: the number of interrupts (SPIs) of the frame.
    pub spi_count: u16,
    /// SPI Base: the first interrupt (SPI) of the frame.
    pub spi_base: u16,
}

/// GIC Redistributor (GICR): a range of memory that holds redistributors (ACPI 6.4, section 5.2.12.17).
#[derive(Clone, Copy, Debug)]
#[repr(C)]
#[non_exhaustive]
pub struct GicRedistributorEntry {
    /// Type and Length: the entry's type, and its length in bytes.
    pub header: EntryHeader,
    /// Discovery Range Base Address: the physical address of the range.
    pub discovery_range_base_address: u64,
    /// Discovery Range Length: the number of bytes of the range.
    pub discovery_range_length: u32,
}

/// GIC Interrupt Translation Service (ITS): it translates messages to interrupts (ACPI 6.4, section
/// 5.2.12.18).
#[derive(Clone, Copy, Debug)]
#[repr(C)]
#[non_exhaustive]
pub struct GicInterruptTranslationServiceEntry {
    /// Type and Length: the entry's type, and its length in bytes.
    pub header: EntryHeader,
    /// GIC ITS ID: the id of the service.
    pub id: u32,
    /// Physical Base Address: that of its registers.
    pub physical_base_address: u64,
}
