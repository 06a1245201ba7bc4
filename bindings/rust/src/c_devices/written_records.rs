// Made by scripts/erase of crates/acpi_c_devices/src/written_records.rt, where it is proved.
//! Made by scripts/records: what C sees of the tables of devices and domains that are to be written.
//! `include/zacpi.h` has what each field is.

use crate::c_devices::fixed::records::Console;
use crate::c_devices::numa::records::MemoryAffinity;
use crate::table_writer::{ApicDomain, GiccDomain};

/// `struct zacpi_srat_contents`.
#[repr(C)]
#[derive(Clone, Copy, Debug, Default, PartialEq, Eq)]
pub struct SratContents<'a> {
    /// The domains of local APICs.
    pub apics: &'a [ApicDomain],
    /// The domains of processors with a GIC.
    pub giccs: &'a [GiccDomain],
    /// The ranges of memory, with their domains.
    pub ranges: &'a [MemoryAffinity],
}

/// `struct zacpi_spcr_contents`.
#[repr(C)]
#[derive(Clone, Copy, Debug, Default, PartialEq, Eq)]
pub struct SpcrContents {
    /// The console, as `console` returns it.
    pub console: Console,
    /// Interrupt controllers: bits 1 to 4 of Interrupt Type: 2 an I/O APIC, 4 an I/O SAPIC, 8 a GIC, 16 a PLIC or an
    /// APLIC, or a sum of these, if has_global_system_interrupt.
    pub interrupt_controllers: u8,
    /// Flow Control.
    pub flow_control: u8,
    /// Terminal Type.
    pub terminal_type: u8,
}

/// `struct zacpi_facs_contents`.
#[repr(C)]
#[derive(Clone, Copy, Debug, Default, PartialEq, Eq)]
pub struct FacsContents {
    /// X_Firmware_Waking_Vector.
    pub waking_vector_64: u64,
    /// Hardware Signature.
    pub hardware_signature: u32,
    /// Firmware_Waking_Vector.
    pub waking_vector: u32,
    /// Whether S4BIOS is supported: S4BIOS_F.
    pub supports_s4bios: u8,
    /// Whether 64-bit wake is supported: 64BIT_WAKE_SUPPORTED_F.
    pub supports_64_bit_wake: u8,
}
