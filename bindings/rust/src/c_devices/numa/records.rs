// Made by scripts/erase of crates/acpi_c_devices/src/numa/records.rt, where it is proved.
//! Made by scripts/records: what C sees of domains and of the distances between localities.
//! `include/zacpi.h` has what each field is.

/// `struct zacpi_memory_affinity`.
#[repr(C)]
#[derive(Clone, Copy, Debug, Default, PartialEq, Eq)]
pub struct MemoryAffinity {
    /// The physical address.
    pub address: u64,
    /// Length: at least one.
    pub length: u64,
    /// Proximity Domain; below revision 2 its lowest byte.
    pub domain: u32,
    /// Whether it may be added or removed while the machine runs.
    pub is_hot_pluggable: u8,
    /// Whether it is non-volatile.
    pub is_non_volatile: u8,
    /// Reserved: 0.
    pub reserved: [u8; 2],
}

/// `struct zacpi_processor_affinity`.
#[repr(C)]
#[derive(Clone, Copy, Debug, Default, PartialEq, Eq)]
#[non_exhaustive]
pub struct ProcessorAffinity {
    /// APIC ID of Type 0, X2APIC ID of Type 2, ACPI Processor UID of Type 3.
    pub id: u32,
    /// Proximity Domain; of Type 0 below revision 2 its lowest byte.
    pub domain: u32,
    /// Clock Domain.
    pub clock_domain: u32,
    /// Entry type: 0, 2 or 3.
    pub entry_type: u8,
    /// Reserved: 0.
    pub reserved: [u8; 3],
}

/// `struct zacpi_generic_initiator`.
#[repr(C)]
#[derive(Clone, Copy, Debug, Default, PartialEq, Eq)]
#[non_exhaustive]
pub struct GenericInitiator {
    /// Proximity Domain.
    pub domain: u32,
    /// Architectural Transactions, bit 1 of Flags.
    pub is_architectural: u8,
    /// Device Handle Type: what `handle` contains. 0: _HID in 8 bytes, _UID in 4. 1: PCI Segment in 2 bytes, PCI BDF
    /// Number in 2.
    pub handle_type: u8,
    /// Device Handle.
    pub handle: [u8; 16],
    /// Reserved: 0.
    pub reserved: [u8; 2],
}

/// `struct zacpi_its_affinity`.
#[repr(C)]
#[derive(Clone, Copy, Debug, Default, PartialEq, Eq)]
#[non_exhaustive]
pub struct ItsAffinity {
    /// Proximity Domain.
    pub domain: u32,
    /// ITS ID: `id` of an item of zacpi_list_gic_translation_services.
    pub its_id: u32,
}

/// `struct zacpi_localities`.
#[repr(C)]
#[derive(Clone, Copy, Debug, Default, PartialEq, Eq)]
#[non_exhaustive]
pub struct Localities {
    /// Number of System Localities: rows of the matrix, from 0 on.
    pub localities: u64,
    /// Is sane: 1: there are localities, the table lists all distances, each locality is at 10 from itself, and at more
    /// than 10 from others.
    pub is_sane: u8,
    /// Reserved: 0.
    pub reserved: [u8; 7],
}
