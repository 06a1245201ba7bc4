// Made by scripts/erase of crates/acpi_c_devices/src/iommu/records.rt, where it is proved.
//! Made by scripts/records: what C sees of the units that remap devices' accesses to memory.
//! `include/zacpi.h` has what each field is.

pub use crate::iommu::Hop;

/// `struct zacpi_dmar_flags`.
#[repr(C)]
#[derive(Clone, Copy, Debug, Default, PartialEq, Eq)]
#[non_exhaustive]
pub struct DmarFlags {
    /// Host Address Width plus 1.
    pub address_bits: u16,
    /// Flags: of `enum zacpi_dmar_flag`.
    pub flags: u8,
    /// Reserved: 0.
    pub reserved: u8,
}

/// `struct zacpi_dmar_unit`.
#[repr(C)]
#[derive(Clone, Copy, Debug, Default, PartialEq, Eq)]
#[non_exhaustive]
pub struct DmarUnit {
    /// The physical address of its registers.
    pub register_base: u64,
    /// Register bytes: 2^n pages of 4 KiB, with n in bits 0 to 3 of Size.
    pub register_bytes: u64,
    /// PCI segment group.
    pub segment: u16,
    /// Includes PCI all: bit 0 of Flags.
    pub includes_pci_all: u8,
    /// Flags, as the table has them.
    pub flags: u8,
    /// The size, as the table has it.
    pub size: u8,
    /// Reserved: 0.
    pub reserved: [u8; 3],
}

/// `struct zacpi_dmar_scope`.
#[repr(C)]
#[derive(Clone, Copy, Debug, Default, PartialEq, Eq)]
#[non_exhaustive]
pub struct DmarScope {
    /// Path length: how many hops Path has; `path` lists the first 16, then zeros.
    pub path_length: usize,
    /// Type of the device scope.
    pub scope_type: u8,
    /// Flags, as the table has them.
    pub flags: u8,
    /// Enumeration ID: of an I/O APIC or an HPET.
    pub enumeration_id: u8,
    /// Start Bus Number.
    pub bus: u8,
    /// Path: the first 16 hops to the device.
    pub path: [Hop; 16],
    /// Reserved: 0.
    pub reserved: [u8; 4],
}

/// `struct zacpi_dmar_source`.
#[repr(C)]
#[derive(Clone, Copy, Debug, Default, PartialEq, Eq)]
#[non_exhaustive]
pub struct DmarSource {
    /// The unit that remaps the device.
    pub unit: DmarUnit,
    /// Start Bus Number; with a Path of one hop, bus and hop are the id.
    pub bus: u8,
    /// Hop: the last one of Path, or zeros.
    pub hop: Hop,
    /// Whether Path has a hop.
    pub has_hop: u8,
    /// Reserved: 0.
    pub reserved: [u8; 4],
}

/// `struct zacpi_dmar_reserved`.
#[repr(C)]
#[derive(Clone, Copy, Debug, Default, PartialEq, Eq)]
#[non_exhaustive]
pub struct DmarReserved {
    /// Base: the first byte.
    pub base: u64,
    /// Limit: the last byte.
    pub limit: u64,
    /// PCI segment group.
    pub segment: u16,
    /// Reserved: 0.
    pub reserved: [u8; 6],
}

/// `struct zacpi_dmar_root_ports`.
#[repr(C)]
#[derive(Clone, Copy, Debug, Default, PartialEq, Eq)]
#[non_exhaustive]
pub struct DmarRootPorts {
    /// PCI segment group.
    pub segment: u16,
    /// ALL_PORTS, bit 0 of Flags: all root ports of the segment; else the ones of its device scopes.
    pub includes_all: u8,
    /// Flags, as the table has them.
    pub flags: u8,
}

/// `struct zacpi_dmar_affinity`.
#[repr(C)]
#[derive(Clone, Copy, Debug, Default, PartialEq, Eq)]
#[non_exhaustive]
pub struct DmarAffinity {
    /// Register base: of the unit that is in the domain.
    pub register_base: u64,
    /// Proximity Domain.
    pub domain: u32,
    /// Reserved: 0.
    pub reserved: [u8; 4],
}

/// `struct zacpi_ivrs_unit`.
#[repr(C)]
#[derive(Clone, Copy, Debug, Default, PartialEq, Eq)]
#[non_exhaustive]
pub struct IvrsUnit {
    /// The physical address of its registers.
    pub base: u64,
    /// EFR Register Image, or 0.
    pub extended_features: u64,
    /// IOMMU Feature Reporting; of Types 0x11 and 0x40 IOMMU Attributes.
    pub features: u32,
    /// PCI segment group.
    pub segment: u16,
    /// Device ID: the unit's own.
    pub device_id: u16,
    /// Capability Offset: of the unit in its configuration space.
    pub capability_offset: u16,
    /// IOMMU Info.
    pub info: u16,
    /// The type of the block.
    pub block_type: u8,
    /// Flags: of `enum zacpi_ivhd_flag`.
    pub flags: u8,
    /// Has extended features: 0 for Type 0x10.
    pub has_extended_features: u8,
    /// Reserved: 0.
    pub reserved: u8,
}

/// `struct zacpi_ivrs_device`.
#[repr(C)]
#[derive(Clone, Copy, Debug, Default, PartialEq, Eq)]
#[non_exhaustive]
pub struct IvrsDevice {
    /// The unit that remaps the device.
    pub unit: IvrsUnit,
    /// Source DeviceID of an alias (Types 0x42 and 0x43), else the device's own id.
    pub source_id: u16,
    /// DTE Setting of the entry.
    pub settings: u8,
    /// Reserved: 0.
    pub reserved: [u8; 5],
}

/// `struct zacpi_ivrs_memory`.
#[repr(C)]
#[derive(Clone, Copy, Debug, Default, PartialEq, Eq)]
#[non_exhaustive]
pub struct IvrsMemory {
    /// The physical address of its first byte.
    pub start: u64,
    /// The number of bytes.
    pub length: u64,
    /// The device's id: bus, device and function.
    pub device_id: u16,
    /// Auxiliary Data: of Type 0x22 the last device.
    pub auxiliary: u16,
    /// Block type: 0x20 for all devices, 0x21 for one, 0x22 for a range.
    pub block_type: u8,
    /// Flags: of `enum zacpi_ivmd_flag`.
    pub flags: u8,
    /// Reserved: 0.
    pub reserved: [u8; 2],
}

/// `struct zacpi_ivrs_entry`.
#[repr(C)]
#[derive(Clone, Copy, Debug, Default, PartialEq, Eq)]
#[non_exhaustive]
pub struct IvrsEntry {
    /// Unique ID length: `unique_id` is the first 32 bytes of Unique ID, then zeros.
    pub unique_id_length: usize,
    /// Extended DTE Setting.
    pub extended_settings: u32,
    /// The first device, or byte 1.
    pub first: u16,
    /// The last device, or byte 2.
    pub last: u16,
    /// Source DeviceID of Types 0x42, 0x43 and 0x48.
    pub source_id: u16,
    /// Type of the entry.
    pub entry_type: u8,
    /// DTE Setting.
    pub settings: u8,
    /// Handle of the device.
    pub handle: u8,
    /// Variety of the device.
    pub variety: u8,
    /// The hardware id of the device.
    pub hardware_id: [u8; 8],
    /// The compatible id of the device, _CID.
    pub compatible_id: [u8; 8],
    /// Format of the unique id.
    pub unique_id_format: u8,
    /// The first 32 bytes of the device's unique id, and zeros.
    pub unique_id: [u8; 32],
    /// Reserved: 0.
    pub reserved: u8,
}
