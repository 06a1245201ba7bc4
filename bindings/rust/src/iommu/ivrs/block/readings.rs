// Made by scripts/erase of crates/acpi_iommu/src/ivrs/block/readings.rt, where it is proved.
//! Made by scripts/readings: records, as their definitions in specs/ read them from bytes.

use super::{Ivhd, Ivmd, extended_features_of};
use crate::base::bytes::field;

pub(crate) fn ivhd_at(bytes: &[u8]) -> Ivhd {
    Ivhd {
        kind: field(bytes, 0, 1) as u8,                 // Type
        flags: field(bytes, 1, 1) as u8,                // Flags
        device_id: field(bytes, 4, 2) as u16,           // DeviceID
        capability_offset: field(bytes, 6, 2) as u16,   // Capability Offset
        base: field(bytes, 8, 8),                       // IOMMU Base Address
        segment: field(bytes, 16, 2) as u16,            // PCI Segment Group
        info: field(bytes, 18, 2) as u16,               // IOMMU Info
        features: field(bytes, 20, 4) as u32, // IOMMU Feature Reporting, of types 0x11 and 0x40 IOMMU Attributes
        extended_features: extended_features_of(bytes), // EFR Register Image
    }
}

pub(crate) fn ivmd_at(bytes: &[u8]) -> Ivmd {
    Ivmd {
        kind: field(bytes, 0, 1) as u8,       // Type
        flags: field(bytes, 1, 1) as u8,      // Flags
        device_id: field(bytes, 4, 2) as u16, // DeviceID
        auxiliary: field(bytes, 6, 2) as u16, // Auxiliary Data
        start: field(bytes, 16, 8),           // IVMD start address
        length: field(bytes, 24, 8),          // IVMD memory block length
    }
}
