// Made by scripts/erase of crates/acpi_iommu/src/dmar/fields/readings.rt, where it is proved.
//! Made by scripts/readings: records, as their definitions in specs/ read them from bytes.

use super::{Andd, Atsr, Drhd, Rhsa, Rmrr, Satc, Sidp, segment_of};
use crate::base::bytes::field;

pub(crate) fn drhd_at(bytes: &[u8]) -> Drhd {
    Drhd {
        flags: field(bytes, 4, 1) as u8,   // Flags
        size: field(bytes, 5, 1) as u8,    // Size
        segment: segment_of(bytes),        // Segment Number
        register_base: field(bytes, 8, 8), // Register Base Address
    }
}

pub(crate) fn rmrr_at(bytes: &[u8]) -> Rmrr {
    Rmrr {
        segment: segment_of(bytes), // Segment Number
        base: field(bytes, 8, 8),   // Reserved Memory Region Base Address
        limit: field(bytes, 16, 8), // Reserved Memory Region Limit Address
    }
}

pub(crate) fn atsr_at(bytes: &[u8]) -> Atsr {
    Atsr {
        flags: field(bytes, 4, 1) as u8, // Flags
        segment: segment_of(bytes),      // Segment Number
    }
}

pub(crate) fn rhsa_at(bytes: &[u8]) -> Rhsa {
    Rhsa {
        register_base: field(bytes, 8, 8),  // Register Base Address
        domain: field(bytes, 16, 4) as u32, // Proximity Domain
    }
}

pub(crate) fn andd_at(bytes: &[u8]) -> Andd {
    Andd {
        device_number: field(bytes, 7, 1) as u8, // ACPI Device Number
    }
}

pub(crate) fn satc_at(bytes: &[u8]) -> Satc {
    Satc {
        flags: field(bytes, 4, 1) as u8, // Flags
        segment: segment_of(bytes),      // Segment Number
    }
}

pub(crate) fn sidp_at(bytes: &[u8]) -> Sidp {
    Sidp {
        segment: segment_of(bytes), // Segment Number
    }
}
