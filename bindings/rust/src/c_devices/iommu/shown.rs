// Made by scripts/erase of crates/acpi_c_devices/src/iommu/shown.rt, where it is proved.
//! Made by scripts/shown: records for C, and what is written of C's, as definitions in specs/ have them.

use crate::c_devices::iommu::records::{DmarReserved, DmarSource, DmarUnit, IvrsDevice, IvrsMemory, IvrsUnit};
use crate::iommu::{DeviceUnit, Drhd, Hop, Ivhd, Ivmd, Rmrr, UnitSource};

pub(crate) fn unit_record(d: &Drhd) -> DmarUnit {
    DmarUnit {
        register_base: d.register_base,
        register_bytes: d.register_bytes(),
        segment: d.segment,
        includes_pci_all: d.includes_pci_all() as u8,
        flags: d.flags,
        size: d.size,
        reserved: [0; 3],
    }
}

pub(crate) fn source_record(u: &UnitSource) -> DmarSource {
    DmarSource {
        unit: unit_record(&u.unit),
        bus: u.bus,
        hop: u.hop.unwrap_or(Hop { device: 0, function: 0 }),
        has_hop: u.hop.is_some() as u8,
        reserved: [0; 4],
    }
}

pub(crate) fn reserved_record(r: &Rmrr) -> DmarReserved {
    DmarReserved { base: r.base, limit: r.limit, segment: r.segment, reserved: [0; 6] }
}

pub(crate) fn block_record(b: &Ivhd) -> IvrsUnit {
    IvrsUnit {
        base: b.base,
        extended_features: b.extended_features.unwrap_or(0),
        features: b.features,
        segment: b.segment,
        device_id: b.device_id,
        capability_offset: b.capability_offset,
        info: b.info,
        block_type: b.kind,
        flags: b.flags,
        has_extended_features: b.extended_features.is_some() as u8,
        reserved: 0,
    }
}

pub(crate) fn device_record(d: &DeviceUnit) -> IvrsDevice {
    IvrsDevice { unit: block_record(&d.unit), source_id: d.source, settings: d.settings, reserved: [0; 5] }
}

pub(crate) fn memory_record(m: &Ivmd) -> IvrsMemory {
    IvrsMemory {
        start: m.start,
        length: m.length,
        device_id: m.device_id,
        auxiliary: m.auxiliary,
        block_type: m.kind,
        flags: m.flags,
        reserved: [0; 2],
    }
}
