// Made by scripts/erase of crates/acpi_c_devices/src/writing/mcfg/shown.rt, where it is proved.
//! Made by scripts/shown: records for C, and what is written of C's, as definitions in specs/ have them.

use crate::base::mcfg::McfgEntry;
use crate::c_devices::records::PciRegion;

pub(crate) fn region_of(r: &PciRegion) -> McfgEntry {
    McfgEntry {
        base_address: r.base_address,
        pci_segment_group: r.segment_group,
        bus_number_start: r.first_bus,
        bus_number_end: r.last_bus,
    }
}
