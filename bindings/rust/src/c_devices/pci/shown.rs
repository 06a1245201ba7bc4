// Made by scripts/erase of crates/acpi_c_devices/src/pci/shown.rt, where it is proved.
//! Made by scripts/shown: records for C, and what is written of C's, as definitions in specs/ have them.

use crate::base::mcfg::McfgEntry;
use crate::c_devices::records::PciRegion;

pub(crate) fn pci_record(e: &McfgEntry) -> PciRegion {
    PciRegion {
        base_address: e.base_address,
        segment_group: e.pci_segment_group,
        first_bus: e.bus_number_start,
        last_bus: e.bus_number_end,
        reserved: [0; 4],
    }
}
