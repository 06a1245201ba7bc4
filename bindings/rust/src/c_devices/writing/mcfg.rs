// Made by scripts/erase of crates/acpi_c_devices/src/writing/mcfg.rt, where it is proved.
//! The MCFG that is written for C, from the records as which C reads it.

mod shown;

use crate::base::mcfg::McfgEntry;
use crate::c_devices::records::PciRegion;
use crate::table_writer::spelled::StandsFor;
use shown::region_of;

impl StandsFor<McfgEntry> for PciRegion {
    fn item(&self) -> McfgEntry {
        region_of(self)
    }
}
