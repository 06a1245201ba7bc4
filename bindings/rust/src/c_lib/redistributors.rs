// Made by scripts/erase of crates/acpi_c_lib/src/redistributors.rt, where it is proved.
//! The redistributors of a GIC that are written for C from a range of memory (section 5.2.12.17): the crate of a record
//! is the one that can implement another crate's trait for it.

use crate::arm::gic;
use crate::c_lib::records::Range;
use crate::table_writer::spelled::StandsFor;

impl StandsFor<gic::GicRedistributors> for Range {
    fn item(&self) -> gic::GicRedistributors {
        gic::GicRedistributors {
            address: self.address,
            length: if self.length <= 0xffffffff { self.length as u32 } else { 0 },
        }
    }
}
