// Made by scripts/erase of crates/acpi_c_devices/src/writing/srat.rt, where it is proved.
//! The SRAT that is written for C (section 5.2.16), from its records of processors and of ranges of memory.

mod shown;

use crate::c_devices::numa::records::MemoryAffinity;
use crate::c_devices::written_records::SratContents;
use crate::numa::MemoryRange;
use crate::table_writer::spelled::StandsFor;
use shown::range_of;

impl StandsFor<MemoryRange> for MemoryAffinity {
    fn item(&self) -> MemoryRange {
        range_of(self)
    }
}

/// What the SRAT is to contain, as the writer has it.
pub fn contents<'a>(given: &SratContents<'a>) -> crate::table_writer::SratContents<'a, MemoryAffinity> {
    crate::table_writer::SratContents { apics: given.apics, giccs: given.giccs, ranges: given.ranges }
}
