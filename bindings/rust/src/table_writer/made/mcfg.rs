// Made by scripts/erase of crates/acpi_table_writer/src/made/mcfg.rt, where it is proved.
//! Made by scripts/written of specs/Mcfg.antt.

use crate::base::mcfg::McfgEntry;
use crate::table_writer::fields::{Field, Record};

/// A region.
impl Record for McfgEntry {
    type Fields = [Field; 5];

    fn fields(&self) -> [Field; 5] {
        [
            // 0: Base Address, 8: PCI Segment Group Number
            Field::U64(self.base_address),
            Field::U16(self.pci_segment_group),
            // 10: Start Bus Number, 11: End Bus Number, 12: Reserved
            Field::U8(self.bus_number_start),
            Field::U8(self.bus_number_end),
            Field::Zeros(4),
        ]
    }
}
