// Made by scripts/erase of crates/acpi_base/src/tables/madt/entry/readings.rt, where it is proved.
//! Made by scripts/readings: records, as their definitions in specs/ read them from bytes.

use super::EntryHeader;
use crate::base::PhysicalRecord;
use crate::base::bytes::u8_in;

impl PhysicalRecord for EntryHeader {
    const MIN_LENGTH: usize = 2;

    #[inline(always)]
    fn read(bytes: &[u8]) -> Self {
        assert!(Self::MIN_LENGTH <= bytes.len());
        EntryHeader {
            entry_type: u8_in(bytes, 0), // Type
            length: u8_in(bytes, 1),     // Length
        }
    }
}
