// Made by scripts/erase of crates/acpi_base/src/tables/mcfg/readings.rt, where it is proved.
//! Made by scripts/readings: records, as their definitions in specs/ read them from bytes.

use super::{Mcfg, McfgEntry, SdtHeader};
use crate::base::bytes::{field_in, u8_in, u16_in};
use crate::base::{PhysicalRecord, SdtTable, Signature};

impl PhysicalRecord for Mcfg {
    const MIN_LENGTH: usize = 44;

    #[inline(always)]
    fn read(bytes: &[u8]) -> Self {
        Mcfg { header: SdtHeader::read(bytes) }
    }
}

impl SdtTable for Mcfg {
    const NAME: Signature = Signature::MCFG;

    fn sdt_header(&self) -> &SdtHeader {
        &self.header
    }
}

impl PhysicalRecord for McfgEntry {
    const MIN_LENGTH: usize = 16;

    #[inline(always)]
    fn read(bytes: &[u8]) -> Self {
        McfgEntry {
            base_address: field_in(bytes, 0, 8), // Base Address
            pci_segment_group: u16_in(bytes, 8), // PCI Segment Group Number
            bus_number_start: u8_in(bytes, 10),  // Start Bus Number
            bus_number_end: u8_in(bytes, 11),    // End Bus Number
        }
    }
}
