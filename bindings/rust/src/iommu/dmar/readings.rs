// Made by scripts/erase of crates/acpi_iommu/src/dmar/readings.rt, where it is proved.
//! Made by scripts/readings: records, as their definitions in specs/ read them from bytes.

use super::{Dmar, SdtHeader};
use crate::base::bytes::u8_in;
use crate::base::{PhysicalRecord, SdtTable, Signature};

impl PhysicalRecord for Dmar {
    const MIN_LENGTH: usize = 48;

    #[inline(always)]
    fn read(bytes: &[u8]) -> Self {
        Dmar {
            header: SdtHeader::read(bytes),
            host_address_width: u8_in(bytes, 36), // Host Address Width
            flags: u8_in(bytes, 37),              // Flags
        }
    }
}

impl SdtTable for Dmar {
    const NAME: Signature = Signature::DMAR;

    fn sdt_header(&self) -> &SdtHeader {
        &self.header
    }
}
