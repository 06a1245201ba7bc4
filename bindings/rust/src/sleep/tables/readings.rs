// Made by scripts/erase of crates/acpi_sleep/src/tables/readings.rt, where it is proved.
//! Made by scripts/readings: records, as their definitions in specs/ read them from bytes.

use super::{SdtHeader, Ssdt};
use crate::base::{PhysicalRecord, SdtTable, Signature};

impl PhysicalRecord for Ssdt {
    const MIN_LENGTH: usize = 36;

    #[inline(always)]
    fn read(bytes: &[u8]) -> Self {
        Ssdt { header: SdtHeader::read(bytes) }
    }
}

impl SdtTable for Ssdt {
    const NAME: Signature = Signature::SSDT;

    fn sdt_header(&self) -> &SdtHeader {
        &self.header
    }
}
