// Made by scripts/erase of crates/acpi_numa/src/srat/readings.rt, where it is proved.
//! Made by scripts/readings: records, as their definitions in specs/ read them from bytes.

use super::{SdtHeader, Srat};
use crate::base::{PhysicalRecord, SdtTable, Signature};

impl PhysicalRecord for Srat {
    const MIN_LENGTH: usize = 48;

    #[inline(always)]
    fn read(bytes: &[u8]) -> Self {
        Srat { header: SdtHeader::read(bytes) }
    }
}

impl SdtTable for Srat {
    const NAME: Signature = Signature::SRAT;

    fn sdt_header(&self) -> &SdtHeader {
        &self.header
    }
}
