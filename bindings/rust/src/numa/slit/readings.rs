// Made by scripts/erase of crates/acpi_numa/src/slit/readings.rt, where it is proved.
//! Made by scripts/readings: records, as their definitions in specs/ read them from bytes.

use super::{SdtHeader, Slit};
use crate::base::bytes::field_in;
use crate::base::{PhysicalRecord, SdtTable, Signature};

impl PhysicalRecord for Slit {
    const MIN_LENGTH: usize = 44;

    #[inline(always)]
    fn read(bytes: &[u8]) -> Self {
        Slit {
            header: SdtHeader::read(bytes),
            localities: field_in(bytes, 36, 8), // Number of System Localities
        }
    }
}

impl SdtTable for Slit {
    const NAME: Signature = Signature::SLIT;

    fn sdt_header(&self) -> &SdtHeader {
        &self.header
    }
}
