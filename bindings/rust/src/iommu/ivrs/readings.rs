// Made by scripts/erase of crates/acpi_iommu/src/ivrs/readings.rt, where it is proved.
//! Made by scripts/readings: records, as their definitions in specs/ read them from bytes.

use super::{Ivrs, SdtHeader};
use crate::base::bytes::u32_in;
use crate::base::{PhysicalRecord, SdtTable, Signature};

impl PhysicalRecord for Ivrs {
    const MIN_LENGTH: usize = 48;

    #[inline(always)]
    fn read(bytes: &[u8]) -> Self {
        Ivrs {
            header: SdtHeader::read(bytes),
            info: u32_in(bytes, 36), // IVinfo
        }
    }
}

impl SdtTable for Ivrs {
    const NAME: Signature = Signature::IVRS;

    fn sdt_header(&self) -> &SdtHeader {
        &self.header
    }
}
