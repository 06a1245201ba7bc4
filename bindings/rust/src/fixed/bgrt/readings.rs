// Made by scripts/erase of crates/acpi_fixed/src/bgrt/readings.rt, where it is proved.
//! Made by scripts/readings: records, as their definitions in specs/ read them from bytes.

use super::{Bgrt, SdtHeader};
use crate::base::bytes::{field_in, u8_in, u16_in, u32_in};
use crate::base::{PhysicalRecord, SdtTable, Signature};

impl PhysicalRecord for Bgrt {
    const MIN_LENGTH: usize = 56;

    #[inline(always)]
    fn read(bytes: &[u8]) -> Self {
        Bgrt {
            header: SdtHeader::read(bytes),
            version: u16_in(bytes, 36),            // Version
            status: u8_in(bytes, 38),              // Status
            image_type: u8_in(bytes, 39),          // Image Type
            image_address: field_in(bytes, 40, 8), // Image Address
            x: u32_in(bytes, 48),                  // Image Offset X
            y: u32_in(bytes, 52),                  // Image Offset Y
        }
    }
}

impl SdtTable for Bgrt {
    const NAME: Signature = Signature::BGRT;

    fn sdt_header(&self) -> &SdtHeader {
        &self.header
    }
}
