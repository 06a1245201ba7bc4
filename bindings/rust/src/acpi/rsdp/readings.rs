// Made by scripts/erase of crates/acpi/src/rsdp/readings.rt, where it is proved.
//! Made by scripts/readings: records, as their definitions in specs/ read them from bytes.

use super::Rsdp;
use crate::base::PhysicalRecord;
use crate::base::bytes::{field_in, u8_in, u32_in};

impl PhysicalRecord for Rsdp {
    const MIN_LENGTH: usize = 36;

    #[inline(always)]
    fn read(bytes: &[u8]) -> Self {
        Rsdp {
            // Signature
            signature: [bytes[0], bytes[1], bytes[2], bytes[3], bytes[4], bytes[5], bytes[6], bytes[7]],
            checksum: u8_in(bytes, 8), // Checksum
            // OEMID
            oem_id: [bytes[9], bytes[10], bytes[11], bytes[12], bytes[13], bytes[14]],
            revision: u8_in(bytes, 15),           // Revision
            rsdt_address: u32_in(bytes, 16),      // RsdtAddress
            length: u32_in(bytes, 20),            // Length
            xsdt_address: field_in(bytes, 24, 8), // XsdtAddress
            ext_checksum: u8_in(bytes, 32),       // Extended Checksum
        }
    }
}
