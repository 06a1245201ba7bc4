// Made by scripts/erase of crates/acpi/src/hpet/readings.rt, where it is proved.
//! Made by scripts/readings: records, as their definitions in specs/ read them from bytes.

use super::{HpetTable, SdtHeader};
use crate::base::bytes::{field_in, u8_in, u16_in, u32_in};
use crate::base::{PhysicalRecord, SdtTable, Signature};

impl PhysicalRecord for HpetTable {
    const MIN_LENGTH: usize = 56;

    #[inline(always)]
    fn read(bytes: &[u8]) -> Self {
        HpetTable {
            header: SdtHeader::read(bytes),
            event_timer_block_id: u32_in(bytes, 36),   // Event Timer Block ID
            address_space: u8_in(bytes, 40),           // BASE_ADDRESS: Address Space ID
            address: field_in(bytes, 44, 8),           // BASE_ADDRESS: Address
            hpet_number: u8_in(bytes, 52),             // HPET Number
            clock_tick_unit: u16_in(bytes, 53),        // Main Counter Minimum Clock_tick in Periodic Mode
            page_protection_and_oem: u8_in(bytes, 55), // Page Protection And OEM Attribute
        }
    }
}

impl SdtTable for HpetTable {
    const NAME: Signature = Signature::HPET;

    fn sdt_header(&self) -> &SdtHeader {
        &self.header
    }
}
