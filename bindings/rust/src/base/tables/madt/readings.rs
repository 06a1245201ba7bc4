// Made by scripts/erase of crates/acpi_base/src/tables/madt/readings.rt, where it is proved.
//! Made by scripts/readings: records, as their definitions in specs/ read them from bytes.

use super::{Madt, SdtHeader};
use crate::base::bytes::u32_in;
use crate::base::{PhysicalRecord, SdtTable, Signature};

impl PhysicalRecord for Madt {
    const MIN_LENGTH: usize = 44;

    #[inline(always)]
    fn read(bytes: &[u8]) -> Self {
        assert!(Self::MIN_LENGTH <= bytes.len());
        Madt {
            header: SdtHeader::read(bytes),
            local_apic_address: u32_in(bytes, 36), // Local Interrupt Controller Address
            flags: u32_in(bytes, 40),              // Flags (Multiple APIC Flags)
        }
    }
}

impl SdtTable for Madt {
    const NAME: Signature = Signature::MADT;

    fn sdt_header(&self) -> &SdtHeader {
        &self.header
    }
}
