// Made by scripts/erase of crates/acpi_base/src/tables/madt/wakeup/readings.rt, where it is proved.
//! Made by scripts/readings: records, as their definitions in specs/ read them from bytes.

use super::{EntryHeader, MultiprocessorWakeupEntry};
use crate::base::PhysicalRecord;
use crate::base::bytes::{field_in, u16_in};

impl PhysicalRecord for MultiprocessorWakeupEntry {
    const MIN_LENGTH: usize = 16;

    #[inline(always)]
    fn read(bytes: &[u8]) -> Self {
        assert!(Self::MIN_LENGTH <= bytes.len());
        MultiprocessorWakeupEntry {
            header: EntryHeader::read(bytes),
            mailbox_version: u16_in(bytes, 2),      // MailBoxVersion
            mailbox_address: field_in(bytes, 8, 8), // MailBoxAddress
        }
    }
}
