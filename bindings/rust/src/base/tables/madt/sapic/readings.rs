// Made by scripts/erase of crates/acpi_base/src/tables/madt/sapic/readings.rt, where it is proved.
//! Made by scripts/readings: records, as their definitions in specs/ read them from bytes.

use super::{EntryHeader, IoSapicEntry, LocalSapicEntry, PlatformInterruptSourceEntry};
use crate::base::PhysicalRecord;
use crate::base::bytes::{field_in, u8_in, u16_in, u32_in};

impl PhysicalRecord for IoSapicEntry {
    const MIN_LENGTH: usize = 16;

    #[inline(always)]
    fn read(bytes: &[u8]) -> Self {
        assert!(Self::MIN_LENGTH <= bytes.len());
        IoSapicEntry {
            header: EntryHeader::read(bytes),
            io_apic_id: u8_in(bytes, 2),                    // I/O APIC ID
            global_system_interrupt_base: u32_in(bytes, 4), // Global System Interrupt Base
            io_sapic_address: field_in(bytes, 8, 8),        // I/O SAPIC Address
        }
    }
}

impl PhysicalRecord for LocalSapicEntry {
    const MIN_LENGTH: usize = 16;

    #[inline(always)]
    fn read(bytes: &[u8]) -> Self {
        assert!(Self::MIN_LENGTH <= bytes.len());
        LocalSapicEntry {
            header: EntryHeader::read(bytes),
            processor_id: u8_in(bytes, 2),    // ACPI Processor ID
            local_sapic_id: u8_in(bytes, 3),  // Local SAPIC ID
            local_sapic_eid: u8_in(bytes, 4), // Local SAPIC EID
            flags: u32_in(bytes, 8),          // Flags (Local APIC Flags)
            processor_uid: u32_in(bytes, 12), // ACPI Processor UID Value
        }
    }
}

impl PhysicalRecord for PlatformInterruptSourceEntry {
    const MIN_LENGTH: usize = 16;

    #[inline(always)]
    fn read(bytes: &[u8]) -> Self {
        assert!(Self::MIN_LENGTH <= bytes.len());
        PlatformInterruptSourceEntry {
            header: EntryHeader::read(bytes),
            flags: u16_in(bytes, 2),                            // Flags (MPS INTI Flags)
            interrupt_type: u8_in(bytes, 4),                    // Interrupt Type
            processor_id: u8_in(bytes, 5),                      // Processor ID
            processor_eid: u8_in(bytes, 6),                     // Processor EID
            io_sapic_vector: u8_in(bytes, 7),                   // I/O SAPIC Vector
            global_system_interrupt: u32_in(bytes, 8),          // Global System Interrupt
            platform_interrupt_source_flags: u32_in(bytes, 12), // Platform Interrupt Source Flags
        }
    }
}
