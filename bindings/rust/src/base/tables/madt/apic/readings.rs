// Made by scripts/erase of crates/acpi_base/src/tables/madt/apic/readings.rt, where it is proved.
//! Made by scripts/readings: records, as their definitions in specs/ read them from bytes.

use super::{
    EntryHeader, InterruptSourceOverrideEntry, IoApicEntry, LocalApicAddressOverrideEntry, LocalApicEntry,
    LocalApicNmiEntry, LocalX2ApicEntry, NmiSourceEntry, X2ApicNmiEntry,
};
use crate::base::PhysicalRecord;
use crate::base::bytes::{field_in, u8_in, u16_in, u32_in};

impl PhysicalRecord for LocalApicEntry {
    const MIN_LENGTH: usize = 8;

    #[inline(always)]
    fn read(bytes: &[u8]) -> Self {
        assert!(Self::MIN_LENGTH <= bytes.len());
        LocalApicEntry {
            header: EntryHeader::read(bytes),
            processor_id: u8_in(bytes, 2), // ACPI Processor UID
            apic_id: u8_in(bytes, 3),      // APIC ID
            flags: u32_in(bytes, 4),       // Flags (Local APIC Flags)
        }
    }
}

impl PhysicalRecord for IoApicEntry {
    const MIN_LENGTH: usize = 12;

    #[inline(always)]
    fn read(bytes: &[u8]) -> Self {
        assert!(Self::MIN_LENGTH <= bytes.len());
        IoApicEntry {
            header: EntryHeader::read(bytes),
            io_apic_id: u8_in(bytes, 2),                    // I/O APIC ID
            io_apic_address: u32_in(bytes, 4),              // I/O APIC Address
            global_system_interrupt_base: u32_in(bytes, 8), // Global System Interrupt Base
        }
    }
}

impl PhysicalRecord for InterruptSourceOverrideEntry {
    const MIN_LENGTH: usize = 10;

    #[inline(always)]
    fn read(bytes: &[u8]) -> Self {
        assert!(Self::MIN_LENGTH <= bytes.len());
        InterruptSourceOverrideEntry {
            header: EntryHeader::read(bytes),
            bus: u8_in(bytes, 2),                      // Bus
            irq: u8_in(bytes, 3),                      // Source
            global_system_interrupt: u32_in(bytes, 4), // Global System Interrupt
            flags: u16_in(bytes, 8),                   // Flags (MPS INTI Flags)
        }
    }
}

impl PhysicalRecord for NmiSourceEntry {
    const MIN_LENGTH: usize = 8;

    #[inline(always)]
    fn read(bytes: &[u8]) -> Self {
        assert!(Self::MIN_LENGTH <= bytes.len());
        NmiSourceEntry {
            header: EntryHeader::read(bytes),
            flags: u16_in(bytes, 2),                   // Flags (MPS INTI Flags)
            global_system_interrupt: u32_in(bytes, 4), // Global System Interrupt
        }
    }
}

impl PhysicalRecord for LocalApicNmiEntry {
    const MIN_LENGTH: usize = 6;

    #[inline(always)]
    fn read(bytes: &[u8]) -> Self {
        assert!(Self::MIN_LENGTH <= bytes.len());
        LocalApicNmiEntry {
            header: EntryHeader::read(bytes),
            processor_id: u8_in(bytes, 2), // ACPI Processor UID
            flags: u16_in(bytes, 3),       // Flags (MPS INTI Flags)
            nmi_line: u8_in(bytes, 5),     // Local APIC LINT#
        }
    }
}

impl PhysicalRecord for LocalApicAddressOverrideEntry {
    const MIN_LENGTH: usize = 12;

    #[inline(always)]
    fn read(bytes: &[u8]) -> Self {
        assert!(Self::MIN_LENGTH <= bytes.len());
        LocalApicAddressOverrideEntry {
            header: EntryHeader::read(bytes),
            local_apic_address: field_in(bytes, 4, 8), // Local APIC Address
        }
    }
}

impl PhysicalRecord for LocalX2ApicEntry {
    const MIN_LENGTH: usize = 16;

    #[inline(always)]
    fn read(bytes: &[u8]) -> Self {
        assert!(Self::MIN_LENGTH <= bytes.len());
        LocalX2ApicEntry {
            header: EntryHeader::read(bytes),
            x2apic_id: u32_in(bytes, 4),      // X2APIC ID
            flags: u32_in(bytes, 8),          // Flags (Local APIC Flags)
            processor_uid: u32_in(bytes, 12), // ACPI Processor UID
        }
    }
}

impl PhysicalRecord for X2ApicNmiEntry {
    const MIN_LENGTH: usize = 12;

    #[inline(always)]
    fn read(bytes: &[u8]) -> Self {
        assert!(Self::MIN_LENGTH <= bytes.len());
        X2ApicNmiEntry {
            header: EntryHeader::read(bytes),
            flags: u16_in(bytes, 2),         // Flags (MPS INTI Flags)
            processor_uid: u32_in(bytes, 4), // ACPI Processor UID
            nmi_line: u8_in(bytes, 8),       // Local x2APIC LINT#
        }
    }
}
