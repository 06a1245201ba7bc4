// Made by scripts/erase of crates/acpi_table_writer/src/made/srat.rt, where it is proved.
//! Made by scripts/written of specs/Srat.antt.

use crate::numa::MemoryRange;
use crate::table_writer::fields::{Field, Record};
use crate::table_writer::srat::{ApicDomain, GiccDomain, range_flags};

/// Processor Local x2APIC Affinity (section 5.2.16.3).
pub(crate) fn local_x2apic_fields(p: &ApicDomain) -> [Field; 9] {
    [
        // 0: Type, 1: Length, 2: Reserved
        Field::U8(2),
        Field::U8(24),
        Field::Zeros(2),
        // 4: Proximity Domain, 8: X2APIC ID
        Field::U32(p.domain),
        Field::U32(p.local_apic_id),
        // 12: Flags, 16: Clock Domain, 20: Reserved
        Field::U32(1),
        Field::Zeros(4),
        Field::Zeros(4),
        Field::Zeros(0),
    ]
}

/// GICC Affinity (section 5.2.16.4).
impl Record for GiccDomain {
    type Fields = [Field; 6];

    fn fields(&self) -> [Field; 6] {
        [
            // 0: Type, 1: Length, 2: Proximity Domain
            Field::U8(3),
            Field::U8(18),
            Field::U32(self.domain),
            // 6: ACPI Processor UID, 10: Flags, 14: Clock Domain
            Field::U32(self.processor_uid),
            Field::U32(1),
            Field::Zeros(4),
        ]
    }
}

/// Memory Affinity (section 5.2.16.2).
impl Record for MemoryRange {
    type Fields = [Field; 9];

    fn fields(&self) -> [Field; 9] {
        [
            // 0: Type, 1: Length, 2: Proximity Domain, 6: Reserved
            Field::U8(1),
            Field::U8(40),
            Field::U32(self.domain),
            Field::Zeros(2),
            // 8: Base Address Low and High, 16: Length Low and High
            Field::U64(self.base),
            Field::U64(self.length),
            // 24: Reserved, 28: Flags, 32: Reserved
            Field::Zeros(4),
            Field::U32(range_flags(self) as u32),
            Field::Zeros(8),
        ]
    }
}
