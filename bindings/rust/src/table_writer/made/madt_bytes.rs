// Made by scripts/erase of crates/acpi_table_writer/src/made/madt_bytes.rt, where it is proved.
//! Made by scripts/written of specs/MadtBytes.antt.

use crate::base::model::{InterruptSourceOverride, IoApic, NmiSource};
use crate::table_writer::fields::{Field, Record};
use crate::table_writer::madt::MadtProcessor;
use crate::table_writer::madt::entries::{inti_flags, processor_flags};

/// Processor Local x2APIC (section 5.2.12.12).
pub(crate) fn local_x2apic_fields(p: &MadtProcessor) -> [Field; 6] {
    [
        // 0: Type, 1: Length, 2: Reserved, 4: X2APIC ID
        Field::U8(9),
        Field::U8(16),
        Field::Zeros(2),
        Field::U32(p.local_apic_id),
        // 8: Flags, 12: ACPI Processor UID
        Field::U32(processor_flags(p) as u32),
        Field::U32(p.processor_uid),
    ]
}

/// Local APIC Address Override (section 5.2.12.8).
pub(crate) fn override_address_fields(a: u64) -> [Field; 4] {
    [
        // 0: Type, 1: Length, 2: Reserved, 4: Local APIC Address
        Field::U8(5),
        Field::U8(12),
        Field::Zeros(2),
        Field::U64(a),
    ]
}

/// I/O APIC (section 5.2.12.3).
impl Record for IoApic {
    type Fields = [Field; 6];

    fn fields(&self) -> [Field; 6] {
        [
            // 0: Type, 1: Length, 2: I/O APIC ID, 3: Reserved
            Field::U8(1),
            Field::U8(12),
            Field::U8(self.id),
            Field::Zeros(1),
            // 4: I/O APIC Address, 8: Global System Interrupt Base
            Field::U32(self.address),
            Field::U32(self.global_system_interrupt_base),
        ]
    }
}

/// Interrupt Source Override (section 5.2.12.5).
impl Record for InterruptSourceOverride {
    type Fields = [Field; 6];

    fn fields(&self) -> [Field; 6] {
        [
            // 0: Type, 1: Length, 2: Bus, 3: Source
            Field::U8(2),
            Field::U8(10),
            Field::U8(0),
            Field::U8(self.isa_source),
            // 4: Global System Interrupt
            Field::U32(self.global_system_interrupt),
            // 8: Flags
            Field::U16(inti_flags(self.polarity, self.trigger_mode) as u16),
        ]
    }
}

/// NMI Source (section 5.2.12.6).
impl Record for NmiSource {
    type Fields = [Field; 4];

    fn fields(&self) -> [Field; 4] {
        [
            // 0: Type, 1: Length, 2: Flags
            Field::U8(3),
            Field::U8(8),
            Field::U16(inti_flags(self.polarity, self.trigger_mode) as u16),
            // 4: Global System Interrupt
            Field::U32(self.global_system_interrupt),
        ]
    }
}

/// Local APIC NMI (section 5.2.12.7).
pub(crate) fn apic_nmi_fields(uid: u8, flags: u16, line: u8) -> [Field; 6] {
    [
        // 0: Type, 1: Length, 2: ACPI Processor UID
        Field::U8(4),
        Field::U8(6),
        Field::U8(uid),
        // 3: Flags, 5: Local APIC LINT#
        Field::U16(flags),
        Field::U8(line),
        Field::Zeros(0),
    ]
}

/// Local x2APIC NMI (section 5.2.12.13).
pub(crate) fn x2apic_nmi_fields(uid: u32, flags: u16, line: u8) -> [Field; 6] {
    [
        // 0: Type, 1: Length, 2: Flags, 4: ACPI Processor UID
        Field::U8(10),
        Field::U8(12),
        Field::U16(flags),
        Field::U32(uid),
        // 8: Local x2APIC LINT#, 9: Reserved
        Field::U8(line),
        Field::Zeros(3),
    ]
}

/// Multiprocessor Wakeup (section 5.2.12.19).
pub(crate) fn wakeup_fields(a: u64) -> [Field; 5] {
    [
        // 0: Type, 1: Length, 2: MailBoxVersion
        Field::U8(16),
        Field::U8(16),
        Field::Zeros(2),
        // 4: Reserved, 8: MailBoxAddress
        Field::Zeros(4),
        Field::U64(a),
    ]
}
