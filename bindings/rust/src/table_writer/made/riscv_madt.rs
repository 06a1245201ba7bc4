// Made by scripts/erase of crates/acpi_table_writer/src/made/riscv_madt.rt, where it is proved.
//! Made by scripts/written of specs/RiscvMadt.antt.

use crate::riscv::{Aplic, Imsic, Plic, Rintc};
use crate::table_writer::fields::{Field, Record};

/// RISC-V Interrupt Controller (RINTC).
impl Record for Rintc {
    type Fields = [Field; 10];

    fn fields(&self) -> [Field; 10] {
        [
            // 0: Type, 1: Length, 2: Version, 3: Reserved
            Field::U8(0x18),
            Field::U8(36),
            Field::U8(self.version),
            Field::Zeros(1),
            // 4: Flags, 8: Hart ID, 16: ACPI Processor UID
            Field::U32(self.flags),
            Field::U64(self.hart_id),
            Field::U32(self.processor_uid),
            // 20: External Interrupt Controller ID
            Field::U32(self.external_interrupt_controller_id),
            // 24: IMSIC Base Address, 32: IMSIC Size
            Field::U64(self.imsic_address),
            Field::U32(self.imsic_size),
        ]
    }
}

/// Incoming MSI Controller (IMSIC).
impl Record for Imsic {
    type Fields = [Field; 11];

    fn fields(&self) -> [Field; 11] {
        [
            // 0: Type, 1: Length, 2: Version, 3: Reserved
            Field::U8(0x19),
            Field::U8(16),
            Field::U8(self.version),
            Field::Zeros(1),
            // 4: Flags, 8: Number of Supervisor Mode Interrupt Identities
            Field::U32(self.flags),
            Field::U16(self.supervisor_identities),
            // 10: Number of Guest Mode Interrupt Identities
            Field::U16(self.guest_identities),
            // 12: Guest Index Bits, 13: Hart Index Bits
            Field::U8(self.guest_index_bits),
            Field::U8(self.hart_index_bits),
            // 14: Group Index Bits, 15: Group Index Shift
            Field::U8(self.group_index_bits),
            Field::U8(self.group_index_shift),
        ]
    }
}

/// Advanced Platform Level Interrupt Controller (APLIC).
impl Record for Aplic {
    type Fields = [Field; 11];

    fn fields(&self) -> [Field; 11] {
        [
            // 0: Type, 1: Length, 2: Version, 3: APLIC ID
            Field::U8(0x1a),
            Field::U8(36),
            Field::U8(self.version),
            Field::U8(self.id),
            // 4: Flags, 8: Hardware ID, 16: Number of IDCs
            Field::U32(self.flags),
            Field::U64(self.hardware_id),
            Field::U16(self.idc_count),
            // 18: Total External Interrupt Sources Supported
            Field::U16(self.source_count),
            // 20: Global System Interrupt Base, 24: APLIC Address
            Field::U32(self.global_system_interrupt_base),
            Field::U64(self.address),
            // 32: APLIC Size
            Field::U32(self.size),
        ]
    }
}

/// Platform Level Interrupt Controller (PLIC).
impl Record for Plic {
    type Fields = [Field; 11];

    fn fields(&self) -> [Field; 11] {
        [
            // 0: Type, 1: Length, 2: Version, 3: PLIC ID
            Field::U8(0x1b),
            Field::U8(36),
            Field::U8(self.version),
            Field::U8(self.id),
            // 4: Hardware ID, 12: Total External Interrupt Sources Supported
            Field::U64(self.hardware_id),
            Field::U16(self.source_count),
            // 14: Max Priority, 16: Flags, 20: PLIC Size
            Field::U16(self.max_priority),
            Field::U32(self.flags),
            Field::U32(self.size),
            // 24: PLIC Address
            Field::U64(self.address),
            // 32: Global System Interrupt Vector Base
            Field::U32(self.global_system_interrupt_base),
        ]
    }
}
