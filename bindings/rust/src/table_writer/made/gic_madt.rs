// Made by scripts/erase of crates/acpi_table_writer/src/made/gic_madt.rt, where it is proved.
//! Made by scripts/written of specs/GicMadt.antt.

use crate::arm::gic::{GicCpuInterface, GicDistributor, GicMsiFrame, GicRedistributors, GicTranslationService};
use crate::table_writer::fields::{Field, Record};
use crate::table_writer::madt::gic::entries::{gicc_flags, gicc_length, has_spis, spis_of, trace_field};
use crate::table_writer::numbers::bit_of;

/// GICD (section 5.2.12.15).
impl Record for GicDistributor {
    type Fields = [Field; 8];

    fn fields(&self) -> [Field; 8] {
        [
            // 0: Type, 1: Length, 2: Reserved, 4: GIC ID
            Field::U8(12),
            Field::U8(24),
            Field::Zeros(2),
            Field::U32(self.id),
            // 8: Physical Base Address, 16: System Vector Base
            Field::U64(self.address),
            Field::U32(self.system_vector_base),
            // 20: GIC version, 21: Reserved
            Field::U8(self.version),
            Field::Zeros(3),
        ]
    }
}

/// GICC (section 5.2.12.14).
impl Record for GicCpuInterface {
    type Fields = [Field; 19];

    fn fields(&self) -> [Field; 19] {
        let trace = self.trace_buffer_interrupt;
        [
            // 0: Type, 1: Length, 2: Reserved
            Field::U8(11),
            Field::U8(gicc_length(trace)),
            Field::Zeros(2),
            // 4: CPU Interface Number, 8: ACPI Processor UID
            Field::U32(self.number),
            Field::U32(self.processor_uid),
            // 12: Flags, 16: Parking Protocol Version
            Field::U32(gicc_flags(self) as u32),
            Field::U32(self.parking_protocol_version),
            // 20: Performance Interrupt GSIV, 24: Parked Address
            Field::U32(self.performance_interrupt),
            Field::U64(self.parked_address),
            // 32: Physical Base Address, 40: GICV
            Field::U64(self.address),
            Field::U64(self.virtual_address),
            // 48: GICH, 56: VGIC Maintenance interrupt
            Field::U64(self.hypervisor_address),
            Field::U32(self.maintenance_interrupt),
            // 60: GICR Base Address, 68: MPIDR
            Field::U64(self.redistributor_address),
            Field::U64(self.mpidr),
            // 76: Processor Power Efficiency Class, 77: Reserved
            Field::U8(self.efficiency_class),
            Field::Zeros(1),
            // 78: SPE overflow Interrupt, 80: TRBE Interrupt
            Field::U16(self.spe_overflow_interrupt),
            trace_field(trace),
        ]
    }
}

/// GICR (section 5.2.12.17).
impl Record for GicRedistributors {
    type Fields = [Field; 5];

    fn fields(&self) -> [Field; 5] {
        [
            // 0: Type, 1: Length, 2: Reserved, 4: Discovery Range Base Address
            Field::U8(14),
            Field::U8(16),
            Field::Zeros(2),
            Field::U64(self.address),
            // 12: Discovery Range Length
            Field::U32(self.length),
        ]
    }
}

/// ITS (section 5.2.12.18).
impl Record for GicTranslationService {
    type Fields = [Field; 6];

    fn fields(&self) -> [Field; 6] {
        [
            // 0: Type, 1: Length, 2: Reserved, 4: GIC ITS ID
            Field::U8(15),
            Field::U8(20),
            Field::Zeros(2),
            Field::U32(self.id),
            // 8: Physical Base Address, 16: Reserved
            Field::U64(self.address),
            Field::Zeros(4),
        ]
    }
}

/// GIC MSI Frame (section 5.2.12.16).
impl Record for GicMsiFrame {
    type Fields = [Field; 8];

    fn fields(&self) -> [Field; 8] {
        [
            // 0: Type, 1: Length, 2: Reserved, 4: GIC MSI Frame ID
            Field::U8(13),
            Field::U8(24),
            Field::Zeros(2),
            Field::U32(self.id),
            // 8: Physical Base Address, 16: Flags
            Field::U64(self.address),
            Field::U32(bit_of(has_spis(self.spis)) as u32),
            // 20: SPI Count, 22: SPI Base
            Field::U16(spis_of(self.spis).count),
            Field::U16(spis_of(self.spis).base),
        ]
    }
}
