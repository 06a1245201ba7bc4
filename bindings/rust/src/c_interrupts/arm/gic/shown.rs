// Made by scripts/erase of crates/acpi_c_interrupts/src/arm/gic/shown.rt, where it is proved.
//! Made by scripts/shown: records for C, and what is written of C's, as definitions in specs/ have them.

use crate::arm::gic::GicRedistributors;
use crate::c_interrupts::arm::gic::spis_or;
use crate::c_interrupts::arm::records::{GicCpuInterface, GicDistributor, GicMsiFrame, GicTranslationService};
use crate::c_lib::records::Range;

pub(crate) fn distributor_record(d: &crate::arm::gic::GicDistributor) -> GicDistributor {
    GicDistributor {
        address: d.address,
        id: d.id,
        system_vector_base: d.system_vector_base,
        version: d.version,
        reserved: [0; 7],
    }
}

pub(crate) fn cpu_interface_record(x: &crate::arm::gic::GicCpuInterface) -> GicCpuInterface {
    GicCpuInterface {
        mpidr: x.mpidr,
        parked_address: x.parked_address,
        address: x.address,
        virtual_address: x.virtual_address,
        hypervisor_address: x.hypervisor_address,
        redistributor_address: x.redistributor_address,
        number: x.number,
        processor_uid: x.processor_uid,
        performance_interrupt: x.performance_interrupt,
        maintenance_interrupt: x.maintenance_interrupt,
        parking_protocol_version: x.parking_protocol_version,
        spe_overflow_interrupt: x.spe_overflow_interrupt,
        trace_buffer_interrupt: x.trace_buffer_interrupt.unwrap_or(0),
        is_enabled: x.is_enabled as u8,
        is_online_capable: x.is_online_capable as u8,
        performance_trigger: x.performance_trigger.code(),
        maintenance_trigger: x.maintenance_trigger.code(),
        efficiency_class: x.efficiency_class,
        reserved: [0; 3],
    }
}

pub(crate) fn redistributors_record(r: &GicRedistributors) -> Range {
    Range { address: r.address, length: r.length as u64 }
}

pub(crate) fn translation_service_record(t: &crate::arm::gic::GicTranslationService) -> GicTranslationService {
    GicTranslationService { address: t.address, id: t.id, reserved: [0; 4] }
}

pub(crate) fn msi_frame_record(f: &crate::arm::gic::GicMsiFrame) -> GicMsiFrame {
    GicMsiFrame {
        address: f.address,
        id: f.id,
        spi_base: spis_or(f.spis).base,
        spi_count: spis_or(f.spis).count,
        has_spis: f.spis.is_some() as u8,
        reserved: [0; 7],
    }
}
