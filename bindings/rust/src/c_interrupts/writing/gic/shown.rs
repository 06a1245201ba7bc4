// Made by scripts/erase of crates/acpi_c_interrupts/src/writing/gic/shown.rt, where it is proved.
//! Made by scripts/shown: records for C, and what is written of C's, as definitions in specs/ have them.

use crate::arm::gic::SpiRange;
use crate::c_interrupts::arm::records::{GicCpuInterface, GicDistributor, GicMsiFrame, GicTranslationService};
use crate::c_interrupts::writing::madt::trigger;

pub(crate) fn distributor_of(d: &GicDistributor) -> crate::arm::gic::GicDistributor {
    crate::arm::gic::GicDistributor {
        id: d.id,
        address: d.address,
        system_vector_base: d.system_vector_base,
        version: d.version,
    }
}

pub(crate) fn cpu_interface_of(x: &GicCpuInterface) -> crate::arm::gic::GicCpuInterface {
    crate::arm::gic::GicCpuInterface {
        number: x.number,
        processor_uid: x.processor_uid,
        mpidr: x.mpidr,
        is_enabled: x.is_enabled != 0,
        is_online_capable: x.is_online_capable != 0,
        performance_interrupt: x.performance_interrupt,
        performance_trigger: trigger(x.performance_trigger),
        parking_protocol_version: x.parking_protocol_version,
        parked_address: x.parked_address,
        address: x.address,
        virtual_address: x.virtual_address,
        hypervisor_address: x.hypervisor_address,
        maintenance_interrupt: x.maintenance_interrupt,
        maintenance_trigger: trigger(x.maintenance_trigger),
        redistributor_address: x.redistributor_address,
        efficiency_class: x.efficiency_class,
        spe_overflow_interrupt: x.spe_overflow_interrupt,
        trace_buffer_interrupt: (x.trace_buffer_interrupt != 0).then_some(x.trace_buffer_interrupt),
    }
}

pub(crate) fn translation_service_of(t: &GicTranslationService) -> crate::arm::gic::GicTranslationService {
    crate::arm::gic::GicTranslationService { id: t.id, address: t.address }
}

pub(crate) fn msi_frame_of(f: &GicMsiFrame) -> crate::arm::gic::GicMsiFrame {
    crate::arm::gic::GicMsiFrame {
        id: f.id,
        address: f.address,
        spis: (f.has_spis != 0).then_some(SpiRange { base: f.spi_base, count: f.spi_count }),
    }
}
