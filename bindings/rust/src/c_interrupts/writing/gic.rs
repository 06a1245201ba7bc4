// Made by scripts/erase of crates/acpi_c_interrupts/src/writing/gic.rt, where it is proved.
//! The MADT of an Arm machine that is written for C (sections 5.2.12.14 to 5.2.12.18), from its records of the GIC.

mod shown;

use super::madt::is_wiring;
use crate::arm::gic;
use crate::c_interrupts::arm::records::{GicCpuInterface, GicMsiFrame, GicTranslationService};
use crate::c_interrupts::written_records::GicContents;
use crate::c_lib::records::Range;
use crate::c_lib::refusal::Refusal;
use crate::table_writer::spelled::StandsFor;
use crate::table_writer::{WriterError, require};
use shown::{cpu_interface_of, distributor_of, msi_frame_of, translation_service_of};

impl StandsFor<gic::GicCpuInterface> for GicCpuInterface {
    fn item(&self) -> gic::GicCpuInterface {
        cpu_interface_of(self)
    }
}

impl StandsFor<gic::GicTranslationService> for GicTranslationService {
    fn item(&self) -> gic::GicTranslationService {
        translation_service_of(self)
    }
}

impl StandsFor<gic::GicMsiFrame> for GicMsiFrame {
    fn item(&self) -> gic::GicMsiFrame {
        msi_frame_of(self)
    }
}

fn has_codes(interfaces: &[GicCpuInterface]) -> bool {
    interfaces.iter().all(|x| is_wiring(x.performance_trigger) && is_wiring(x.maintenance_trigger))
}

fn are_short(ranges: &[Range]) -> bool {
    ranges.iter().all(|x| x.length < 0x100000000)
}

/// The contents, as the writer has them.
pub fn contents<'a>(
    given: &GicContents<'a>,
) -> crate::table_writer::GicContents<'a, GicCpuInterface, Range, GicTranslationService, GicMsiFrame> {
    crate::table_writer::GicContents {
        distributor: distributor_of(&given.distributor),
        cpu_interfaces: given.cpu_interfaces,
        redistributors: given.redistributors,
        translation_services: given.translation_services,
        msi_frames: given.msi_frames,
    }
}

/// Checks what the writer can't see: returns `UnknownCode` if a trigger mode isn't one that there is, and then
/// `BadRange` if a range of redistributors has 2^32 bytes or more.
pub fn check(given: &GicContents<'_>) -> Result<(), Refusal> {
    require(has_codes(given.cpu_interfaces), Refusal::UnknownCode)?;
    require(are_short(given.redistributors), WriterError::BadRange)?;
    Ok(())
}
