// Made by scripts/erase of crates/acpi_c_interrupts/src/apics/model.rt, where it is proved.
//! What there is of interrupts and processors in all.

use crate::acpi::Lender;
use crate::c_interrupts::apics::madt::{ApicMadt, apic_madt};
use crate::c_interrupts::apics::records::InterruptModel;
use crate::c_lib::opening::open;
use crate::c_lib::records::Source;
use crate::c_lib::refusal::Refusal;
use crate::c_lib::regions::Mapped;

/// Which controllers interrupts come to, and how many of each sort the first valid MADT has.
pub fn model(source: &Source<'_>) -> Result<InterruptModel, Refusal> {
    let memory = Mapped::new(source.regions)?;
    let tables = open(&memory, source)?;
    match apic_madt(&tables)? {
        Some(found) => Ok(known_model(&found)),
        None => Ok(unknown_model()),
    }
}

/// The model of a machine whose MADT describes no APICs: zeros.
fn unknown_model() -> InterruptModel {
    InterruptModel {
        local_apic_address: 0,
        io_apics: 0,
        overrides: 0,
        nmi_sources: 0,
        nmi_lines: 0,
        processors: 0,
        known: 0,
        also_has_8259: 0,
        reserved: [0; 6],
    }
}

/// The model of a MADT that describes APICs.
pub(crate) fn known_model<H: Lender>(found: &ApicMadt<'_, H>) -> InterruptModel {
    let fixed_address = found.madt.local_apic_address as u64;
    InterruptModel {
        local_apic_address: found.counts.local_apic_address.unwrap_or(fixed_address),
        io_apics: found.counts.io_apics,
        overrides: found.counts.overrides,
        nmi_sources: found.counts.nmi_sources,
        nmi_lines: found.counts.nmi_lines,
        processors: found.counts.processors,
        known: 1,
        also_has_8259: found.madt.supports_8259() as u8,
        reserved: [0; 6],
    }
}
