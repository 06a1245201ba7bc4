// Made by scripts/erase of crates/acpi_c_interrupts/src/writing/madt.rt, where it is proved.
//! The MADT that is written for C (section 5.2.12), from its records of processors and interrupt controllers.

mod shown;

use crate::base::model;
use crate::base::model::{Polarity, TriggerMode};
use crate::c_interrupts::apics::records::{InterruptSourceOverride, IoApic, NmiLine, NmiSource, Processor};
use crate::c_interrupts::written_records::MadtContents;
use crate::table_writer::spelled::StandsFor;
use crate::table_writer::{MadtNmiLine, MadtProcessor};
use shown::{io_apic_of, nmi_line_of, nmi_source_of, override_of, processor_of};

/// Whether a number is the code of a polarity, which is one of a trigger mode too.
pub(super) fn is_wiring(code: u8) -> bool {
    Polarity::try_from(code).is_ok()
}

pub(super) fn polarity(code: u8) -> Polarity {
    Polarity::try_from(code).unwrap_or(Polarity::SameAsBus)
}

pub(super) fn trigger(code: u8) -> TriggerMode {
    TriggerMode::try_from(code).unwrap_or(TriggerMode::SameAsBus)
}

impl StandsFor<MadtProcessor> for Processor {
    fn item(&self) -> MadtProcessor {
        processor_of(self)
    }
}

impl StandsFor<model::IoApic> for IoApic {
    fn item(&self) -> model::IoApic {
        io_apic_of(self)
    }
}

impl StandsFor<model::InterruptSourceOverride> for InterruptSourceOverride {
    fn item(&self) -> model::InterruptSourceOverride {
        override_of(self)
    }
}

impl StandsFor<model::NmiSource> for NmiSource {
    fn item(&self) -> model::NmiSource {
        nmi_source_of(self)
    }
}

impl StandsFor<MadtNmiLine> for NmiLine {
    fn item(&self) -> MadtNmiLine {
        nmi_line_of(self)
    }
}

fn overrides_have_codes(overrides: &[InterruptSourceOverride]) -> bool {
    overrides.iter().all(|x| x.bus == 0 && is_wiring(x.polarity) && is_wiring(x.trigger))
}

fn sources_have_codes(sources: &[NmiSource]) -> bool {
    sources.iter().all(|x| is_wiring(x.polarity) && is_wiring(x.trigger))
}

fn lines_have_codes(lines: &[NmiLine]) -> bool {
    lines.iter().all(|x| x.lint <= 1 && is_wiring(x.polarity) && is_wiring(x.trigger))
}

/// Whether each bus is ISA's, and each polarity, trigger mode and LINT pin one that there is.
pub fn has_codes(contents: &MadtContents<'_>) -> bool {
    overrides_have_codes(contents.overrides)
        && sources_have_codes(contents.nmi_sources)
        && lines_have_codes(contents.nmi_lines)
}

/// What the MADT is to contain, as the writer has it.
pub fn contents<'a>(
    given: &MadtContents<'a>,
) -> crate::table_writer::MadtContents<'a, Processor, IoApic, InterruptSourceOverride, NmiSource, NmiLine> {
    crate::table_writer::MadtContents {
        local_apic_address: given.local_apic_address,
        also_has_legacy_pics: given.also_has_8259 != 0,
        processors: given.processors,
        io_apics: given.io_apics,
        interrupt_source_overrides: given.overrides,
        nmi_sources: given.nmi_sources,
        local_apic_nmi_lines: given.nmi_lines,
        wakeup_mailbox: (given.has_wakeup_mailbox != 0).then_some(given.wakeup_mailbox),
    }
}
