// Made by scripts/erase of crates/acpi_c_interrupts/src/apics/platform.rt, where it is proved.
//! The interrupt model with all its lists at once: the entries of the MADT are walked along once to count them, and
//! once to write them.

use crate::base::bytes::field;
use crate::base::madt::{MadtEntry, MadtEntryIter};
use crate::c_interrupts::apics::madt::known_madt;
use crate::c_interrupts::apics::model::known_model;
use crate::c_interrupts::apics::records::{
    InterruptModel, InterruptSourceOverride, IoApic, NmiLine, NmiSource, PlatformLists, Processor,
};
use crate::c_interrupts::apics::{MadtRecord, boot_first, processor_in};
use crate::c_lib::lists::put;
use crate::c_lib::records::Source;
use crate::c_lib::refusal::Refusal;
use crate::c_lib::regions::Mapped;

/// The model of a machine with APICs, with its lists, each as the call for it alone returns it. If it fails, nothing is
/// written.
pub fn platform(source: &Source<'_>, lists: &mut PlatformLists<'_>) -> Result<InterruptModel, Refusal> {
    let memory = Mapped::new(source.regions);
    let found = known_madt(&memory, source)?;
    write_all(
        found.madt.bytes(),
        lists.processors,
        lists.io_apics,
        lists.overrides,
        lists.nmi_sources,
        lists.nmi_lines,
    );
    let model = known_model(&found);
    lists.processors_count = model.processors;
    lists.io_apics_count = model.io_apics;
    lists.overrides_count = model.overrides;
    lists.nmi_sources_count = model.nmi_sources;
    lists.nmi_lines_count = model.nmi_lines;
    Ok(model)
}

/// Writes each list as far as the capacity reaches.
fn write_all(
    table: &[u8],
    processors: &mut [Processor],
    io_apics: &mut [IoApic],
    overrides: &mut [InterruptSourceOverride],
    nmi_sources: &mut [NmiSource],
    nmi_lines: &mut [NmiLine],
) {
    let revision = field(table, 8, 1) as u8; // Revision
    let mut processor = 0;
    let mut io_apic = 0;
    let mut wiring = 0;
    let mut nmi_source = 0;
    let mut nmi_line = 0;
    for entry in MadtEntryIter::over(table) {
        match entry {
            MadtEntry::LocalApic(_) | MadtEntry::LocalX2Apic(_) => {
                processor = add(processor_in(revision, &entry), processors, processor);
            }
            MadtEntry::IoApic(_) => io_apic = add(IoApic::said(&entry), io_apics, io_apic),
            MadtEntry::InterruptSourceOverride(_) => {
                wiring = add(InterruptSourceOverride::said(&entry), overrides, wiring);
            }
            MadtEntry::NmiSource(_) => {
                nmi_source = add(NmiSource::said(&entry), nmi_sources, nmi_source);
            }
            MadtEntry::LocalApicNmi(_) | MadtEntry::X2ApicNmi(_) => {
                nmi_line = add(NmiLine::said(&entry), nmi_lines, nmi_line);
            }
            _ => {}
        }
    }
    boot_first(processors, processor);
}

/// Writes the record of an entry at an index, if it has one, and returns the index of the next.
#[inline(always)]
fn add<R: Copy>(read_record: Option<R>, out: &mut [R], at: usize) -> usize {
    match read_record {
        Some(record) => {
            put(out, at, record);
            at + 1
        }
        None => at,
    }
}
