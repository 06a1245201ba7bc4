// Made by scripts/erase of crates/acpi_c_interrupts/src/arm/gic.rt, where it is proved.
//! The generic interrupt controller (GIC) of an Arm machine, with no heap: each list is written by a walk along the
//! entries of the MADT.

mod shown;

use crate::acpi::madt::Madt;
use crate::acpi::{AcpiError, MadtError, PhysicalMapping};
use crate::arm::gic::{
    GicCpuInterface, GicDistributor, GicMsiFrame, GicPart, GicRedistributors, GicTranslationService, SpiRange,
    distributor_in,
};
use crate::base::bytes::field;
use crate::base::madt::{MadtEntry, MadtEntryIter};
use crate::c_interrupts::arm::records;
use crate::c_lib::lists::{Listing, fill_part};
use crate::c_lib::opening::first;
use crate::c_lib::records::{Range, Source};
use crate::c_lib::refusal::Refusal;
use crate::c_lib::regions::Mapped;
use shown::{
    cpu_interface_record, distributor_record, msi_frame_record, redistributors_record, translation_service_record,
};

/// The first valid MADT, if one of its entries is of a GIC.
///
/// Fails as `first` does, and then with `NoGic`.
fn gic_madt<'h, 'k>(
    memory: &'h Result<Mapped<'k>, Refusal>,
    source: &Source<'_>,
) -> Result<PhysicalMapping<'h, Mapped<'k>, Madt>, Refusal> {
    let madt = first::<Madt>(memory, source)?;
    if !describes_gic(madt.bytes()) {
        return Err(Refusal::NoGic);
    }
    Ok(madt)
}

/// Whether an entry of a MADT is of a GIC.
fn describes_gic(table: &[u8]) -> bool {
    for entry in MadtEntryIter::over(table) {
        if is_of_gic(&entry) {
            return true;
        }
    }
    false
}

/// Whether an entry is of a GIC.
fn is_of_gic(entry: &MadtEntry) -> bool {
    match entry {
        MadtEntry::Gicc(_)
        | MadtEntry::Gicd(_)
        | MadtEntry::GicMsiFrame(_)
        | MadtEntry::GicRedistributor(_)
        | MadtEntry::GicInterruptTranslationService(_) => true,
        _ => false,
    }
}

/// The distributor of the GIC that the first valid MADT describes.
pub fn distributor(source: &Source<'_>) -> Result<records::GicDistributor, Refusal> {
    let memory = Mapped::new(source.regions);
    let madt = first::<Madt>(&memory, source)?;
    let distributor = first_distributor(madt.bytes())?;
    Ok(distributor_record(&distributor))
}

/// The first distributor of a MADT's bytes, or why there is none: the malformed front might be it.
fn first_distributor(table: &[u8]) -> Result<GicDistributor, Refusal> {
    let mut entries = MadtEntryIter::over(table);
    while let Some(entry) = entries.next() {
        if let Some(distributor) = distributor_in(&entry) {
            return Ok(distributor);
        }
    }
    if entries.ended_malformed() {
        return Err(Refusal::Acpi(AcpiError::InvalidMadt(MadtError::InvalidEntryLength)));
    }
    Err(Refusal::NoGic)
}

/// The first SPI of a frame and its number of SPIs, or zeros.
fn spis_or(spis: Option<SpiRange>) -> SpiRange {
    let none = SpiRange { base: 0, count: 0 };
    spis.unwrap_or(none)
}

/// A record of C's of a part of a GIC.
pub trait GicRecord: Copy {
    /// The part.
    type Part: GicPart;

    /// The record of a part.
    fn of(part: &Self::Part) -> Self;
}

/// Lists the parts of one sort of the GIC that the first valid MADT describes.
pub fn parts<R: GicRecord>(source: &Source<'_>, out: &mut [R]) -> Result<usize, Refusal> {
    parts_from(source, 0, out)
}

/// Lists from the `from`-th on, counted from 0, the parts of one sort of the GIC that the first valid MADT describes.
pub fn parts_from<R: GicRecord>(source: &Source<'_>, from: usize, out: &mut [R]) -> Result<usize, Refusal> {
    let memory = Mapped::new(source.regions);
    let madt = gic_madt(&memory, source)?;
    Ok(fill_parts(madt.bytes(), from, out))
}

fn fill_parts<R: GicRecord>(table: &[u8], from: usize, out: &mut [R]) -> usize {
    let revision = Revision(field(table, 8, 1) as u8);
    fill_part(MadtEntryIter::over(table), &revision, from, out)
}

/// The Revision of a MADT, by which its entries are read.
#[derive(Clone, Copy, Debug)]
struct Revision(u8);

impl<R: GicRecord> Listing<Revision, R> for MadtEntryIter<'_> {
    fn record(revision: &Revision, entry: MadtEntry) -> Option<R> {
        let part = <R::Part as GicPart>::said(&entry, revision.0)?;
        Some(R::of(&part))
    }
}

impl GicRecord for records::GicCpuInterface {
    type Part = GicCpuInterface;

    fn of(part: &GicCpuInterface) -> records::GicCpuInterface {
        cpu_interface_record(part)
    }
}

impl GicRecord for Range {
    type Part = GicRedistributors;

    fn of(part: &GicRedistributors) -> Range {
        redistributors_record(part)
    }
}

impl GicRecord for records::GicTranslationService {
    type Part = GicTranslationService;

    fn of(part: &GicTranslationService) -> records::GicTranslationService {
        translation_service_record(part)
    }
}

impl GicRecord for records::GicMsiFrame {
    type Part = GicMsiFrame;

    fn of(part: &GicMsiFrame) -> records::GicMsiFrame {
        msi_frame_record(part)
    }
}
