// Made by scripts/erase of crates/acpi_c_interrupts/src/riscv.rt, where it is proved.
//! The harts and interrupt controllers of a RISC-V machine, with no heap: each list is written by a walk along the
//! entries of the MADT.

use crate::acpi::madt::Madt;
use crate::c_interrupts::known::Nothing;
use crate::c_lib::lists::{Listing, fill_part};
use crate::c_lib::opening::first;
use crate::c_lib::records::Source;
use crate::c_lib::refusal::Refusal;
use crate::c_lib::regions::Mapped;
use crate::riscv::{Aplic, Imsic, Plic, Rintc, RiscvEntry, RiscvEntryIter};

/// What an entry of one type contains.
pub trait RiscvRecord: Copy {
    /// The record of an entry, if it is of this type.
    fn of(entry: &RiscvEntry) -> Option<Self>;
}

impl<R: RiscvRecord> Listing<Nothing, R> for RiscvEntryIter<'_> {
    fn record(_known: &Nothing, entry: RiscvEntry) -> Option<R> {
        R::of(&entry)
    }
}

/// Lists the entries of one type of the first valid MADT.
///
/// Fails as `first` does, and then with `NoRiscv` if it has none of any of these types.
pub fn riscv_entries<R: RiscvRecord>(source: &Source<'_>, out: &mut [R]) -> Result<usize, Refusal> {
    riscv_entries_from(source, 0, out)
}

/// Lists the entries of one type of the first valid MADT from the `from`-th on, counted from 0.
///
/// Fails as `riscv_entries` does.
pub fn riscv_entries_from<R: RiscvRecord>(source: &Source<'_>, from: usize, out: &mut [R]) -> Result<usize, Refusal> {
    let memory = Mapped::new(source.regions);
    let madt = first::<Madt>(&memory, source)?;
    if RiscvEntryIter::over(madt.bytes()).next().is_none() {
        return Err(Refusal::NoRiscv);
    }
    Ok(fill_entries(madt.bytes(), from, out))
}

fn fill_entries<R: RiscvRecord>(table: &[u8], from: usize, out: &mut [R]) -> usize {
    fill_part(RiscvEntryIter::over(table), &Nothing, from, out)
}

impl RiscvRecord for Rintc {
    fn of(entry: &RiscvEntry) -> Option<Rintc> {
        match entry {
            RiscvEntry::Rintc(rintc) => Some(*rintc),
            _ => None,
        }
    }
}

impl RiscvRecord for Imsic {
    fn of(entry: &RiscvEntry) -> Option<Imsic> {
        match entry {
            RiscvEntry::Imsic(imsic) => Some(*imsic),
            _ => None,
        }
    }
}

impl RiscvRecord for Aplic {
    fn of(entry: &RiscvEntry) -> Option<Aplic> {
        match entry {
            RiscvEntry::Aplic(aplic) => Some(*aplic),
            _ => None,
        }
    }
}

impl RiscvRecord for Plic {
    fn of(entry: &RiscvEntry) -> Option<Plic> {
        match entry {
            RiscvEntry::Plic(plic) => Some(*plic),
            _ => None,
        }
    }
}
