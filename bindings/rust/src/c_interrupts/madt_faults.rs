// Made by scripts/erase of crates/acpi_c_interrupts/src/madt_faults.rt, where it is proved.
//! The entries of a MADT at fault, and the malformed front that ends them.

use crate::acpi::madt::Madt;
use crate::acpi::{AcpiError, MadtError};
use crate::base::bytes::skip;
use crate::base::entries::split_front;
use crate::base::madt::MADT_GRAMMAR;
use crate::base::model::MadtItem;
use crate::c_lib::entry_faults::{EntryFault, entry_fault};
use crate::c_lib::lists::put;
use crate::c_lib::opening::first;
use crate::c_lib::records::Source;
use crate::c_lib::refusal::Refusal;
use crate::c_lib::regions::Mapped;
use crate::riscv::RiscvEntry;

/// Lists the entries of the first valid MADT at fault and, last, the malformed front.
pub fn madt_faults(source: &Source<'_>, out: &mut [EntryFault]) -> Result<usize, Refusal> {
    let memory = Mapped::new(source.regions);
    let madt = first::<Madt>(&memory, source)?;
    Ok(fill_faults(madt.bytes(), madt.physical_start(), out))
}

/// Writes the faults of a MADT's bytes at an address.
fn fill_faults(table: &[u8], address: u64, out: &mut [EntryFault]) -> usize {
    let grammar = MADT_GRAMMAR;
    let mut rest = skip(table, 44);
    let mut at = address + 44;
    let mut count = 0;
    while let Some((entry, others)) = split_front(&grammar, rest) {
        if let Some(error) = fault_in(entry) {
            put(out, count, entry_fault(at, entry[0] as u16, error));
            count += 1;
        }
        at += entry.len() as u64;
        rest = others;
    }
    if let [kind, ..] = rest {
        let error = refusal(MadtError::InvalidEntryLength);
        put(out, count, entry_fault(at, *kind as u16, error));
        count += 1;
    }
    count
}

fn refusal(error: MadtError) -> Refusal {
    Refusal::Acpi(AcpiError::InvalidMadt(error))
}

/// Why an entry is at fault, or `None` if it isn't.
fn fault_in(entry: &[u8]) -> Option<Refusal> {
    if RiscvEntry::is_short(entry) {
        return Some(Refusal::ShortRiscvEntry);
    }
    Some(refusal(MadtItem::fault(entry)?))
}
