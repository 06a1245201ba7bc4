// Made by scripts/erase of crates/acpi_c_devices/src/numa/faults.rt, where it is proved.
//! The entries of a SRAT at fault, and the malformed front that ends them.

use crate::base::bytes::{field, skip};
use crate::base::entries::split_front;
use crate::c_lib::entry_faults::{EntryFault, entry_fault};
use crate::c_lib::lists::put;
use crate::c_lib::opening::first;
use crate::c_lib::records::Source;
use crate::c_lib::refusal::Refusal;
use crate::c_lib::regions::Mapped;
use crate::numa::Srat;
use crate::numa::srat::{SRAT_GRAMMAR, SratEntry};

/// Lists the entries of the first valid SRAT at fault and, last, the malformed front.
pub fn srat_faults(source: &Source<'_>, out: &mut [EntryFault]) -> Result<usize, Refusal> {
    let memory = Mapped::new(source.regions);
    let srat = first::<Srat>(&memory, source)?;
    Ok(fill_faults(srat.bytes(), srat.physical_start(), out))
}

/// Writes the faults of a SRAT's bytes at an address.
fn fill_faults(table: &[u8], address: u64, out: &mut [EntryFault]) -> usize {
    let grammar = SRAT_GRAMMAR;
    let revision = field(table, 8, 1) as u8; // Revision
    let mut rest = skip(table, 48);
    let mut at = address + 48;
    let mut count = 0;
    while let Some((entry, others)) = split_front(&grammar, rest) {
        if let Some(error) = fault_in(revision, entry) {
            put(out, count, entry_fault(at, entry[0] as u16, error));
            count += 1;
        }
        at += entry.len() as u64;
        rest = others;
    }
    if let [kind, ..] = rest {
        let front = entry_fault(at, *kind as u16, Refusal::InvalidSratEntryLength);
        put(out, count, front);
        count += 1;
    }
    count
}

/// Why an entry is at fault in a table of a revision, or `None` if it isn't.
fn fault_in(revision: u8, entry: &[u8]) -> Option<Refusal> {
    let range = SratEntry::read(revision, entry)?.memory_range()?;
    if range.ends_below() {
        return None;
    }
    Some(Refusal::InvalidMemoryRange)
}
