// Made by scripts/erase of crates/acpi_c_interrupts/src/arm/timer_faults.rt, where it is proved.
//! The structures of platform timers of a GTDT at fault, and where none begins.

use crate::arm::gtdt::{Gtdt, frames_end, is_sound, timer_bytes, timer_count, timers_grammar, timers_offset};
use crate::base::bytes::field;
use crate::base::entries::split_front;
use crate::c_lib::entry_faults::{EntryFault, entry_fault};
use crate::c_lib::lists::put;
use crate::c_lib::opening::first;
use crate::c_lib::records::Source;
use crate::c_lib::refusal::Refusal;
use crate::c_lib::regions::Mapped;

/// Lists of the structures of the first valid GTDT at fault where no frame begins and, last, where no structure does.
pub fn gtdt_faults(source: &Source<'_>, out: &mut [EntryFault]) -> Result<usize, Refusal> {
    let memory = Mapped::new(source.regions);
    let gtdt = first::<Gtdt>(&memory, source)?;
    Ok(fill_faults(gtdt.bytes(), gtdt.physical_start(), out))
}

/// Writes the faults of a GTDT's bytes at an address.
fn fill_faults(table: &[u8], address: u64, out: &mut [EntryFault]) -> usize {
    let mut rest = timer_bytes(table);
    let mut left = timer_count(table);
    let mut at = address + timers_offset(table) as u64;
    let mut count = 0;
    while let Some((structure, others)) = split_front(&timers_grammar(left), rest) {
        if !is_sound(structure) {
            let end = at + frames_end(structure) as u64;
            let fault = entry_fault(end, structure[0] as u16, Refusal::InvalidTimerLength);
            put(out, count, fault);
            count += 1;
        }
        at += structure.len() as u64;
        left = left.saturating_sub(1);
        rest = others;
    }
    if left > 0 {
        let kind = field(rest, 0, 1) as u16; // Type
        let front = entry_fault(at, kind, Refusal::InvalidTimerLength);
        put(out, count, front);
        count += 1;
    }
    count
}
