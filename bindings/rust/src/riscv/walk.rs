// Made by scripts/erase of crates/acpi_riscv/src/walk.rt, where it is proved.
//! The entries of a MADT that describe a RISC-V machine, one at a time.

use crate::base::PhysicalRecord;
use crate::base::bytes::skip;
use crate::base::entries::split_front;
use crate::base::madt::{MADT_GRAMMAR, Madt};
use crate::riscv::entry::RiscvEntry;

/// The entries of types 0x18 to 0x1b of a MADT, in order (section 5.2.12). Entries of other types, and those with fewer
/// bytes than their type, are skipped by their length. It ends at the table's end, or where no entry begins.
#[derive(Debug)]
pub struct RiscvEntryIter<'a> {
    rest: &'a [u8],
}

impl<'a> RiscvEntryIter<'a> {
    /// The entries of a MADT's bytes: those after its 44 fixed bytes. It needs no handler.
    pub fn over(table: &'a [u8]) -> Self {
        RiscvEntryIter { rest: skip(table, Madt::MIN_LENGTH) }
    }
}

impl Iterator for RiscvEntryIter<'_> {
    type Item = RiscvEntry;

    fn next(&mut self) -> Option<RiscvEntry> {
        while let Some((entry, others)) = split_front(&MADT_GRAMMAR, self.rest) {
            self.rest = others;
            if let Some(found) = RiscvEntry::read(entry) {
                return Some(found);
            }
        }
        None
    }
}
