// Made by scripts/erase of crates/acpi_numa/src/srat/walk.rt, where it is proved.
//! The entries of a SRAT, one at a time.

use super::Srat;
use super::entry::{SRAT_GRAMMAR, SratEntry};
use crate::base::PhysicalRecord;
use crate::base::bytes::{field, skip};
use crate::base::entries::split_front;

/// The entries of a SRAT, of types 0 to 6, in order (section 5.2.16). Entries of other types are skipped by
/// their length. It ends at the table's end, or where no entry begins: if one byte is left, or if the
/// length is under 2, under the least of its type (16, 40, 24, 18, 12, 32 and 32 for types 0 to 6), or past
/// the table's end.
#[derive(Debug)]
pub struct SratEntryIter<'a> {
    rest: &'a [u8],
    revision: u8,
    ended: bool,
}

impl<'a> SratEntryIter<'a> {
    /// The entries of a SRAT's bytes (section 5.2.16): those after its 48 fixed bytes. It needs no handler.
    pub fn over(table: &'a [u8]) -> Self {
        SratEntryIter {
            rest: skip(table, Srat::MIN_LENGTH),
            revision: field(table, 8, 1) as u8, // Revision
            ended: false,
        }
    }

    /// Whether `next` has returned `None` before the table's end, where no entry begins (section 5.2.16).
    /// As long as `next` hasn't returned `None` it is false.
    pub fn ended_malformed(&self) -> bool {
        match self.rest {
            [] => false,
            _ => self.ended,
        }
    }
}

impl Iterator for SratEntryIter<'_> {
    type Item = SratEntry;

    fn next(&mut self) -> Option<SratEntry> {
        while let Some((entry, others)) = split_front(&SRAT_GRAMMAR, self.rest) {
            self.rest = others;
            if let Some(found) = SratEntry::read(self.revision, entry) {
                return Some(found);
            }
        }
        self.ended = true;
        None
    }
}
