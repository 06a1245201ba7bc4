// Made by scripts/erase of crates/acpi_base/src/tables/madt/walk.rt, where it is proved.
//! The entries of a MADT, one at a time (section 5.2.12).

use super::Madt;
use super::entry::{MADT_GRAMMAR, MadtEntry};
use crate::base::bytes::skip;
use crate::base::entries::split_front;
use crate::base::memory::handler::PhysicalRecord;

/// The entries of a MADT, of types 0 to 0x10, in order (section 5.2.12). Entries of other types are skipped
/// by their length. It ends at the table's end, or where no entry begins: if one byte is left, or if the
/// length is under 2, under the least of its type, or past the table's end.
#[derive(Debug)]
pub struct MadtEntryIter<'a> {
    rest: &'a [u8],
    ended: bool,
}

impl<'a> MadtEntryIter<'a> {
    /// The entries of a MADT's bytes (section 5.2.12): those after its 44 fixed bytes. It needs no handler.
    pub fn over(table: &'a [u8]) -> Self {
        MadtEntryIter { rest: skip(table, Madt::MIN_LENGTH), ended: false }
    }

    /// The first entry of a defined type that is left, and the bytes after it, or `None` if none is left.
    /// Entries of other types are stepped over.
    #[inline(always)]
    fn split_defined(&mut self) -> Option<(&'a [u8], &'a [u8])> {
        // Most entries come the first way. Each way has a split of its own, next to its test of the type: joined before
        // the split they would take longer, and `read` would have to test for other types.
        if begins_defined(self.rest) {
            return split_front(&MADT_GRAMMAR, self.rest);
        }
        self.rest = past_others(self.rest);
        if begins_defined(self.rest) {
            return split_front(&MADT_GRAMMAR, self.rest);
        }
        None
    }

    /// Whether `next` has answered `None` before the table's end, where no entry begins (section 5.2.12).
    /// As long as `next` hasn't answered `None` it is false.
    pub fn ended_malformed(&self) -> bool {
        match self.rest {
            [] => false,
            _ => self.ended,
        }
    }
}

impl Iterator for MadtEntryIter<'_> {
    type Item = MadtEntry;

    #[inline(always)]
    fn next(&mut self) -> Option<MadtEntry> {
        match self.split_defined() {
            Some((entry, others)) => {
                self.rest = others;
                Some(MadtEntry::read(entry))
            }
            None => {
                self.ended = true;
                None
            }
        }
    }
}

/// Whether bytes begin with the type and the length of an entry, and the type is a defined one.
#[inline(always)]
fn begins_defined(bytes: &[u8]) -> bool {
    bytes.len() >= 2 && bytes[0] as usize <= MadtEntry::LAST_TYPE
}

/// The bytes from the first entry on whose type is defined. Entries of other types are rare, so this is
/// out of line: `next` then has no loop, and what it reads can stay in registers.
#[inline(never)]
fn past_others(bytes: &[u8]) -> &[u8] {
    let mut rest = bytes;
    while let Some((entry, others)) = split_front(&MADT_GRAMMAR, rest) {
        if entry[0] as usize <= MadtEntry::LAST_TYPE {
            return rest;
        }
        rest = others;
    }
    rest
}
