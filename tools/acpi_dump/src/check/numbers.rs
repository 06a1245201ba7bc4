//! Lists of numbers of a table, such as ids, with the offsets at which they are.

use crate::prelude::*;

/// Where the structures of a type have a number: the type, the list that the number goes to, its offset and its length,
/// and the offset of the flags whose bit 0 is set if it counts, or 0.
pub(crate) type Kept = (u64, u64, (usize, usize), usize);

/// Lists of numbers: the list, the number, and its offset.
#[derive(Default)]
pub(crate) struct Numbers {
    pub(crate) all: Vec<(u64, u64, usize)>,
}

impl Numbers {
    pub(crate) fn new() -> Numbers {
        Numbers::default()
    }

    pub(crate) fn push(&mut self, list: u64, number: u64, offset: usize) {
        self.all.push((list, number, offset));
    }

    /// Adds what rows say that the structure at an offset has.
    pub(crate) fn add(&mut self, rows: &[Kept], offset: usize, bytes: &[u8]) {
        for &(kind, list, (at, length), flags) in rows {
            let counts = flags == 0 || field(bytes, flags, 4) & 1 != 0;
            if counts && field(bytes, 0, 1) == kind {
                self.push(list, field(bytes, at, length), offset + at);
            }
        }
    }

    /// Sorts each list, equal numbers by offset. What follows takes sorted lists.
    pub(crate) fn sort(&mut self) {
        self.all.sort_unstable();
    }

    /// The place of the least number of a list that is no less than another one, or of what follows the list.
    pub(crate) fn place(&self, list: u64, least: u64) -> usize {
        self.all.partition_point(|it| (it.0, it.1) < (list, least))
    }

    /// The least number of a list that is no less than another one, and its offset.
    pub(crate) fn from(&self, list: u64, least: u64) -> Option<(u64, usize)> {
        let (of, number, offset) = *self.all.get(self.place(list, least))?;
        (of == list).then_some((number, offset))
    }

    pub(crate) fn has(&self, list: u64, number: u64) -> bool {
        self.from(list, number).is_some_and(|(found, _)| found == number)
    }
}
