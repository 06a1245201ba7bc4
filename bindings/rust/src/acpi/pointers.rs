// Made by scripts/erase of crates/acpi/src/pointers.rt, where it is proved.
//! The pointers that a root table lists.

use crate::base::bytes::{field, skip};

/// The pointers that bytes encode, in order; a short remainder is one more pointer, filled up with zeros.
#[derive(Debug)]
pub struct Pointers<'t> {
    width: usize,
    rest: &'t [u8],
}

impl<'t> Pointers<'t> {
    /// The pointers that bytes encode, each in a number of bytes.
    ///
    /// # Panics
    ///
    /// A walk along them doesn't end if `width` is 0.
    pub fn new(width: usize, rest: &'t [u8]) -> Self {
        Pointers { width, rest }
    }

    /// The pointer that comes next. Both widths that root tables have are named, so that each is
    /// read at once.
    #[inline(always)]
    fn first(&self) -> u64 {
        match self.width {
            8 => field(self.rest, 0, 8),
            4 => field(self.rest, 0, 4),
            width => field(self.rest, 0, width),
        }
    }

    /// The pointer that comes next, if one does. It stays to come.
    pub(crate) fn peek(&self) -> Option<u64> {
        if self.rest.is_empty() {
            return None;
        }
        Some(self.first())
    }

    /// Leaves those after the one that comes next.
    pub(crate) fn pass(&mut self) {
        self.rest = skip(self.rest, self.width);
    }

    /// Leaves no pointer to come.
    pub(crate) fn end(&mut self) {
        self.rest = &[];
    }
}

impl Iterator for Pointers<'_> {
    type Item = u64;

    #[inline(always)]
    fn next(&mut self) -> Option<u64> {
        if self.rest.is_empty() {
            return None;
        }
        let first = self.first();
        self.rest = skip(self.rest, self.width);
        Some(first)
    }
}
