// Made by scripts/erase of crates/acpi_bytes/src/extended.rt, where it is proved.
//! Fields that only tables of later revisions have.

use crate::bytes::bytes::has_part;
use crate::bytes::handler::PhysicalRecord;

/// A field that a table or an entry has from a revision on, and only if it is long enough: from
/// `MIN_REVISION` on, the value that its bytes encode, if all of them are in the table or the entry that it
/// was read from.
#[derive(Clone, Copy, Debug)]
pub struct ExtendedField<T: Copy, const MIN_REVISION: u8> {
    value: Option<T>,
}

impl<T: Copy, const MIN_REVISION: u8> ExtendedField<T, MIN_REVISION> {
    /// A field whose bytes encode this value, or `None` if they aren't all in the table.
    #[inline(always)]
    pub fn new(value: Option<T>) -> Self {
        ExtendedField { value }
    }

    /// The value, or `None` if the revision is below `MIN_REVISION` or the field's bytes aren't all in the
    /// table.
    #[inline(always)]
    pub fn access(&self, revision: u8) -> Option<T> {
        if revision >= MIN_REVISION { self.value } else { None }
    }
}

impl<T: Copy + PhysicalRecord, const MIN_REVISION: u8> ExtendedField<T, MIN_REVISION> {
    /// The field of `T::MIN_LENGTH` bytes at an offset of a table or an entry, with a value if all of these
    /// bytes are there.
    #[inline(always)]
    pub fn read(bytes: &[u8], offset: usize) -> Self {
        if has_part(bytes, offset, T::MIN_LENGTH) {
            let part = &bytes[offset..offset + T::MIN_LENGTH];
            ExtendedField::new(Some(T::read(part)))
        } else {
            ExtendedField::new(None)
        }
    }
}
