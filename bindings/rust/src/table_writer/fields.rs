// Made by scripts/erase of crates/acpi_table_writer/src/fields.rt, where it is proved.
//! Records that are fields in a row: one list of them is what is measured, written and read.

use crate::table_writer::numbers::{dword, qword, word};
use crate::table_writer::spelled::{Each, Spelled};

/// A field: a number in a number of bytes, the lowest first, or a number of zeros.
#[derive(Clone, Copy, Debug)]
#[non_exhaustive]
pub enum Field {
    /// A number in one byte.
    U8(u8),
    /// A number in two bytes.
    U16(u16),
    /// A number in four bytes.
    U32(u32),
    /// A number in eight bytes.
    U64(u64),
    /// A number of zeros.
    Zeros(u8),
}

impl Field {
    /// How many bytes it has.
    fn size(&self) -> usize {
        match *self {
            Field::U8(_n) => 1,
            Field::U16(_n) => 2,
            Field::U32(_n) => 4,
            Field::U64(_n) => 8,
            Field::Zeros(n) => n as usize,
        }
    }
}

impl Spelled for Field {
    fn measure(&self, room: usize) -> Option<usize> {
        let size = self.size();
        if room < size { None } else { Some(size) }
    }

    fn put(&self, out: &mut [u8]) {
        match *self {
            Field::U8(n) => out[0] = n,
            Field::U16(n) => out.copy_from_slice(&word(n)),
            Field::U32(n) => out.copy_from_slice(&dword(n)),
            Field::U64(n) => out.copy_from_slice(&qword(n)),
            Field::Zeros(_) => out.fill(0),
        }
    }
}

impl Spelled for u32 {
    fn measure(&self, room: usize) -> Option<usize> {
        Field::U32(*self).measure(room)
    }

    fn put(&self, out: &mut [u8]) {
        Field::U32(*self).put(out)
    }
}

impl Spelled for u64 {
    fn measure(&self, room: usize) -> Option<usize> {
        Field::U64(*self).measure(room)
    }

    fn put(&self, out: &mut [u8]) {
        Field::U64(*self).put(out)
    }
}

/// Fields in a row.
pub trait FieldList: Sized {
    /// The fields.
    fn as_fields(&self) -> &[Field];
}

impl<const N: usize> FieldList for [Field; N] {
    fn as_fields(&self) -> &[Field] {
        self
    }
}

impl<F: FieldList> FieldList for Option<F> {
    fn as_fields(&self) -> &[Field] {
        match self {
            Some(fields) => fields.as_fields(),
            None => &[],
        }
    }
}

/// What is fields in a row.
pub trait Record {
    /// An array of this number of fields.
    type Fields: FieldList;

    /// Its fields.
    fn fields(&self) -> Self::Fields;
}

impl<T: Record> Spelled for T {
    fn measure(&self, room: usize) -> Option<usize> {
        Each(self.fields().as_fields()).measure(room)
    }

    fn put(&self, out: &mut [u8]) {
        Each(self.fields().as_fields()).put(out);
    }
}
