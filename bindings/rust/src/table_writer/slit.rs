// Made by scripts/erase of crates/acpi_table_writer/src/slit.rt, where it is proved.
//! The System Locality Information Table (SLIT, section 5.2.17), from the distances between localities.

use crate::base::Signature;
use crate::table_writer::checked::require;
use crate::table_writer::contents::SlitContents;
use crate::table_writer::error::WriterError;
use crate::table_writer::ids::TableIds;
use crate::table_writer::spelled::{Bytes, Then};
use crate::table_writer::table::{Table, write};

/// Whether there is a distance for each pair of localities.
fn is_square(localities: u64, distances: &[u8]) -> bool {
    match localities.checked_mul(localities) {
        Some(pairs) => pairs == distances.len() as u64,
        None => false,
    }
}

impl<'a> Table for SlitContents<'a> {
    type Body = Then<u64, Bytes<'a>>;

    fn head(&self) -> (Signature, u8) {
        (Signature::SLIT, 1)
    }

    fn check(&self) -> Result<(), WriterError> {
        require(is_square(self.localities, self.distances), WriterError::BadMatrix)
    }

    fn body(&self) -> Then<u64, Bytes<'a>> {
        Then(self.localities, Bytes(self.distances))
    }
}

/// Writes a SLIT of revision 1 to the front of a slice, and returns how many bytes it has: 44, and one for each
/// distance. The distances from the first locality come first, in order. Whether there is a locality, and whether each
/// is at 10 from itself, isn't checked.
///
/// Returns, in this order, `BadMatrix` if there isn't a distance for each pair of localities, `BadName` if a name of
/// the ids is not valid UTF-8, `NoRoom` if the slice is shorter than the table, and `TooLong` if the table has 2^32
/// bytes or more.
pub fn write_slit(out: &mut [u8], ids: &TableIds, localities: u64, distances: &[u8]) -> Result<usize, WriterError> {
    let contents = SlitContents { localities, distances };
    write(out, ids, &contents)
}
