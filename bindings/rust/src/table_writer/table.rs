// Made by scripts/erase of crates/acpi_table_writer/src/table.rt, where it is proved.
//! A table from its header's fields and the bytes after its header (section 5.2.6).

use crate::base::Signature;
use crate::sums::set_sum;
use crate::table_writer::checked::require;
use crate::table_writer::error::WriterError;
use crate::table_writer::ids::TableIds;
use crate::table_writer::listed::Listed;
use crate::table_writer::numbers::dword;
use crate::table_writer::spelled::Spelled;

/// The header of a table of a length, with a Checksum of 0.
pub(crate) fn table_head(signature: Signature, revision: u8, ids: &TableIds, count: u32) -> [u8; 36] {
    let mut head = [0; 36];
    head[32..].copy_from_slice(&dword(ids.creator_revision)); // Creator Revision
    head[28..32].copy_from_slice(&ids.creator_id); // Creator ID
    head[24..28].copy_from_slice(&dword(ids.oem_revision)); // OEM Revision
    head[16..24].copy_from_slice(&ids.oem_table_id); // OEM Table ID
    head[10..16].copy_from_slice(&ids.oem_id); // OEMID
    head[8] = revision; // Revision
    head[4..8].copy_from_slice(&dword(count)); // Length
    head[..4].copy_from_slice(&signature.to_bytes()); // Signature
    head
}

/// Fills a slice with the header of a table, and the bytes after it.
fn join<B: Spelled>(table: &mut [u8], head: &[u8], body: &B) {
    table[..head.len()].copy_from_slice(head);
    body.put(&mut table[head.len()..]);
}

/// Fills a slice with a table.
fn fill<B: Spelled>(table: &mut [u8], signature: Signature, revision: u8, ids: TableIds, body: &B) {
    let head = table_head(signature, revision, &ids, table.len() as u32);
    join(table, &head, body);
    set_sum(table, 9); // Checksum
}

/// How many bytes a table has, or the first error of `write_table` in a slice of that length.
fn table_size<B: Spelled>(
    room: usize,
    signature: Signature,
    revision: u8,
    ids: &TableIds,
    body: &B,
) -> Result<usize, WriterError> {
    require(ids.are_texts(), WriterError::BadName)?;
    require(room >= 36, WriterError::NoRoom)?;
    let size = body.measure(room - 36).ok_or(WriterError::NoRoom)?;
    require(size < 0xffffffdc, WriterError::TooLong)?; // 2^32, less the header
    Ok(36 + size)
}

/// Writes a table to the front of a slice, and returns how many bytes it has.
///
/// Returns, in this order, `BadName` if a name of the ids is not valid UTF-8, `NoRoom` if the slice is shorter than
/// the table, and `TooLong` if the table has 2^32 bytes or more.
pub fn write_table<B: Spelled>(
    out: &mut [u8],
    signature: Signature,
    revision: u8,
    ids: &TableIds,
    body: &B,
) -> Result<usize, WriterError> {
    let size = table_size(out.len(), signature, revision, ids, body)?;
    fill(&mut out[..size], signature, revision, *ids, body);
    Ok(size)
}

/// The contents of a table.
pub(crate) trait Table {
    /// All after the header.
    type Body: Spelled + Copy;

    /// Signature and Revision.
    fn head(&self) -> (Signature, u8);

    /// Returns an error if a table has no place for it.
    fn check(&self) -> Result<(), WriterError>;

    /// All after the header.
    fn body(&self) -> Self::Body;
}

/// Writes the table of these contents to the front of a slice, and returns how many bytes it has.
///
/// Returns the error of the contents, if a table has no place for them, and then `write_table`'s.
pub(crate) fn write<T: Table>(out: &mut [u8], ids: &TableIds, contents: &T) -> Result<usize, WriterError> {
    contents.check()?;
    let (signature, revision) = contents.head();
    write_table(out, signature, revision, ids, &contents.body())
}

impl<T: Table> Listed for T {
    fn size(&self, ids: &TableIds) -> Result<usize, WriterError> {
        self.check()?;
        let (signature, revision) = self.head();
        table_size(usize::MAX, signature, revision, ids, &self.body())
    }

    fn put(&self, out: &mut [u8], ids: &TableIds) {
        let (signature, revision) = self.head();
        fill(out, signature, revision, *ids, &self.body());
    }
}
