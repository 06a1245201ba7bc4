// Made by scripts/erase of crates/acpi_table_writer/src/listed.rt, where it is proved.
//! A table that a machine can list, by its contents: as `TableContents` has it, or in records of a caller's own.

use crate::table_writer::error::WriterError;
use crate::table_writer::ids::TableIds;

/// A table that a machine can list, by its contents.
pub trait Listed {
    /// How many bytes the table has, or the first error.
    fn size(&self, ids: &TableIds) -> Result<usize, WriterError>;

    /// Puts the table in place of all bytes of a slice that is as long.
    ///
    /// # Panics
    ///
    /// May panic if the slice has another length.
    fn put(&self, out: &mut [u8], ids: &TableIds);
}
