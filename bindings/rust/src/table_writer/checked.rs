// Made by scripts/erase of crates/acpi_table_writer/src/checked.rt, where it is proved.
//! What has to be checked of each thing in a list before a table is written.

use crate::table_writer::error::WriterError;

/// Something that a table may have no place for.
pub trait Checked {
    /// Returns an error if a table has no place for it.
    fn check(&self) -> Result<(), WriterError>;
}

/// Returns the first error.
pub(crate) fn check_all<T: Checked>(xs: &[T]) -> Result<(), WriterError> {
    for x in xs {
        x.check()?;
    }
    Ok(())
}

/// Returns an error if something doesn't hold.
pub fn require<E: Copy>(holds: bool, error: E) -> Result<(), E> {
    if holds { Ok(()) } else { Err(error) }
}
