// Made by scripts/erase of crates/acpi_table_writer/src/contents.rt, where it is proved.
//! What tables contain whose files have only what writes them.

/// The contents of a SLIT (section 5.2.17).
#[derive(Clone, Copy, Debug)]
pub struct SlitContents<'a> {
    /// Number of System Localities.
    pub localities: u64,
    /// The distances, row by row: those from the first locality come first.
    pub distances: &'a [u8],
}
