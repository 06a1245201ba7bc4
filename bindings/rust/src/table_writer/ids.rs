// Made by scripts/erase of crates/acpi_table_writer/src/ids.rt, where it is proved.
//! Who made a table, as its header has it (section 5.2.6).

use crate::base::bytes::is_text;

/// The fields of a table's header by which its makers are known (section 5.2.6). The names are filled up with spaces
/// or zeros, and have to be valid UTF-8.
#[repr(C)]
#[derive(Clone, Copy, Debug, Default, PartialEq, Eq)]
pub struct TableIds {
    /// OEMID: the OEM's name.
    pub oem_id: [u8; 6],
    /// OEM Table ID: the OEM's name for this table.
    pub oem_table_id: [u8; 8],
    /// OEM Revision: the OEM's revision of this table.
    pub oem_revision: u32,
    /// Creator ID: the name of the program that made the table.
    pub creator_id: [u8; 4],
    /// Creator Revision: the revision of that program.
    pub creator_revision: u32,
}

impl TableIds {
    /// Whether each name is valid UTF-8.
    pub fn are_texts(self) -> bool {
        is_text(&self.oem_id) && is_text(&self.oem_table_id) && is_text(&self.creator_id)
    }
}
