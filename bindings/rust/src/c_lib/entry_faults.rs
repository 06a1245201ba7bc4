// Made by scripts/erase of crates/acpi_c_lib/src/entry_faults.rt, where it is proved.
//! The entries of a table at fault, each at its address, and the malformed front that ends them.

use crate::c_lib::refusal::Refusal;

/// An entry at fault, or the malformed front that ends a table's entries.
#[repr(C)]
#[derive(Clone, Copy, Debug, Default, PartialEq, Eq)]
#[non_exhaustive]
pub struct EntryFault {
    /// Address: of the entry, or where none begins.
    pub address: u64,
    /// Status: its error.
    pub status: u32,
    /// Type of the entry, or there; 0 at the table's end.
    pub entry_type: u16,
    /// Reserved: 0.
    pub reserved: [u8; 2],
}

/// An entry of a type, at an address, with its error.
pub fn entry_fault(address: u64, entry_type: u16, error: Refusal) -> EntryFault {
    EntryFault { address, entry_type, status: error.code(), reserved: [0; 2] }
}
