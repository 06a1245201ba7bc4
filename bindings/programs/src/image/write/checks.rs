// Made by scripts/erase of crates/acpi_image/src/write/checks.rt, where it is proved.
//! The checks of an image that is to be written.

use crate::image::error::WriteError;
use crate::image::write::PlacedTable;
use crate::image::write::places::check_places;
use crate::rattle::TryClone;
use crate::rattle::alloc::Allocator;
use zacpi::base::bytes::{field, is_text};
use zacpi::base::{AddressRange, Signature};
use zacpi::root::RootKind;

/// Whether bytes are a table, whatever their sum is.
fn is_table(bytes: &[u8]) -> bool {
    bytes.len() >= 36
        && field(bytes, 4, 4) == bytes.len() as u64 // Length
        && is_text(&bytes[..4]) // Signature
        && is_text(&bytes[10..16]) // OEMID
        && is_text(&bytes[16..24]) // OEM Table ID
}

/// Tests the bytes of each table.
///
/// Fails with `BadTable` for the first whose bytes are not a table.
fn check_tables(tables: &[PlacedTable<'_>]) -> Result<(), WriteError> {
    for (index, table) in tables.iter().enumerate() {
        if !is_table(table.bytes) {
            return Err(WriteError::BadTable(index));
        }
    }
    Ok(())
}

/// Whether each table's address is below 2^32.
fn all_low(tables: &[PlacedTable<'_>]) -> bool {
    tables.iter().all(|table| table.address < 1 << 32)
}

/// Whether a root table of this revision can name its own address and the tables'.
fn pointers_fit(revision: u8, root_address: u64, tables: &[PlacedTable<'_>]) -> bool {
    revision != 0 || (root_address <= u32::MAX as u64 && all_low(tables))
}

/// The signature of the root table: the RSDT's for revision 0, else the XSDT's.
pub(super) fn signature(revision: u8) -> Signature {
    RootKind::of_revision(revision).signature()
}

/// How many bytes a pointer of the root table has.
pub(super) fn width(revision: u8) -> usize {
    RootKind::of_revision(revision).width()
}

/// Whether the length of a root table with a number of pointers is below 2^32.
fn is_short(revision: u8, count: usize) -> bool {
    count <= (u32::MAX as usize - 36) / width(revision)
}

/// How many bytes the root table has.
pub(super) fn root_length(revision: u8, count: usize) -> usize {
    36 + width(revision) * count
}

/// Tests what is to be written.
///
/// Fails as `write_image` does, but for `OutOfMemory`.
pub(super) fn check_plan<A: Allocator + TryClone>(
    alloc: A,
    rsdp_address: u64,
    root_address: u64,
    revision: u8,
    tables: &[PlacedTable<'_>],
) -> Result<(), WriteError> {
    if root_address == 0 {
        return Err(WriteError::ZeroRoot);
    }
    check_tables(tables)?;
    if !is_short(revision, tables.len()) {
        return Err(WriteError::TooMany);
    }
    if !pointers_fit(revision, root_address, tables) {
        return Err(WriteError::PointerTooLarge);
    }
    let rsdp = AddressRange { address: rsdp_address, length: 36 };
    let root = AddressRange { address: root_address, length: root_length(revision, tables.len()) as u64 };
    check_places(alloc, rsdp, root, tables)
}
