// Made by scripts/erase of crates/acpi_image/src/write/records.rt, where it is proved.
//! The records of a written image, which are put into a file one after the other.

use crate::image::error::WriteError;
use crate::image::sums::{dword, rsdp_to, set_sum};
use crate::image::write::PlacedTable;
use crate::image::write::checks::{root_length, signature, width};
use crate::rattle::Vec;
use crate::rattle::alloc::Allocator;

/// Puts bytes after a file's.
///
/// Fails with `OutOfMemory` if memory for them runs out.
fn put<A: Allocator>(file: &mut Vec<u8, A>, bytes: &[u8]) -> Result<(), WriteError> {
    match file.extend_from_slice(bytes) {
        Ok(()) => Ok(()),
        Err(_) => Err(WriteError::OutOfMemory),
    }
}

/// Puts the low bytes of a number, the lowest first.
///
/// Fails with `OutOfMemory`.
fn put_number<A: Allocator>(file: &mut Vec<u8, A>, number: u64, width: usize) -> Result<(), WriteError> {
    put(file, &number.to_le_bytes()[..width])
}

/// Puts the start and the length that a record begins with.
///
/// Fails with `OutOfMemory`.
fn put_head<A: Allocator>(file: &mut Vec<u8, A>, start: u64, count: usize) -> Result<(), WriteError> {
    put_number(file, start, 8)?;
    put_number(file, count as u64, 8)
}

/// Puts the record of an RSDP at a physical address (section 5.2.5.3), which leads to the root table at
/// `root`: an RSDT for revision 0, otherwise an XSDT.
///
/// Fails with `OutOfMemory` if memory for it runs out.
pub fn put_rsdp<A: Allocator>(file: &mut Vec<u8, A>, address: u64, revision: u8, root: u64) -> Result<(), WriteError> {
    put_head(file, address, 36)?;
    put(file, &rsdp_to(*b"      ", revision, root))
}

/// A root table's header, whose checksum is 0 (section 5.2.6): an RSDT's for revision 0, otherwise
/// an XSDT's.
fn root_header(revision: u8, length: usize) -> [u8; 36] {
    // From the last field to the first, as in `rsdp_unsummed`.
    let mut header = [0; 36];
    header[10..24].copy_from_slice(b"              "); // OEMID, OEM Table ID
    header[8] = 1; // Revision
    header[4..8].copy_from_slice(&dword(length as u64)); // Length
    header[..4].copy_from_slice(&signature(revision).to_bytes()); // Signature
    header
}

/// Puts the addresses of tables, in order, as pointers of this width.
///
/// Fails with `OutOfMemory`.
fn put_pointers<A: Allocator>(
    file: &mut Vec<u8, A>,
    revision: u8,
    tables: &[PlacedTable<'_>],
) -> Result<(), WriteError> {
    let width = width(revision);
    for table in tables {
        put_number(file, table.address, width)?;
    }
    Ok(())
}

/// Puts a root table that lists these tables.
///
/// Fails with `OutOfMemory`.
fn put_table_of_pointers<A: Allocator>(
    file: &mut Vec<u8, A>,
    revision: u8,
    tables: &[PlacedTable<'_>],
) -> Result<(), WriteError> {
    let start = file.len();
    let length = root_length(revision, tables.len());
    put(file, &root_header(revision, length))?;
    put_pointers(file, revision, tables)?;
    set_sum(&mut file[start..], 9); // Checksum
    Ok(())
}

/// Puts the record of the root table at a physical address that lists these tables: an RSDT (section 5.2.7)
/// for revision 0, otherwise an XSDT (section 5.2.8).
///
/// Fails with `OutOfMemory` if memory for it runs out.
pub fn put_root_table<A: Allocator>(
    file: &mut Vec<u8, A>,
    address: u64,
    revision: u8,
    tables: &[PlacedTable<'_>],
) -> Result<(), WriteError> {
    put_head(file, address, root_length(revision, tables.len()))?;
    put_table_of_pointers(file, revision, tables)
}

/// Puts the record of bytes at a physical address, as they are.
///
/// Fails with `OutOfMemory` if memory for it runs out.
pub fn put_region<A: Allocator>(file: &mut Vec<u8, A>, address: u64, bytes: &[u8]) -> Result<(), WriteError> {
    put_head(file, address, bytes.len())?;
    put(file, bytes)
}

/// Puts the record of a table, with Checksum, byte 9, set.
///
/// Fails with `OutOfMemory`.
fn put_table<A: Allocator>(file: &mut Vec<u8, A>, table: &PlacedTable<'_>) -> Result<(), WriteError> {
    put_head(file, table.address, table.bytes.len())?;
    let start = file.len();
    put(file, table.bytes)?;
    set_sum(&mut file[start..], 9); // Checksum
    Ok(())
}

/// Puts the records of an image: of the RSDP, of the root table, and of each table in order.
///
/// Fails with `OutOfMemory`.
pub(super) fn put_records<A: Allocator>(
    file: &mut Vec<u8, A>,
    rsdp_address: u64,
    root_address: u64,
    revision: u8,
    tables: &[PlacedTable<'_>],
) -> Result<(), WriteError> {
    put_rsdp(file, rsdp_address, revision, root_address)?;
    put_root_table(file, root_address, revision, tables)?;
    for table in tables {
        put_table(file, table)?;
    }
    Ok(())
}
