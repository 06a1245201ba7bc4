// Made by scripts/erase of crates/acpi_pack_lib/src/place.rt, where it is proved.
//! The placement of tables.

use crate::image::PlacedTable;
use crate::pack::error::Refusal;
use crate::pack::sources::{FileBytes, FileRole, bytes_of, of_role};
use crate::rattle::Vec;
use crate::rattle::alloc::Global;

/// The files at their addresses, in order.
pub(crate) struct FilesAt<'a, 'f> {
    addresses: &'f [u64],
    files: &'f [FileBytes<'a>],
}

impl<'a> Iterator for FilesAt<'a, '_> {
    type Item = PlacedTable<'a>;

    fn next(&mut self) -> Option<PlacedTable<'a>> {
        let [address, addresses @ ..] = self.addresses else {
            return None;
        };
        let [file, files @ ..] = self.files else {
            return None;
        };
        self.addresses = addresses;
        self.files = files;
        Some(PlacedTable { address: *address, bytes: bytes_of(*file) })
    }
}

/// The files at their addresses, in order.
pub(crate) fn files_at<'a, 'f>(addresses: &'f [u64], files: &'f [FileBytes<'a>]) -> FilesAt<'a, 'f> {
    FilesAt { addresses, files }
}

/// The least multiple of 16 from an address on.
fn aligned(address: u128) -> u128 {
    (address + 15) / 16 * 16
}

/// The address of this number of bytes: the least multiple of 16 from an address on, or if they would
/// touch the place that is taken, the least one after that; `None` if they end above 2^64 - 1.
pub(crate) fn place_one(fixed: &PlacedTable<'_>, from: u64, count: usize) -> Option<u64> {
    let count = count as u128;
    let behind = fixed.address as u128 + fixed.bytes.len() as u128;
    let first = aligned(from as u128);
    let address = if first + count <= fixed.address as u128 || behind <= first { first } else { aligned(behind) };
    if address + count < 1 << 64 { Some(address as u64) } else { None }
}

/// Tests that each table that is listed has an address, placed as `place` does.
///
/// Fails with `NoRoom` if one has none.
pub(crate) fn check_room(files: &[FileBytes<'_>], fixed: &PlacedTable<'_>, from: u64) -> Result<(), Refusal> {
    let mut next = from;
    for table in of_role(files, FileRole::Listed) {
        let Some(address) = place_one(fixed, next, table.bytes.len()) else {
            return Err(Refusal::NoRoom);
        };
        next = address + table.bytes.len() as u64;
    }
    Ok(())
}

/// The tables that are listed, from an address on, in order, each at the address that `place_one`
/// returns for it after the one before it.
///
/// Fails with `NoRoom` if one has none, and with `OutOfMemory`.
pub(crate) fn place<'a>(
    alloc: Global,
    files: &[FileBytes<'a>],
    fixed: &PlacedTable<'_>,
    from: u64,
) -> Result<Vec<PlacedTable<'a>>, Refusal> {
    let mut placed = Vec::new(alloc);
    let mut next = from;
    for table in of_role(files, FileRole::Listed) {
        let Some(address) = place_one(fixed, next, table.bytes.len()) else {
            return Err(Refusal::NoRoom);
        };
        placed.push(PlacedTable { address, bytes: table.bytes })?;
        next = address + table.bytes.len() as u64;
    }
    Ok(placed)
}
