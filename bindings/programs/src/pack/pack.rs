// Made by scripts/erase of crates/acpi_pack_lib/src/pack.rt, where it is proved.
//! Images that are packed from files.

use crate::image::PlacedTable;
use crate::image::write::{put_region, put_root_table, put_rsdp, range_of};
use crate::image_reader::range;
use crate::pack::error::{FileError, Refusal};
use crate::pack::place::{check_room, files_at, place, place_one};
use crate::pack::sources::{FileBytes, FileRole, bytes_of, check_contents, check_tables, listed_count, of_role};
use crate::rattle::Vec;
use crate::rattle::alloc::Global;
use zacpi::PhysicalRecord;
use zacpi::fadt::Fadt;
use zacpi::root::RootKind;

/// The address of the RSDP: the start of the BIOS area that is searched for it first (section 5.2.5.1).
const RSDP: u64 = 0xe0000;

/// The address from which on the other tables are placed: after the BIOS areas.
const FIRST: u64 = 0x100000;

/// Whether two tables share a byte.
fn share(one: &PlacedTable<'_>, other: &PlacedTable<'_>) -> bool {
    range::shares_byte(range_of(one), range_of(other))
}

/// Whether a table shares a byte with one of these files at their addresses.
fn shares_byte(addresses: &[u64], files: &[FileBytes<'_>], table: &PlacedTable<'_>) -> bool {
    addresses.iter().zip(files).any(|(address, file)| {
        let earlier = PlacedTable { address: *address, bytes: bytes_of(*file) };
        share(&earlier, table)
    })
}

/// Tests the place of the file of this index, after earlier files at their addresses.
///
/// Fails, in this order, with `EndTooLarge` and `Overlap`.
fn check_place(
    index: usize,
    addresses: &[u64],
    files: &[FileBytes<'_>],
    table: &PlacedTable<'_>,
) -> Result<(), Refusal> {
    if !range_of(table).fits() {
        return Err(Refusal::File(index, FileError::EndTooLarge));
    }
    if shares_byte(addresses, files, table) {
        return Err(Refusal::File(index, FileError::Overlap));
    }
    Ok(())
}

/// Tests the place of each file.
///
/// Fails, files in order, as `check_place` does.
fn check_places(addresses: &[u64], files: &[FileBytes<'_>]) -> Result<(), Refusal> {
    for index in 0..addresses.len().min(files.len()) {
        let table = PlacedTable { address: addresses[index], bytes: bytes_of(files[index]) };
        check_place(index, &addresses[..index], &files[..index], &table)?;
    }
    Ok(())
}

/// Puts the records of files at their addresses, one after the other.
///
/// Fails with `OutOfMemory`.
fn put_files(file: &mut Vec<u8>, addresses: &[u64], files: &[FileBytes<'_>]) -> Result<(), Refusal> {
    for table in files_at(addresses, files) {
        put_region(file, table.address, table.bytes)?;
    }
    Ok(())
}

/// A file of memory that has each of these files at its physical address, as it is.
///
/// Fails with the first of these that holds: of a file, in order, `Unreadable` if it can't be read or
/// `Empty` if it has no bytes; then of a file, in order, `EndTooLarge` if its address and the number of its
/// bytes add up to more than 2^64 - 1, or `Overlap` if it shares a byte with an earlier one; and if no file
/// is an error, `OutOfMemory` if memory runs out.
pub fn pack_files(alloc: Global, addresses: &[u64], files: &[FileBytes<'_>]) -> Result<Vec<u8>, Refusal> {
    check_contents(files)?;
    check_places(addresses, files)?;
    let mut file = Vec::new(alloc);
    put_files(&mut file, addresses, files)?;
    Ok(file)
}

/// The DSDT's address in a FADT, its 64-bit field first, or `None` if it isn't as long as a
/// FADT is (section 5.2.9).
fn dsdt_address_in(fadt: &[u8]) -> Option<u64> {
    if fadt.len() < Fadt::MIN_LENGTH {
        return None;
    }
    Fadt::read(fadt).dsdt_address().ok()
}

/// The DSDT's address in the first FADT among files.
pub(crate) fn dsdt_address(files: &[FileBytes<'_>]) -> Option<u64> {
    for table in of_role(files, FileRole::Listed) {
        if table.bytes.starts_with(b"FACP") {
            return dsdt_address_in(table.bytes);
        }
    }
    None
}

/// The DSDT at the address of the FADT or the command. It is left out without one.
///
/// Fails, in this order, with `EndTooLarge`, `Overlap` if it shares a byte with the RSDP, and
/// `Overlap` for a second DSDT.
fn dsdt_at<'a>(address: Option<u64>, files: &[FileBytes<'a>]) -> Result<Option<PlacedTable<'a>>, Refusal> {
    let mut found = of_role(files, FileRole::Dsdt);
    let (Some(address), Some(first)) = (address, found.next()) else {
        return Ok(None);
    };
    let dsdt = PlacedTable { address, bytes: first.bytes };
    check_place(first.index, &[RSDP], &[Some(&[0; 36])], &dsdt)?;
    match found.next() {
        None => Ok(Some(dsdt)),
        Some(second) => Err(Refusal::File(second.index, FileError::Overlap)),
    }
}

/// The place that the other tables keep away from: the DSDT's, or no bytes if there is none.
fn fixed_of<'a>(dsdt: Option<PlacedTable<'a>>) -> PlacedTable<'a> {
    match dsdt {
        Some(dsdt) => dsdt,
        None => PlacedTable { address: 0, bytes: &[] },
    }
}

/// Puts the records of tables, one after the other.
///
/// Fails with `OutOfMemory`.
fn put_tables(file: &mut Vec<u8>, tables: &[PlacedTable<'_>]) -> Result<(), Refusal> {
    for table in tables {
        put_region(file, table.address, table.bytes)?;
    }
    Ok(())
}

/// Puts the records of an RSDP of revision 2, the XSDT at an address, the tables that it lists, and the
/// DSDT.
///
/// Fails with `OutOfMemory`.
fn put_all(
    file: &mut Vec<u8>,
    root: u64,
    tables: &[PlacedTable<'_>],
    dsdt: Option<PlacedTable<'_>>,
) -> Result<(), Refusal> {
    put_rsdp(file, RSDP, 2, root)?;
    put_root_table(file, root, 2, tables)?;
    put_tables(file, tables)?;
    if let Some(dsdt) = dsdt {
        put_region(file, dsdt.address, dsdt.bytes)?;
    }
    Ok(())
}

/// The number of bytes of an XSDT that lists this number of tables, or `None` if that is 2^32 or above.
fn root_length(count: usize) -> Option<usize> {
    let width = RootKind::Xsdt.width();
    if count <= (u32::MAX as usize - 36) / width { Some(36 + width * count) } else { None }
}

/// The file of memory that lists the tables among files, and has the DSDT at its address.
///
/// Fails with `NoRoom`, and if none of this is an error, with `OutOfMemory`.
fn lay_out(alloc: Global, files: &[FileBytes<'_>], dsdt: Option<PlacedTable<'_>>) -> Result<Vec<u8>, Refusal> {
    let fixed = fixed_of(dsdt);
    let Some(length) = root_length(listed_count(files)) else {
        return Err(Refusal::NoRoom);
    };
    let Some(root) = place_one(&fixed, FIRST, length) else {
        return Err(Refusal::NoRoom);
    };
    let first = root + length as u64;
    check_room(files, &fixed, first)?;
    let tables = place(alloc, files, &fixed, first)?;
    let mut file = Vec::new(alloc);
    put_all(&mut file, root, &tables, dsdt)?;
    Ok(file)
}

/// A file of memory that has an RSDP of revision 2 at 0xe0000 (section 5.2.5.3), an XSDT (section 5.2.8) that
/// lists these tables in order, each at a multiple of 16 from 0x100000 on and away from all others, and the
/// DSDT at the address in the first FADT (section 5.2.9). The bytes of tables are kept as they are.
/// A file that no root table lists is left out, as a FACS, a root table and an RSDP, and so is a DSDT for
/// which no FADT has an address.
///
/// Fails with the first of these that holds: of a file, in order, `Unreadable` if it can't be read, `Empty`
/// if it has no bytes, and, unless it is left out as unlisted, `Short` if it has under 36 bytes or fewer than
/// its length field has, or `Long` if it has more; of the DSDT `EndTooLarge` or `Overlap`; `NoRoom` if the
/// tables can't all be listed and placed; and if none of this is an error, `OutOfMemory` if memory runs
/// out.
pub fn pack_tables(alloc: Global, files: &[FileBytes<'_>]) -> Result<Vec<u8>, Refusal> {
    check_tables(files)?;
    let dsdt = dsdt_at(dsdt_address(files), files)?;
    lay_out(alloc, files, dsdt)
}
