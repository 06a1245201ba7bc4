// Made by scripts/erase of crates/acpi_image/src/write/places.rt, where it is proved.
//! The places that the records of a written image are to be at.

use crate::image::error::WriteError;
use crate::image::write::PlacedTable;
use crate::image_reader::range::shares_byte;
use crate::image_reader::start_index::{add_start, last_up_to};
use crate::rattle::TryClone;
use crate::rattle::alloc::{AllocError, Allocator};
use crate::rattle::collections::BTreeMap;
use zacpi::base::AddressRange;

/// The range of physical memory that a table is to be in.
pub fn range_of(table: &PlacedTable<'_>) -> AddressRange {
    AddressRange::new(table.address, table.bytes.len() as u64)
}

/// Whether some byte is in a place and in one of the tables.
fn shares_with_any(place: AddressRange, tables: &[PlacedTable<'_>]) -> bool {
    tables.iter().any(|table| shares_byte(range_of(table), place))
}

/// Whether some byte is in two of the tables.
fn some_share(tables: &[PlacedTable<'_>]) -> bool {
    for index in 0..tables.len() {
        if shares_with_any(range_of(&tables[index]), &tables[index + 1..]) {
            return true;
        }
    }
    false
}

/// Whether a place shares a byte with one of those that are listed by their starts.
fn shares_with_listed<A: Allocator>(starts: &BTreeMap<u64, u64, A>, place: AddressRange) -> bool {
    if place.length == 0 {
        return false;
    }
    match last_up_to(starts, place.address + (place.length - 1)) {
        Some((start, length)) => {
            let last = AddressRange { address: start, length: *length };
            shares_byte(last, place)
        }
        None => false,
    }
}

/// Lists a place by its start, which shares no byte with those that are listed.
///
/// Fails if memory for it runs out.
fn add_place<A: Allocator + TryClone>(
    starts: &mut BTreeMap<u64, u64, A>,
    place: AddressRange,
) -> Result<(), AllocError> {
    if place.length == 0 {
        return Ok(());
    }
    add_start(starts, place.address, place.length)?;
    Ok(())
}

/// Whether a table shares a byte with one before it, or with a place that is listed. Up to the first such
/// table it lists the tables too.
///
/// Fails if memory for one runs out.
fn tables_share<A: Allocator + TryClone>(
    starts: &mut BTreeMap<u64, u64, A>,
    tables: &[PlacedTable<'_>],
) -> Result<bool, AllocError> {
    for table in tables {
        let place = range_of(table);
        if shares_with_listed(starts, place) {
            return Ok(true);
        }
        add_place(starts, place)?;
    }
    Ok(false)
}

/// Whether some byte is in two of the places, by a list of their starts.
///
/// Fails if memory for the list runs out.
fn some_share_by_starts<A: Allocator + TryClone>(
    alloc: A,
    rsdp: AddressRange,
    root: AddressRange,
    tables: &[PlacedTable<'_>],
) -> Result<bool, AllocError> {
    if shares_byte(rsdp, root) {
        return Ok(true);
    }
    let mut starts = BTreeMap::new(alloc);
    add_place(&mut starts, rsdp)?;
    add_place(&mut starts, root)?;
    tables_share(&mut starts, tables)
}

/// Whether some byte is in two of the places, pair by pair: it takes longer, and no memory.
fn some_share_by_pairs(rsdp: AddressRange, root: AddressRange, tables: &[PlacedTable<'_>]) -> bool {
    shares_byte(root, rsdp) || shares_with_any(rsdp, tables) || shares_with_any(root, tables) || some_share(tables)
}

/// Whether each of the tables ends below 2^64.
fn all_fit(tables: &[PlacedTable<'_>]) -> bool {
    tables.iter().all(|table| range_of(table).fits())
}

/// Tests the places that the records are to be at.
///
/// Fails, in this order, with `EndTooLarge` and `Overlap`.
pub(super) fn check_places<A: Allocator + TryClone>(
    alloc: A,
    rsdp: AddressRange,
    root: AddressRange,
    tables: &[PlacedTable<'_>],
) -> Result<(), WriteError> {
    if !rsdp.fits() || !root.fits() || !all_fit(tables) {
        return Err(WriteError::EndTooLarge);
    }
    let some_share = match some_share_by_starts(alloc, rsdp, root, tables) {
        Ok(answer) => answer,
        Err(_) => some_share_by_pairs(rsdp, root, tables),
    };
    if some_share {
        return Err(WriteError::Overlap);
    }
    Ok(())
}
