// Made by scripts/erase of crates/acpi_arm/src/gic/collect.rt, where it is proved.
//! The walks along the entries of a MADT: for the distributor, and for each list.

use super::part::{GicDistributor, GicPart, distributor_in};
use crate::alloc::Vec;
use crate::alloc::{AllocError, Allocator};
use crate::base::bytes::field;
use crate::base::madt::MadtEntryIter;
use crate::base::managed_slice::ManagedSlice;
use crate::base::{AcpiError, AcpiResult, MadtError};

/// The first distributor of a MADT's bytes, or `None` if it lists none.
///
/// Fails with `InvalidMadt(InvalidEntryLength)` if the entries end malformed, wherever the distributor
/// is.
pub fn distributor_of(table: &[u8]) -> AcpiResult<Option<GicDistributor>> {
    let mut distributor = None;
    let mut entries = MadtEntryIter::over(table);
    while let Some(entry) = entries.next() {
        if distributor.is_none() {
            distributor = distributor_in(&entry);
        }
    }
    if entries.ended_malformed() {
        return Err(AcpiError::InvalidMadt(MadtError::InvalidEntryLength));
    }
    Ok(distributor)
}

/// How many items of a list the entries contain.
fn count_of<T: GicPart>(table: &[u8], revision: u8) -> usize {
    let mut count = 0;
    let mut entries = MadtEntryIter::over(table);
    while let Some(entry) = entries.next() {
        if T::said(&entry, revision).is_some() {
            count += 1;
        }
    }
    count
}

/// An empty list with room for this many items. No memory is requested if there are none.
fn room<T, A: Allocator>(count: usize, allocator: A) -> Result<Vec<T, A>, AllocError> {
    if count == 0 {
        return Ok(Vec::new(allocator));
    }
    Vec::with_capacity(allocator, count)
}

/// The items of a list, in order, in memory of an allocator, which is requested once, and only if
/// there is an item.
pub(super) fn collected<T: GicPart, A: Allocator>(
    table: &[u8],
    allocator: A,
) -> Result<ManagedSlice<T, A>, AllocError> {
    let revision = field(table, 8, 1) as u8; // Revision
    let mut items = room(count_of::<T>(table, revision), allocator)?;
    let mut entries = MadtEntryIter::over(table);
    while let Some(entry) = entries.next() {
        if let Some(item) = T::said(&entry, revision) {
            items.push_reserved(item);
        }
    }
    Ok(ManagedSlice::from_vec(items))
}
