// Made by scripts/erase of crates/acpi_image_reader/src/start_index.rt, where it is proved.
//! The starts of regions, in ascending order: the region that an address can be in is found without a
//! walk along the others.

use crate::rattle::TryClone;
use crate::rattle::alloc::{AllocError, Allocator};
use crate::rattle::collections::BTreeMap;

/// The greatest start that is at an address or below it, with the value that is kept there, or `None` if
/// every start is above the address.
pub fn last_up_to<V, A: Allocator>(starts: &BTreeMap<u64, V, A>, address: u64) -> Option<(u64, &V)> {
    match starts.range(..=address).next_back() {
        Some((start, value)) => Some((*start, value)),
        None => None,
    }
}

/// Adds the start of one more region, which has bytes and shares none with those that are listed.
///
/// Fails if memory for it runs out.
pub fn add_start<V, A: Allocator + TryClone>(
    starts: &mut BTreeMap<u64, V, A>,
    start: u64,
    value: V,
) -> Result<(), AllocError> {
    match starts.insert(start, value) {
        Ok(_) => Ok(()),
        Err(_) => Err(AllocError),
    }
}
