// Made by scripts/erase of crates/acpi_bytes/src/managed_slice.rt, where it is proved.
//! Slices that are owned, in memory of any allocator.

use crate::alloc::{AllocError, Allocator, Global};
use crate::alloc::{TryClone, Vec};
use crate::bytes::error::AcpiResult;

/// A slice of fixed length, which owns its items and the memory that they are in. Both end with
/// the slice: each item is dropped once.
pub struct ManagedSlice<T, A: Allocator> {
    items: Vec<T, A>,
}

impl<T: TryClone, A: Allocator> ManagedSlice<T, A> {
    /// `len` items, each of them equal to `value`, whose clones have to equal it, in memory of an allocator.
    ///
    /// Fails with `AllocError` if memory runs out, also for a clone of `value`, and only if `len` isn't 0.
    pub fn new_in(len: usize, value: T, allocator: A) -> AcpiResult<ManagedSlice<T, A>> {
        if len == 0 {
            return Ok(ManagedSlice { items: Vec::new(allocator) });
        }
        let items = Vec::from_elem(allocator, value, len)?;
        Ok(ManagedSlice { items })
    }
}

impl<T: TryClone> ManagedSlice<T, Global> {
    /// `len` items, each of them equal to `value`, whose clones have to equal it, in memory of the global
    /// allocator.
    ///
    /// Fails with `AllocError` if memory runs out, also for a clone of `value`, and only if `len` isn't 0.
    #[cfg(feature = "alloc")]
    pub fn new(len: usize, value: T) -> AcpiResult<ManagedSlice<T, Global>> {
        ManagedSlice::new_in(len, value, Global)
    }
}

impl<T, A: Allocator> ManagedSlice<T, A> {
    /// The items of a vector, in the memory that they are in already.
    pub fn from_vec(items: Vec<T, A>) -> ManagedSlice<T, A> {
        ManagedSlice { items }
    }

    /// The items, in order.
    pub fn as_slice(&self) -> &[T] {
        self.items.as_slice()
    }

    /// The items, in order, to be written. Their number stays.
    pub fn as_mut_slice(&mut self) -> &mut [T] {
        self.items.as_mut_slice()
    }
}

impl<T: TryClone, A: Allocator + TryClone> ManagedSlice<T, A> {
    /// Clones of the items, which have to equal them, in order, in memory of a clone of the allocator.
    ///
    /// Fails with `AllocError` if memory runs out, also for the clone of the allocator or of an item.
    pub fn try_clone(&self) -> Result<ManagedSlice<T, A>, AllocError> {
        let allocator = self.items.allocator().try_clone()?;
        let items = Vec::from_clones(allocator, self.items.as_slice())?;
        Ok(ManagedSlice { items })
    }
}
