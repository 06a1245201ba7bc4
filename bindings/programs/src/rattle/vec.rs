//! Vectors that are passed their allocator.
use crate::rattle::TryClone;
use crate::rattle::alloc::{AllocError, AllocFailed, Allocator, Global};
use core::fmt;
use core::ops::{Deref, DerefMut};
use std::vec::Vec as Items;

/// A vector. What adds to it fails where memory runs out, and leaves it as it was.
pub struct Vec<T, A: Allocator = Global> {
    items: Items<T>,
    counted: usize, // bytes that the allocator counts
    allocator: A,
}

impl<T, A: Allocator> Vec<T, A> {
    pub fn new(allocator: A) -> Self {
        Vec { items: Items::new(), counted: 0, allocator }
    }

    pub fn with_capacity(allocator: A, capacity: usize) -> Result<Self, AllocError> {
        let mut vec = Vec::new(allocator);
        vec.grow(capacity)?;
        Ok(vec)
    }

    /// Room for so many items in all.
    fn grow(&mut self, capacity: usize) -> Result<(), AllocError> {
        if capacity <= self.items.capacity() {
            return Ok(());
        }
        let size = capacity.checked_mul(size_of::<T>()).ok_or(AllocError)?;
        self.allocator.take(size)?;
        let more = capacity - self.len();
        if self.items.try_reserve_exact(more).is_err() {
            self.allocator.give(size);
            return Err(AllocError);
        }
        if self.counted > 0 {
            self.allocator.give(self.counted);
        }
        self.counted = size;
        Ok(())
    }

    pub fn reserve(&mut self, more: usize) -> Result<(), AllocError> {
        let wanted = self.len().checked_add(more).ok_or(AllocError)?;
        let capacity = self.items.capacity();
        if wanted > capacity {
            let least = if size_of::<T>() == 1 { 8 } else { 4 };
            self.grow(wanted.max(capacity.saturating_mul(2)).max(least))?;
        }
        Ok(())
    }

    pub fn push(&mut self, item: T) -> Result<(), AllocFailed<T>> {
        if self.reserve(1).is_err() {
            return Err(AllocFailed(item));
        }
        self.items.push(item);
        Ok(())
    }

    pub fn pop(&mut self) -> Option<T> {
        self.items.pop()
    }

    pub fn clear(&mut self) {
        self.items.clear();
    }

    pub fn truncate(&mut self, len: usize) {
        self.items.truncate(len);
    }

    pub fn as_slice(&self) -> &[T] {
        self.items.as_slice()
    }

    pub fn as_mut_slice(&mut self) -> &mut [T] {
        self.items.as_mut_slice()
    }

    /// `len` clones of a value.
    pub fn from_elem(allocator: A, value: T, len: usize) -> Result<Self, AllocError>
    where
        T: TryClone,
    {
        let mut vec = Vec::with_capacity(allocator, len)?;
        for _ in 1..len {
            vec.push(value.try_clone()?)?;
        }
        if len > 0 {
            vec.push(value)?;
        }
        Ok(vec)
    }

    /// Clones of items.
    pub fn from_clones(allocator: A, items: &[T]) -> Result<Self, AllocError>
    where
        T: TryClone,
    {
        let mut vec = Vec::with_capacity(allocator, items.len())?;
        for item in items {
            vec.push(item.try_clone()?)?;
        }
        Ok(vec)
    }

    pub fn from_array<const N: usize>(allocator: A, items: [T; N]) -> Result<Self, AllocError> {
        let mut vec = Vec::with_capacity(allocator, N)?;
        for item in items {
            vec.push(item)?;
        }
        Ok(vec)
    }

    pub fn from_slice(allocator: A, items: &[T]) -> Result<Self, AllocError>
    where
        T: Copy,
    {
        let mut vec = Vec::with_capacity(allocator, items.len())?;
        vec.extend_from_slice(items)?;
        Ok(vec)
    }

    pub fn extend_from_slice(&mut self, items: &[T]) -> Result<(), AllocError>
    where
        T: Copy,
    {
        self.reserve(items.len())?;
        self.items.extend_from_slice(items);
        Ok(())
    }
}

impl<T> Vec<T> {
    /// The items in the global allocator's memory, of which none is counted.
    pub(super) fn of(items: Items<T>) -> Self {
        Vec { items, counted: 0, allocator: Global }
    }
}

impl<A: Allocator> Vec<u8, A> {
    /// Appends a text as it is printed.
    pub fn write_fmt<D: fmt::Display>(&mut self, text: D) -> fmt::Result {
        fmt::Write::write_fmt(self, format_args!("{text}"))
    }
}

impl<A: Allocator> fmt::Write for Vec<u8, A> {
    fn write_str(&mut self, text: &str) -> fmt::Result {
        self.extend_from_slice(text.as_bytes()).map_err(|_| fmt::Error)
    }
}

impl<T, A: Allocator> Vec<T, A> {
    pub fn extend_from_within(&mut self, range: core::ops::Range<usize>) -> Result<(), AllocError>
    where
        T: Copy,
    {
        self.reserve(range.len())?;
        self.items.extend_from_within(range);
        Ok(())
    }

    pub fn remove(&mut self, at: usize) -> T {
        self.items.remove(at)
    }

    /// Sorts, stably.
    pub fn sort(&mut self) -> Result<(), AllocError>
    where
        T: Ord,
    {
        self.items.sort();
        Ok(())
    }

    pub fn sort_by_key<K: Ord, F: FnMut(&T) -> K>(&mut self, key: F) -> Result<(), AllocError> {
        self.items.sort_by_key(key);
        Ok(())
    }

    pub fn sort_by<F: FnMut(&T, &T) -> core::cmp::Ordering>(&mut self, compare: F) -> Result<(), AllocError> {
        self.items.sort_by(compare);
        Ok(())
    }
}

impl<T, A: Allocator> Drop for Vec<T, A> {
    fn drop(&mut self) {
        if self.counted > 0 {
            self.items.clear();
            self.allocator.give(self.counted);
        }
    }
}

impl<T: TryClone, A: Allocator + TryClone> TryClone for Vec<T, A> {
    fn try_clone(&self) -> Result<Self, AllocError> {
        Vec::from_clones(self.allocator.try_clone()?, self.as_slice())
    }
}

impl<T, A: Allocator> Deref for Vec<T, A> {
    type Target = [T];

    fn deref(&self) -> &[T] {
        self.as_slice()
    }
}

impl<T, A: Allocator> DerefMut for Vec<T, A> {
    fn deref_mut(&mut self) -> &mut [T] {
        self.as_mut_slice()
    }
}

impl<T: fmt::Debug, A: Allocator> fmt::Debug for Vec<T, A> {
    fn fmt(&self, f: &mut fmt::Formatter<'_>) -> fmt::Result {
        self.as_slice().fmt(f)
    }
}

impl<T: PartialEq, A: Allocator, B: Allocator> PartialEq<Vec<T, B>> for Vec<T, A> {
    fn eq(&self, other: &Vec<T, B>) -> bool {
        self.as_slice() == other.as_slice()
    }
}

impl<'a, T, A: Allocator> IntoIterator for &'a Vec<T, A> {
    type Item = &'a T;
    type IntoIter = core::slice::Iter<'a, T>;

    fn into_iter(self) -> Self::IntoIter {
        self.as_slice().iter()
    }
}

impl<'a, T, A: Allocator> IntoIterator for &'a mut Vec<T, A> {
    type Item = &'a mut T;
    type IntoIter = core::slice::IterMut<'a, T>;

    fn into_iter(self) -> Self::IntoIter {
        self.as_mut_slice().iter_mut()
    }
}

impl<T, A: Allocator> IntoIterator for Vec<T, A> {
    type Item = T;
    type IntoIter = std::vec::IntoIter<T>;

    fn into_iter(mut self) -> Self::IntoIter {
        core::mem::take(&mut self.items).into_iter()
    }
}
