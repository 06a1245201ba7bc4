//! Vectors that are passed their allocator.
use crate::alloc::memory::Memory;
use crate::alloc::{AllocError, Allocator, Global, TryClone};
use core::fmt;
use core::ops::{Deref, DerefMut};

/// A vector whose capacity is fixed when it is made, in memory of an allocator.
pub struct Vec<T, A: Allocator = Global> {
    memory: Memory<T, A>,
}

impl<T, A: Allocator> Vec<T, A> {
    /// A vector without capacity, for which no memory is taken.
    pub fn new(allocator: A) -> Self {
        Vec { memory: Memory::new(allocator) }
    }

    /// A vector with a capacity of so many items. Fails with `AllocError` if there is no memory for them.
    pub fn with_capacity(allocator: A, capacity: usize) -> Result<Self, AllocError> {
        Ok(Vec { memory: Memory::with_capacity(allocator, capacity)? })
    }

    /// `count` items that equal one. Fails with `AllocError` if there is no memory for them, or for a copy of the item.
    pub fn from_elem(allocator: A, item: T, count: usize) -> Result<Self, AllocError>
    where
        T: TryClone,
    {
        let mut vec = Vec::with_capacity(allocator, count)?;
        for _ in 1..count {
            vec.push_reserved(item.try_clone()?);
        }
        if count > 0 {
            vec.push_reserved(item);
        }
        Ok(vec)
    }

    /// Copies of items. Fails with `AllocError` if there is no memory for them.
    pub fn from_clones(allocator: A, items: &[T]) -> Result<Self, AllocError>
    where
        T: TryClone,
    {
        let mut vec = Vec::with_capacity(allocator, items.len())?;
        for item in items {
            vec.push_reserved(item.try_clone()?);
        }
        Ok(vec)
    }

    /// Adds an item that there is capacity for.
    ///
    /// # Panics
    ///
    /// Panics if there are as many items as the capacity.
    pub fn push_reserved(&mut self, item: T) {
        assert!(self.len() < self.memory.capacity(), "a vector is full");
        self.memory.push(item);
    }

    /// The allocator whose memory the items are in.
    pub fn allocator(&self) -> &A {
        self.memory.allocator()
    }

    /// The items, in order.
    pub fn as_slice(&self) -> &[T] {
        self.memory.items()
    }

    /// The items, in order, to be written.
    pub fn as_mut_slice(&mut self) -> &mut [T] {
        self.memory.items_mut()
    }
}

impl<T, A: Allocator> Deref for Vec<T, A> {
    type Target = [T];

    fn deref(&self) -> &[T] {
        self.as_slice()
    }
}

impl<T, A: Allocator> DerefMut for Vec<T, A> {
    fn deref_mut(&mut self) -> &mut [T] {
        self.as_mut_slice()
    }
}

impl<T: TryClone, A: Allocator + TryClone> TryClone for Vec<T, A> {
    fn try_clone(&self) -> Result<Self, AllocError> {
        Vec::from_clones(self.allocator().try_clone()?, self)
    }
}

impl<T: fmt::Debug, A: Allocator> fmt::Debug for Vec<T, A> {
    fn fmt(&self, f: &mut fmt::Formatter<'_>) -> fmt::Result {
        self.as_slice().fmt(f)
    }
}

impl<'a, T, A: Allocator> IntoIterator for &'a Vec<T, A> {
    type Item = &'a T;
    type IntoIter = core::slice::Iter<'a, T>;

    fn into_iter(self) -> Self::IntoIter {
        self.iter()
    }
}
