//! Where a vector's items are: in memory of a nightly compiler's allocator, in the global allocator's memory as far as a
//! limit allows, or nowhere.
pub(super) use kind::Memory;

#[cfg(feature = "allocator_api")]
mod kind {
    use crate::alloc::{AllocError, Allocator};

    pub struct Memory<T, A: Allocator>(rust_alloc::vec::Vec<T, A>);

    impl<T, A: Allocator> Memory<T, A> {
        pub fn new(allocator: A) -> Self {
            Memory(rust_alloc::vec::Vec::new_in(allocator))
        }

        pub fn with_capacity(allocator: A, capacity: usize) -> Result<Self, AllocError> {
            let mut items = rust_alloc::vec::Vec::new_in(allocator);
            items.try_reserve_exact(capacity).map_err(|_| AllocError)?;
            Ok(Memory(items))
        }

        pub fn capacity(&self) -> usize {
            self.0.capacity()
        }

        pub fn push(&mut self, item: T) {
            self.0.push(item);
        }

        pub fn items(&self) -> &[T] {
            &self.0
        }

        pub fn items_mut(&mut self) -> &mut [T] {
            &mut self.0
        }

        pub fn allocator(&self) -> &A {
            self.0.allocator()
        }
    }
}

#[cfg(all(feature = "alloc", not(feature = "allocator_api")))]
mod kind {
    use crate::alloc::{AllocError, Allocator};

    pub struct Memory<T, A: Allocator> {
        items: rust_alloc::vec::Vec<T>,
        taken: usize, // bytes, of the allocator
        allocator: A,
    }

    impl<T, A: Allocator> Memory<T, A> {
        pub fn new(allocator: A) -> Self {
            Memory { items: rust_alloc::vec::Vec::new(), taken: 0, allocator }
        }

        pub fn with_capacity(allocator: A, capacity: usize) -> Result<Self, AllocError> {
            let mut memory = Memory::new(allocator);
            let size = capacity.checked_mul(size_of::<T>()).ok_or(AllocError)?;
            if size == 0 {
                return Ok(memory);
            }
            memory.allocator.take(size)?;
            memory.taken = size;
            memory.items.try_reserve_exact(capacity).map_err(|_| AllocError)?;
            Ok(memory)
        }

        pub fn capacity(&self) -> usize {
            self.items.capacity()
        }

        pub fn push(&mut self, item: T) {
            self.items.push(item);
        }

        pub fn items(&self) -> &[T] {
            &self.items
        }

        pub fn items_mut(&mut self) -> &mut [T] {
            &mut self.items
        }

        pub fn allocator(&self) -> &A {
            &self.allocator
        }
    }

    impl<T, A: Allocator> Drop for Memory<T, A> {
        fn drop(&mut self) {
            self.items = rust_alloc::vec::Vec::new();
            if self.taken > 0 {
                self.allocator.give(self.taken);
            }
        }
    }
}

#[cfg(not(any(feature = "alloc", feature = "allocator_api")))]
mod kind {
    use crate::alloc::{AllocError, Allocator};

    pub struct Memory<T, A: Allocator> {
        none: [T; 0],
        allocator: A,
    }

    impl<T, A: Allocator> Memory<T, A> {
        pub fn new(allocator: A) -> Self {
            Memory { none: [], allocator }
        }

        pub fn with_capacity(allocator: A, capacity: usize) -> Result<Self, AllocError> {
            if capacity > 0 { Err(AllocError) } else { Ok(Memory::new(allocator)) }
        }

        pub fn capacity(&self) -> usize {
            0
        }

        pub fn push(&mut self, _item: T) {}

        pub fn items(&self) -> &[T] {
            &self.none
        }

        pub fn items_mut(&mut self) -> &mut [T] {
            &mut self.none
        }

        pub fn allocator(&self) -> &A {
            &self.allocator
        }
    }
}
