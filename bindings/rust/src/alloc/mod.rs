//! Memory that lists are in, and what fails where it runs out: allocators that are passed, vectors of a fixed capacity,
//! and clones that may fail.
//!
//! With the feature `allocator_api`, which needs a nightly compiler, an allocator is one of `core::alloc`. Otherwise
//! memory comes from the global allocator, and an [`Allocator`] may limit how much; without the feature `alloc` there is
//! no memory, and what needs some fails with [`AllocError`].

#[cfg(not(feature = "allocator_api"))]
mod limit;
mod memory;
mod try_clone;
mod vec;

#[cfg(feature = "allocator_api")]
pub use core::alloc::{AllocError, Allocator};
#[cfg(not(feature = "allocator_api"))]
pub use limit::{AllocError, Allocator, Global};
#[cfg(feature = "allocator_api")]
pub use rust_alloc::alloc::Global;
pub use try_clone::TryClone;
pub use vec::Vec;
