//! Allocators on a stable compiler: limits of what is taken from the global one.
use core::fmt;

/// There is no memory for what was to be stored.
#[derive(Clone, Copy, Debug, PartialEq, Eq)]
pub struct AllocError;

impl fmt::Display for AllocError {
    fn fmt(&self, f: &mut fmt::Formatter<'_>) -> fmt::Result {
        f.write_str("memory allocation failed")
    }
}

impl core::error::Error for AllocError {}

#[cfg(feature = "std")]
impl From<AllocError> for std::io::Error {
    fn from(_: AllocError) -> Self {
        std::io::ErrorKind::OutOfMemory.into()
    }
}

/// A part of the global allocator's memory. The memory comes from the global allocator, if this has no objection.
pub trait Allocator {
    /// Called before a block of `size` bytes is taken. An error means that it isn't to be.
    fn take(&self, size: usize) -> Result<(), AllocError>;

    /// Called after a block of `size` bytes was given back, or couldn't be taken.
    fn give(&self, size: usize);
}

/// The global allocator.
#[derive(Clone, Copy, Debug, Default)]
pub struct Global;

impl Allocator for Global {
    fn take(&self, _size: usize) -> Result<(), AllocError> {
        Ok(())
    }

    fn give(&self, _size: usize) {}
}

impl<A: Allocator> Allocator for &A {
    fn take(&self, size: usize) -> Result<(), AllocError> {
        (**self).take(size)
    }

    fn give(&self, size: usize) {
        (**self).give(size);
    }
}
