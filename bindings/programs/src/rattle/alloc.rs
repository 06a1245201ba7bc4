//! Allocators: the package's.
use core::fmt;
pub use zacpi::alloc::{AllocError, Allocator, Global};

/// Memory ran out: the value that was to be stored.
pub struct AllocFailed<T>(pub T);

impl<T> AllocFailed<T> {
    /// The value.
    pub fn into_inner(self) -> T {
        self.0
    }
}

impl<T> From<AllocFailed<T>> for AllocError {
    fn from(_: AllocFailed<T>) -> AllocError {
        AllocError
    }
}

impl<T> fmt::Debug for AllocFailed<T> {
    fn fmt(&self, f: &mut fmt::Formatter<'_>) -> fmt::Result {
        f.write_str("AllocFailed")
    }
}
