//! Clones that may fail.
use crate::alloc::AllocError;

/// A value of which a copy may need memory. Every `Clone` is one.
pub trait TryClone: Sized {
    /// A copy. Fails with `AllocError` if there is no memory for it.
    fn try_clone(&self) -> Result<Self, AllocError>;
}

impl<T: Clone> TryClone for T {
    fn try_clone(&self) -> Result<T, AllocError> {
        Ok(self.clone())
    }
}
