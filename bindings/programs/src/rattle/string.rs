//! Texts that are passed their allocator.
use crate::rattle::TryClone;
use crate::rattle::alloc::{AllocError, Allocator, Global};
use core::fmt;
use core::ops::Deref;

/// A text. What adds to it fails where memory runs out.
pub struct String<A: Allocator = Global> {
    text: std::string::String,
    allocator: A,
}

impl<A: Allocator> String<A> {
    pub fn new(allocator: A) -> Self {
        String { text: std::string::String::new(), allocator }
    }

    pub fn from_str(allocator: A, text: &str) -> Result<Self, AllocError> {
        let mut string = String::new(allocator);
        string.push_str(text)?;
        Ok(string)
    }

    pub fn push_str(&mut self, text: &str) -> Result<(), AllocError> {
        self.text.try_reserve(text.len()).map_err(|_| AllocError)?;
        self.text.push_str(text);
        Ok(())
    }

    pub fn as_str(&self) -> &str {
        &self.text
    }

    /// What `write!` calls: unlike Rust's, its error is `AllocError`.
    pub fn write_fmt(&mut self, text: fmt::Arguments<'_>) -> Result<(), AllocError> {
        fmt::Write::write_fmt(self, text).map_err(|_| AllocError)
    }
}

impl<A: Allocator> fmt::Write for String<A> {
    fn write_str(&mut self, text: &str) -> fmt::Result {
        self.push_str(text).map_err(|_| fmt::Error)
    }
}

impl<A: Allocator> Deref for String<A> {
    type Target = str;

    fn deref(&self) -> &str {
        &self.text
    }
}

impl<A: Allocator> fmt::Display for String<A> {
    fn fmt(&self, f: &mut fmt::Formatter<'_>) -> fmt::Result {
        fmt::Display::fmt(self.as_str(), f)
    }
}

impl<A: Allocator> fmt::Debug for String<A> {
    fn fmt(&self, f: &mut fmt::Formatter<'_>) -> fmt::Result {
        fmt::Debug::fmt(self.as_str(), f)
    }
}

impl<A: Allocator + TryClone> TryClone for String<A> {
    fn try_clone(&self) -> Result<Self, AllocError> {
        String::from_str(self.allocator.try_clone()?, self)
    }
}

impl<A: Allocator, B: Allocator> PartialEq<String<B>> for String<A> {
    fn eq(&self, other: &String<B>) -> bool {
        self.as_str() == other.as_str()
    }
}

impl<A: Allocator> Eq for String<A> {}

impl<A: Allocator> PartialOrd for String<A> {
    fn partial_cmp(&self, other: &Self) -> Option<core::cmp::Ordering> {
        Some(self.cmp(other))
    }
}

impl<A: Allocator> Ord for String<A> {
    fn cmp(&self, other: &Self) -> core::cmp::Ordering {
        self.as_str().cmp(other.as_str())
    }
}

/// Texts of what can be printed.
pub trait TryToString {
    fn to_string(&self, alloc: Global) -> Result<String, AllocError>;
}

impl<T: fmt::Display + ?Sized> TryToString for T {
    fn to_string(&self, alloc: Global) -> Result<String, AllocError> {
        let mut string = String::new(alloc);
        string.write_fmt(format_args!("{self}"))?;
        Ok(string)
    }
}
