//! Calls of slices and iterators that are passed an allocator. In Rust these names take none.
use crate::rattle::Vec;
use crate::rattle::alloc::{AllocError, Allocator};

pub trait ToVecIn<T> {
    /// A vector with these items.
    fn to_vec_in<A: Allocator>(&self, allocator: A) -> Result<Vec<T, A>, AllocError>;
}

impl<T: Copy> ToVecIn<T> for [T] {
    fn to_vec_in<A: Allocator>(&self, allocator: A) -> Result<Vec<T, A>, AllocError> {
        Vec::from_slice(allocator, self)
    }
}

pub trait CollectIn: Iterator + Sized {
    /// A vector of the items.
    fn collect_in<A: Allocator>(self, allocator: A) -> Result<Vec<Self::Item, A>, AllocError> {
        let mut vec = Vec::new(allocator);
        for item in self {
            vec.push(item)?;
        }
        Ok(vec)
    }
}

impl<I: Iterator> CollectIn for I {}
