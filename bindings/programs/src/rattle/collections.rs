//! Maps that are passed their allocator. Rust's map can't fail for want of memory: it is counted, but the global
//! allocator's own failure ends the program.
use crate::rattle::alloc::{AllocFailed, Allocator, Global};
use core::ops::RangeBounds;
use std::collections::btree_map;

pub struct BTreeMap<K, V, A: Allocator = Global> {
    map: btree_map::BTreeMap<K, V>,
    allocator: A,
}

impl<K: Ord, V, A: Allocator> BTreeMap<K, V, A> {
    pub fn new(allocator: A) -> Self {
        BTreeMap { map: btree_map::BTreeMap::new(), allocator }
    }

    pub fn insert(&mut self, key: K, value: V) -> Result<Option<V>, AllocFailed<(K, V)>> {
        if self.allocator.take(Self::size()).is_err() {
            return Err(AllocFailed((key, value)));
        }
        let old = self.map.insert(key, value);
        if old.is_some() {
            self.allocator.give(Self::size());
        }
        Ok(old)
    }

    fn size() -> usize {
        size_of::<K>() + size_of::<V>()
    }

    pub fn range<R: RangeBounds<K>>(&self, range: R) -> btree_map::Range<'_, K, V> {
        self.map.range(range)
    }
}

impl<K, V, A: Allocator> Drop for BTreeMap<K, V, A> {
    fn drop(&mut self) {
        for _ in 0..self.map.len() {
            self.allocator.give(size_of::<K>() + size_of::<V>());
        }
    }
}
