// Made by scripts/erase of crates/acpi_c_lib/src/lists.rt, where it is proved.
//! How a list is written for C: the records that its capacity holds are written, and all are counted.

/// Writes an item at an index, if the capacity is above it.
pub fn put<T: Copy>(out: &mut [T], index: usize, item: T) {
    if index < out.len() {
        out[index] = item;
    }
}

/// A walk along items of the library's, some of which have a record for C, by what else is to be known.
pub trait Listing<C, R>: Iterator {
    /// The record of an item, if it has one.
    fn record(known: &C, item: Self::Item) -> Option<R>;
}

/// Writes the records of a walk's items from an index on, and returns the next index.
pub fn fill_from<R: Copy, C, W: Listing<C, R>>(walk: W, known: &C, out: &mut [R], from: usize) -> usize {
    let mut count = from;
    for item in walk {
        if let Some(record) = W::record(known, item) {
            put(out, count, record);
            count += 1;
        }
    }
    count
}

/// Writes the records of a walk's items from the `from`-th on, counted from 0, and counts all.
pub fn fill_part<R: Copy, C, W: Listing<C, R>>(walk: W, known: &C, from: usize, out: &mut [R]) -> usize {
    let mut all = 0;
    for item in walk {
        if let Some(record) = W::record(known, item) {
            if all >= from {
                put(out, all - from, record);
            }
            all += 1;
        }
    }
    all
}

/// Writes the records of a walk's items, and counts them.
pub fn fill<R: Copy, C, W: Listing<C, R>>(walk: W, known: &C, out: &mut [R]) -> usize {
    fill_from(walk, known, out, 0)
}
