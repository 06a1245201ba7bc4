// Made by scripts/erase of crates/acpi_writer/src/placed.rt, where it is proved.
//! Tables one after the other, each filled up with zeros to a multiple of 16.

use crate::table_writer::ids::TableIds;
use crate::table_writer::listed::Listed;

/// The least multiple of 16 that isn't below a number.
pub(crate) fn rounded(n: usize) -> usize {
    n + (15 - (n + 15) % 16)
}

/// Puts zeros after this number of bytes, up to a multiple of 16, which it returns.
pub(crate) fn fill_up(out: &mut [u8], size: usize) -> usize {
    let end = rounded(size);
    out[size..end].fill(0);
    end
}

/// Puts a table to the front of a slice, filled up with zeros to a multiple of 16, and returns how many bytes these
/// are. One that can't be written has none.
pub(crate) fn put<T: Listed>(table: &T, out: &mut [u8], ids: &TableIds) -> usize {
    match table.size(ids) {
        Ok(size) => {
            table.put(&mut out[..size], ids);
            fill_up(out, size)
        }
        Err(_) => 0,
    }
}

/// How many bytes `put` puts.
pub(crate) fn place<T: Listed>(table: &T, ids: &TableIds) -> usize {
    match table.size(ids) {
        Ok(size) => rounded(size),
        Err(_) => 0,
    }
}
