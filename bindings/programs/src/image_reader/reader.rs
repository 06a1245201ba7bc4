// Made by scripts/erase of crates/acpi_image_reader/src/reader.rt, where it is proved.
//! Reading the records of a file, in order.

use crate::image_reader::error::ImageError;
use crate::image_reader::record::{Record, first_record};
pub use crate::image_reader::record_list::Records;
use crate::rattle::alloc::Allocator;

/// The record that the bytes begin with, which shares no byte with an earlier one, and the bytes
/// after it.
///
/// Fails, in this order, with `Truncated`, `EndTooLarge` and `Overlap`.
fn next_record<'a, A: Allocator>(
    earlier: &Records<'_, A>,
    bytes: &'a [u8],
) -> Result<(Record<'a>, &'a [u8]), ImageError> {
    let (record, rest) = first_record(bytes)?;
    if earlier.shares_with_any(&record) {
        return Err(ImageError::Overlap);
    }
    Ok((record, rest))
}

/// The records of a file, kept in memory of an allocator.
///
/// Fails at the first record that fails, and of that one, in this order, with `Truncated` if fewer than 16
/// bytes are left or fewer than the record's length after them, `EndTooLarge` if its start and its length add
/// up to more than 2^64 - 1, `Overlap` if it shares a byte with an earlier record, and `OutOfMemory` if memory
/// for it runs out.
pub fn records_of<'a, A: Allocator + Copy>(alloc: A, bytes: &'a [u8]) -> Result<Records<'a, A>, ImageError> {
    let mut records = Records::none(alloc);
    let mut rest = bytes;
    while !rest.is_empty() {
        let (next, behind) = next_record(&records, rest)?;
        records = records.with(next)?;
        rest = behind;
    }
    Ok(records)
}
