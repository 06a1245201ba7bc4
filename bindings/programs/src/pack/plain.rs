// Made by scripts/erase of crates/acpi_pack_lib/src/plain.rt, where it is proved.
//! Plain memory of an image: the bytes of its records, each at its distance from the first address.

use crate::image::{MemoryImage, Record};
use crate::pack::error::Refusal;
use crate::rattle::alloc::Global;
use crate::rattle::{Vec, vec};

/// The most bytes that plain memory may have.
const MAX_LENGTH: u128 = 1 << 30;

/// The first address that a record has, or 2^64 - 1 if there is none.
pub(crate) fn first_address(records: &[Record<'_>]) -> u64 {
    let mut first = u64::MAX;
    for record in records {
        if record.start < first {
            first = record.start;
        }
    }
    first
}

/// The address after the last record, or 0 if there is none.
fn end_address(records: &[Record<'_>]) -> u128 {
    let mut end = 0;
    for record in records {
        let after = record.start as u128 + record.bytes.len() as u128;
        if end < after {
            end = after;
        }
    }
    end
}

/// Puts a record's bytes into bytes that begin at an address.
fn put_record(bytes: &mut [u8], first: u64, placed: &Record<'_>) {
    let offset = (placed.start - first) as usize;
    bytes[offset..offset + placed.bytes.len()].copy_from_slice(placed.bytes);
}

/// Puts the bytes of records, in order, into bytes that begin at an address.
fn put_records(bytes: &mut [u8], first: u64, records: &[Record<'_>]) {
    for record in records {
        put_record(bytes, first, record);
    }
}

/// The plain memory of an image: the bytes of its records, each at its distance from the first address, and zeros
/// between them.
///
/// Fails with `TooLarge` if there are more than 2^30 bytes from the first address to the last, and with
/// `OutOfMemory` if memory runs out.
pub(crate) fn plain_of(alloc: Global, image: &[u8]) -> Result<Vec<u8>, Refusal> {
    let Ok(memory) = MemoryImage::from_bytes(alloc, image) else {
        return Err(Refusal::OutOfMemory);
    };
    let records = memory.records();
    let first = first_address(records);
    let count = end_address(records).saturating_sub(first as u128);
    if count > MAX_LENGTH {
        return Err(Refusal::TooLarge);
    }
    let Ok(mut bytes) = vec![in alloc; 0u8; count as usize] else {
        return Err(Refusal::OutOfMemory);
    };
    put_records(&mut bytes, first, records);
    Ok(bytes)
}
