// Made by scripts/erase of crates/acpi_image_reader/src/record.rt, where it is proved.
//! One record of a file.

use crate::image_reader::error::ImageError;
use crate::image_reader::range::shares_byte;
use zacpi::base::AddressRange;
use zacpi::base::bytes::field;

/// A region of memory that a file encodes by one of its records.
#[derive(Clone, Copy)]
pub struct Record<'a> {
    /// The physical address of the region's first byte.
    pub start: u64,
    /// The bytes of the region, which are in the file.
    pub bytes: &'a [u8],
}

impl<'a> Record<'a> {
    /// The bytes from an address on, or `None` if it isn't in this record.
    pub(crate) fn rest(&self, address: u64) -> Option<&'a [u8]> {
        if address < self.start {
            return None;
        }
        let skipped = address - self.start;
        if skipped < self.bytes.len() as u64 { Some(&self.bytes[skipped as usize..]) } else { None }
    }

    /// The addresses of its bytes.
    fn range(&self) -> AddressRange {
        AddressRange::new(self.start, self.bytes.len() as u64)
    }

    /// Whether some byte is in this record and in another. One without bytes shares none.
    pub(crate) fn shares_byte(&self, other: &Record<'_>) -> bool {
        shares_byte(self.range(), other.range())
    }
}

/// The record that the bytes begin with, and the bytes after it.
///
/// Fails, in this order, with `Truncated` and `EndTooLarge`.
pub(crate) fn first_record(bytes: &[u8]) -> Result<(Record<'_>, &[u8]), ImageError> {
    if bytes.len() < 16 {
        return Err(ImageError::Truncated);
    }
    let start = field(bytes, 0, 8);
    let length = field(bytes, 8, 8);
    let behind = &bytes[16..];
    if length > behind.len() as u64 {
        return Err(ImageError::Truncated);
    }
    if !AddressRange::new(start, length).fits() {
        return Err(ImageError::EndTooLarge);
    }
    let length = length as usize;
    let record = Record { start, bytes: &behind[..length] };
    Ok((record, &behind[length..]))
}
