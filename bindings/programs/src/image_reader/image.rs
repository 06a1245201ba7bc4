// Made by scripts/erase of crates/acpi_image_reader/src/image.rt, where it is proved.
//! Physical memory from a file.
//!
//! A file is a sequence of records without a header, one after the other to its end. A record is
//! a start (8 bytes), a length (8 bytes), both little-endian, and that many bytes: the memory from
//! the address `start` on. A file without a record is an empty memory, and a record without bytes
//! maps nothing.

pub use crate::image_reader::error::ImageError;
use crate::image_reader::reader::records_of;
use crate::image_reader::record::Record;
use crate::image_reader::record_list::Records;
use crate::rattle::alloc::Global;
use zacpi::base::{AcpiError, AcpiHandler, AcpiResult};

/// The memory that a file encodes, mapped from the file's own bytes. Each record is a region.
pub struct MemoryImage<'a> {
    records: Records<'a, Global>,
}

impl<'a> MemoryImage<'a> {
    /// The memory that a file encodes. It allocates only a list of the records and
    /// a map of their starts.
    ///
    /// Fails at the first record that fails, and of that one, in this order, with `Truncated` if fewer
    /// than 16 bytes are left or fewer than `length` after them, `EndTooLarge` if `start + length` is
    /// above 2^64 - 1, `Overlap` if it shares a byte with an earlier record, and `OutOfMemory`
    /// if memory runs out. Records that only adjoin share no byte, and one without bytes shares none.
    pub fn from_bytes(alloc: Global, bytes: &'a [u8]) -> Result<MemoryImage<'a>, ImageError> {
        let records = records_of(alloc, bytes)?;
        Ok(MemoryImage { records })
    }

    /// The regions of the memory, in the order of the file's records.
    pub fn records(&self) -> &[Record<'a>] {
        &self.records.list
    }
}

/// Maps the file's bytes.
impl AcpiHandler for MemoryImage<'_> {
    /// Maps all bytes from a physical address to the end of its record.
    ///
    /// Fails with `MapFailed` if no record has `size` bytes from that address on.
    fn map_physical_region(&self, address: u64, size: usize) -> AcpiResult<&[u8]> {
        let rest = self.records.rest_at(address);
        if size <= rest.len() { Ok(rest) } else { Err(AcpiError::MapFailed) }
    }

    /// Does nothing: a file's bytes need no notice.
    fn unmap_physical_region(&self, _address: u64, _region_length: usize, _mapped_length: usize) {}
}
