// Made by scripts/erase of crates/acpi/src/handler/region.rt, where it is proved.
//! A handler over one region of physical memory that the caller has mapped.

use crate::base::{AcpiError, AcpiHandler, AcpiResult, AddressRange};
use core::fmt;

/// The errors of `MappedRegion::new` and `MappedRegions::new`: why regions are no memory.
#[derive(Clone, Copy, Debug, PartialEq, Eq)]
#[non_exhaustive]
pub enum RegionError {
    /// A region's start and its length in bytes add up to more than 2^64 - 1.
    EndTooLarge,
    /// A region starts below the start of the one before it.
    NotAscending,
    /// A region starts below the end of the one before it.
    Overlap,
}

/// Prints the variant's name.
impl fmt::Display for RegionError {
    fn fmt(&self, f: &mut fmt::Formatter<'_>) -> fmt::Result {
        f.write_str(match self {
            RegionError::EndTooLarge => "EndTooLarge",
            RegionError::NotAscending => "NotAscending",
            RegionError::Overlap => "Overlap",
        })
    }
}

/// A handler that maps the bytes of one region of physical memory, which a kernel or a boot loader has
/// mapped.
///
/// The caller keeps three things. The bytes are the physical memory's from `start` on. They stay
/// mapped as long as the handler is used, which the compiler checks by `'k`. And nobody writes to them
/// meanwhile, neither the firmware nor another processor. The first and the last can't be checked here.
#[derive(Clone, Copy, Debug)]
pub struct MappedRegion<'k> {
    pub(super) start: u64,
    pub(super) bytes: &'k [u8],
}

impl<'k> MappedRegion<'k> {
    /// A handler that maps these bytes, which are from the physical address `start` on.
    ///
    /// Fails with `EndTooLarge` if `start` and the number of bytes add up to more than 2^64 - 1.
    pub fn new(start: u64, bytes: &'k [u8]) -> Result<Self, RegionError> {
        if !AddressRange::new(start, bytes.len() as u64).fits() {
            return Err(RegionError::EndTooLarge);
        }
        Ok(MappedRegion { start, bytes })
    }
}

/// Maps the region's bytes.
impl AcpiHandler for MappedRegion<'_> {
    /// Maps all bytes from a physical address to the end of the region.
    ///
    /// Fails with `MapFailed` if the region doesn't have `size` bytes from that address on.
    fn map_physical_region(&self, address: u64, size: usize) -> AcpiResult<&[u8]> {
        if address < self.start {
            return Err(AcpiError::MapFailed);
        }
        let skipped = address - self.start;
        if skipped > self.bytes.len() as u64 {
            return Err(AcpiError::MapFailed);
        }
        let rest = &self.bytes[skipped as usize..];
        if size > rest.len() {
            return Err(AcpiError::MapFailed);
        }
        Ok(rest)
    }

    /// Does nothing: what is mapped stays mapped.
    fn unmap_physical_region(&self, _address: u64, _region_length: usize, _mapped_length: usize) {}
}
