// Made by scripts/erase of crates/acpi/src/handler/regions.rt, where it is proved.
//! A handler over several regions of physical memory that the caller has mapped.

use super::region::{MappedRegion, RegionError};
use crate::base::{AcpiError, AcpiHandler, AcpiResult};

/// A handler that maps the bytes of several regions of physical memory, which a kernel or a boot loader
/// has mapped. Two regions that adjoin are still two: a range across their border is not mapped.
///
/// The caller keeps for each region the three things that `MappedRegion` names.
#[derive(Clone, Copy, Debug)]
pub struct MappedRegions<'k> {
    regions: &'k [MappedRegion<'k>],
}

impl<'k> MappedRegions<'k> {
    /// A handler that maps the bytes of these regions. They are in the order of their addresses, each
    /// at or after the end of the one before it. There is no heap to sort them in: the caller sorts its
    /// list once.
    ///
    /// Fails at the first region that fails, and of that one, in this order, with `NotAscending` if it
    /// starts below the start of the one before it, and `Overlap` if it starts below that one's end.
    /// Regions that adjoin are accepted.
    pub fn new(regions: &'k [MappedRegion<'k>]) -> Result<Self, RegionError> {
        check(regions)?;
        Ok(MappedRegions { regions })
    }
}

/// Checks that each region starts at the end of the one before it or above that.
fn check(regions: &[MappedRegion<'_>]) -> Result<(), RegionError> {
    let mut start = 0;
    let mut end = 0;
    for region in regions {
        if region.start < start {
            return Err(RegionError::NotAscending);
        }
        if region.start < end {
            return Err(RegionError::Overlap);
        }
        start = region.start;
        end = region.start + region.bytes.len() as u64;
    }
    Ok(())
}

/// The one region that an address can be in: the last one that starts at it or below it, or else
/// the first one. It halves the list, and so takes as many steps as the logarithm of its length.
fn region_for<'k>(regions: &'k [MappedRegion<'k>], address: u64) -> Option<&'k MappedRegion<'k>> {
    let after = regions.partition_point(|region| region.start <= address);
    regions.get(after.saturating_sub(1))
}

/// Maps the regions' bytes.
impl AcpiHandler for MappedRegions<'_> {
    /// Maps all bytes from a physical address to the end of the region that it is in.
    ///
    /// Fails with `MapFailed` if no region has `size` bytes from that address on.
    fn map_physical_region(&self, address: u64, size: usize) -> AcpiResult<&[u8]> {
        match region_for(self.regions, address) {
            Some(region) => region.map_physical_region(address, size),
            None => Err(AcpiError::MapFailed),
        }
    }

    /// Does nothing: what is mapped stays mapped.
    fn unmap_physical_region(&self, _address: u64, _region_length: usize, _mapped_length: usize) {}
}
