// Made by scripts/erase of crates/acpi_c_lib/src/regions.rt, where it is proved.
//! Physical memory, as a kernel has it mapped.

use crate::base::{AcpiError, AcpiHandler, AcpiResult};
use crate::c_lib::records::Place;
use crate::c_lib::refusal::Refusal;

/// A range of physical memory, and the bytes that it is mapped at.
#[repr(C)]
#[derive(Clone, Copy, Debug, Default, PartialEq, Eq)]
pub struct Region<'k> {
    /// The physical address of the first byte.
    pub address: u64,
    /// The bytes: for C a pointer, which is not null, and then how many there are.
    pub bytes: &'k [u8],
}

impl<'k> Region<'k> {
    /// The address after its last byte.
    ///
    /// Fails with `RegionTooHigh` if that is 2^64 or above.
    fn end(self) -> Result<u64, Refusal> {
        let length = length_of(self.bytes);
        if length > u64::MAX - self.address {
            return Err(Refusal::RegionTooHigh);
        }
        Ok(self.address + length)
    }

    /// The bytes from an address on, if it is in this region.
    fn rest(&self, address: u64) -> Option<&'k [u8]> {
        if address < self.address {
            return None;
        }
        let skipped = address - self.address;
        if skipped < length_of(self.bytes) { Some(&self.bytes[skipped as usize..]) } else { None }
    }
}

/// How many bytes there are.
fn length_of(bytes: &[u8]) -> u64 {
    bytes.len() as u64
}

/// The index of the one region that an address can be in: the last one that begins at it or below it. The list is
/// halved, so it takes as many steps as the logarithm of its length.
fn index_for(regions: &[Region<'_>], address: u64) -> usize {
    let after = regions.partition_point(|region| region.address <= address);
    after.saturating_sub(1)
}

/// The place of an address, and the bytes from there to the end of the region.
fn spot<'k>(regions: &[Region<'k>], address: u64) -> Option<(Place, &'k [u8])> {
    let index = index_for(regions, address);
    let region = regions.get(index)?;
    let rest = region.rest(address)?;
    let place = Place { region: index, offset: (address - region.address) as usize };
    Some((place, rest))
}

/// The bytes from an address to the end of the region that it is in, or none.
fn rest_at<'k>(regions: &[Region<'k>], address: u64) -> &'k [u8] {
    match spot(regions, address) {
        Some((_, rest)) => rest,
        None => &[],
    }
}

/// The place of `length` bytes from an address.
///
/// Fails as `check` does, and then with `MapFailed` if the address is in no region, or the bytes reach past the end of
/// the one that it is in.
pub fn locate(regions: &[Region<'_>], address: u64, length: u64) -> Result<Place, Refusal> {
    check(regions)?;
    match spot(regions, address) {
        Some((place, rest)) if length <= rest.len() as u64 => Ok(place),
        _ => Err(Refusal::Acpi(AcpiError::MapFailed)),
    }
}

/// Checks that regions are in ascending order, and share no address.
///
/// Fails for the first region at fault, with `RegionsNotAscending` if it begins below the end of the one before it, or
/// else with `RegionTooHigh` if the address after its last byte is 2^64 or above.
fn check(regions: &[Region<'_>]) -> Result<(), Refusal> {
    let mut low = 0;
    for region in regions {
        if region.address < low {
            return Err(Refusal::RegionsNotAscending);
        }
        low = region.end()?;
    }
    Ok(())
}

/// Regions that are a memory.
#[derive(Clone, Copy, Debug)]
pub struct Mapped<'k> {
    regions: &'k [Region<'k>],
}

impl<'k> Mapped<'k> {
    /// The memory of these regions.
    ///
    /// Fails as `check` does.
    pub fn new(regions: &'k [Region<'k>]) -> Result<Mapped<'k>, Refusal> {
        check(regions)?;
        Ok(Mapped { regions })
    }
}

/// Maps what is in one of the regions.
impl AcpiHandler for Mapped<'_> {
    /// Maps all bytes from a physical address to the end of the region.
    ///
    /// Fails with `MapFailed` if no region has `size` bytes from that address on.
    fn map_physical_region(&self, address: u64, size: usize) -> AcpiResult<&[u8]> {
        let rest = rest_at(self.regions, address);
        if size <= rest.len() { Ok(rest) } else { Err(AcpiError::MapFailed) }
    }

    fn unmap_physical_region(&self, _address: u64, _region_length: usize, _mapped_length: usize) {}
}
