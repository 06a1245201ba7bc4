//! The memory that is mapped, for the calls without a heap and for tables beside them.

use crate::c_lib::regions::Mapped;
use crate::lists::clip;
use crate::lists::records::{Range, Source};
use crate::lists::refusal::Refusal;
use crate::{AcpiHandler, AcpiResult};

/// The memory of a [`Source`]'s regions.
#[derive(Clone, Copy, Debug)]
pub struct SourceMemory<'k>(Mapped<'k>);

impl<'k> Source<'k> {
    /// The memory of the regions, for tables that are opened in it.
    ///
    /// Fails for the first region at fault, with `RegionsNotAscending` if it begins below the end of the one before it,
    /// or else with `RegionTooHigh` if the address after its last byte is 2^64 or above.
    pub fn memory(&self) -> Result<SourceMemory<'k>, Refusal> {
        Ok(SourceMemory(Mapped::new(self.regions)?))
    }
}

impl AcpiHandler for SourceMemory<'_> {
    fn map_physical_region(&self, address: u64, size: usize) -> AcpiResult<&[u8]> {
        self.0.map_physical_region(address, size)
    }

    fn unmap_physical_region(&self, _address: u64, _region_length: usize, _mapped_length: usize) {}
}

/// The memory to make regions of: of the bytes in a window those that one of `ranges` holds and none of `without`, in
/// order, with what touches or overlaps joined. `ranges` come in any order, as a firmware's memory map has them; `without`
/// has the kernel's own image, and whatever else is written while tables are read. Both lists are put in order in place:
/// sorted by address, and each range cut to what none before it holds. As many as fit are written to `out`, and the number
/// of all is returned.
///
/// Fails with `RangeTooHigh` if the address after the last byte of one of these ranges, or of the window, is above
/// 2^64 - 1.
pub fn clip_ranges(
    ranges: &mut [Range],
    without: &mut [Range],
    window: Range,
    out: &mut [Range],
) -> Result<usize, Refusal> {
    let mut count = 0;
    match clip::clip_ranges(ranges, without, &window, out, &mut count) {
        0 => Ok(count),
        _ => Err(Refusal::RangeTooHigh),
    }
}
