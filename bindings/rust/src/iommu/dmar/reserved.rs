// Made by scripts/erase of crates/acpi_iommu/src/dmar/reserved.rt, where it is proved.
//! The memory that is reserved for a device (section 8.4).

use super::fields::Rmrr;
use super::scope::Hop;
use super::structure::DmarStructureIter;

/// The ranges of memory that a DMAR reserves for a device, in order (section 8.4).
#[derive(Clone, Copy, Debug)]
pub struct ReservedIter<'a, 'b> {
    structures: DmarStructureIter<'a>,
    segment: u16,
    bus: u8,
    hops: &'b [Hop],
}

impl<'a, 'b> ReservedIter<'a, 'b> {
    /// The ranges among structures for the device that these hops reach from a bus of a segment.
    pub(super) fn over(structures: DmarStructureIter<'a>, segment: u16, bus: u8, hops: &'b [Hop]) -> Self {
        ReservedIter { structures, segment, bus, hops }
    }
}

impl Iterator for ReservedIter<'_, '_> {
    type Item = Rmrr;

    fn next(&mut self) -> Option<Rmrr> {
        while let Some(structure) = self.structures.next() {
            if let Some(range) = structure.reserved_for(self.segment, self.bus, self.hops) {
                return Some(range);
            }
        }
        None
    }
}
