// Made by scripts/erase of crates/acpi/src/mcfg/ecam.rt, where it is proved.
//! The addresses of the configuration space of PCI functions, by the base of bus 0.

use super::{McfgEntry, PciConfigRegions, region_for};
use crate::alloc::Allocator;
use crate::base::AddressRange;

impl<A: Allocator> PciConfigRegions<A> {
    /// The physical address of a PCI function's configuration space, as a kernel wants it: a region's
    /// base is that of bus 0 of its segment group (PCI Firmware Specification, section 4.1.2), and
    /// Linux reads it so. It is the base of the first region of the segment group that holds the bus,
    /// plus 2^20 bytes for each bus, 2^15 for each device and 2^12 for each function.
    ///
    /// `physical_address` counts from the region's first bus, as the Rust crate does. The two differ
    /// by 2^20 bytes for each bus before the first, and agree if the first bus is 0.
    ///
    /// It is `None` if no region holds the bus, if the device is above 31 or the function above 7, and
    /// if the sum is 2^64 or more; no later region is then tried. Of the 4096 bytes of configuration
    /// space only the first is promised to be below 2^64. A base is taken as it is, aligned or not.
    pub fn ecam_address(&self, segment_group_no: u16, bus: u8, device: u8, function: u8) -> Option<u64> {
        match region_for(self.regions.as_slice(), segment_group_no, bus) {
            Some(region) => region.ecam_address(bus, device, function),
            None => None,
        }
    }

    /// The memory that the configuration space of each region takes, in the order of the table, by the
    /// base of bus 0 (PCI Firmware Specification, section 4.1.2): the segment group, and the range of
    /// physical memory of the buses from the first to the last, 2^20 bytes each.
    ///
    /// There is no range if the last bus is below the first, and if the range ends at 2^64 or above.
    /// Some address in it may then be returned by `ecam_address` all the same.
    pub fn ecam_ranges(&self) -> EcamRanges<'_> {
        EcamRanges { regions: self.regions.as_slice() }
    }
}

/// The memory that the configuration space of each region takes, in the order of the table, as
/// `PciConfigRegions::ecam_ranges` returns it: each region's segment group, and its range, if it has one.
#[derive(Clone, Debug)]
pub struct EcamRanges<'a> {
    regions: &'a [McfgEntry],
}

impl Iterator for EcamRanges<'_> {
    type Item = (u16, Option<AddressRange>);

    fn next(&mut self) -> Option<(u16, Option<AddressRange>)> {
        let (first, others) = self.regions.split_first()?;
        self.regions = others;
        Some((first.pci_segment_group, first.ecam_range()))
    }
}
