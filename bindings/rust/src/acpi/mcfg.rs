// Made by scripts/erase of crates/acpi/src/mcfg.rt, where it is proved.
//! The addresses of the configuration space of PCI functions, by the MCFG.

mod ecam;

use crate::acpi::tables::AcpiTables;
use crate::alloc::Vec;
use crate::alloc::{AllocError, Allocator, Global};
use crate::base::managed_slice::ManagedSlice;
pub use crate::base::mcfg::{Mcfg, McfgEntry, McfgEntryIter};
use crate::base::{AcpiError, AcpiResult, Lender};
use core::ops::RangeInclusive;
pub use ecam::EcamRanges;

/// The regions of memory that hold the configuration space of PCI functions, each that of some buses of a
/// PCI segment group: the entries of an MCFG. Section 5.2.6 reserves the table's signature; its layout is
/// the PCI Firmware Specification's (section 4.1.2).
#[derive(Debug)]
pub struct PciConfigRegions<A: Allocator> {
    regions: ManagedSlice<McfgEntry, A>,
}

impl PciConfigRegions<Global> {
    /// The regions of the first valid MCFG, in the order of the table, in memory of the global allocator
    /// (section 5.2.6 reserves the signature).
    ///
    /// Fails, in this order, with `TableMissing` if no valid MCFG is listed, and with `AllocError` if
    /// memory runs out, which it can only if the table has regions.
    #[cfg(feature = "alloc")]
    pub fn new<H: Lender>(tables: &AcpiTables<'_, H>) -> AcpiResult<Self> {
        PciConfigRegions::new_in(tables, Global)
    }
}

impl<A: Allocator> PciConfigRegions<A> {
    /// The regions of the first valid MCFG, in the order of the table, in memory of an allocator (section
    /// 5.2.6 reserves the signature).
    ///
    /// Fails, in this order, with `TableMissing` if no valid MCFG is listed, and with `AllocError` if
    /// memory runs out, which it can only if the table has regions.
    pub fn new_in<H: Lender>(tables: &AcpiTables<'_, H>, allocator: A) -> AcpiResult<Self> {
        let mcfg = tables.find_table::<Mcfg>()?;
        match collected(mcfg.entries(), allocator) {
            Ok(regions) => Ok(PciConfigRegions { regions: ManagedSlice::from_vec(regions) }),
            Err(_) => Err(AcpiError::AllocError),
        }
    }

    /// The physical address of a PCI function's configuration space, if a region's base is that of the
    /// region's first bus: the base of the first region of the segment group that holds the bus, plus 2^20
    /// bytes for each bus after that region's first, 2^15 for each device and 2^12 for each function.
    ///
    /// The Rust crate counts so. The PCI Firmware Specification (section 4.1.2) and Linux take the base for
    /// that of bus 0, as `ecam_address` does, which is what a kernel wants: the two agree only if the
    /// region's first bus is 0, and a wrong address is another device's.
    ///
    /// It is `None` if no region holds the bus, if the device is above 31 or the function above 7, and
    /// if the sum is 2^64 or more; no later region is then tried. Of the 4096 bytes of configuration
    /// space only the first is promised to be below 2^64. A base is taken as it is, aligned or not.
    pub fn physical_address(&self, segment_group_no: u16, bus: u8, device: u8, function: u8) -> Option<u64> {
        if device > 31 || function > 7 {
            return None;
        }
        match region_for(self.regions.as_slice(), segment_group_no, bus) {
            Some(region) => function_address(region, bus, device, function),
            None => None,
        }
    }

    /// Each region once, in the order of the table, also those that hold no bus.
    pub fn iter(&self) -> PciConfigEntryIterator<'_> {
        PciConfigEntryIterator { regions: self.regions.as_slice() }
    }
}

/// The entries of an MCFG, in memory of an allocator, which is requested once.
fn collected<A: Allocator>(entries: McfgEntryIter<'_>, allocator: A) -> Result<Vec<McfgEntry, A>, AllocError> {
    let mut regions = Vec::with_capacity(allocator, entries.len())?;
    for entry in entries {
        regions.push_reserved(entry);
    }
    Ok(regions)
}

/// The first region of a segment group that holds a bus.
fn region_for(regions: &[McfgEntry], segment: u16, bus: u8) -> Option<&McfgEntry> {
    regions.iter().find(|region| is_of(region, segment, bus))
}

/// Whether a region is of a segment group and holds a bus.
fn is_of(region: &McfgEntry, segment: u16, bus: u8) -> bool {
    region.pci_segment_group == segment && region.bus_number_start <= bus && bus <= region.bus_number_end
}

/// The physical address of a function in a region that holds its bus, or `None` if it is 2^64 or more.
fn function_address(region: &McfgEntry, bus: u8, device: u8, function: u8) -> Option<u64> {
    let offset =
        (u64::from(bus - region.bus_number_start) << 20) + (u64::from(device) << 15) + (u64::from(function) << 12);
    let address = region.base_address.wrapping_add(offset);
    // A sum of 2^64 or more comes out below the base.
    if address < region.base_address {
        return None;
    }
    Some(address)
}

/// A region of memory that holds the configuration space of PCI functions: an entry of an MCFG (PCI
/// Firmware Specification, section 4.1.2).
#[derive(Clone, Debug)]
pub struct PciConfigEntry {
    /// PCI Segment Group Number: the segment group of its buses.
    pub segment_group: u16,
    /// Start Bus Number and End Bus Number: its buses, none if the end is below the start.
    pub bus_range: RangeInclusive<u8>,
    /// Base Address: the region's physical base. By the PCI Firmware Specification it is that of bus 0 of
    /// the segment group, whatever the region's first bus is.
    pub physical_address: u64,
}

/// The regions of PCI configuration space, in the order of the MCFG, as `PciConfigRegions::iter` returns them.
#[derive(Clone, Debug)]
pub struct PciConfigEntryIterator<'a> {
    regions: &'a [McfgEntry],
}

impl Iterator for PciConfigEntryIterator<'_> {
    type Item = PciConfigEntry;

    fn next(&mut self) -> Option<PciConfigEntry> {
        let (first, others) = self.regions.split_first()?;
        self.regions = others;
        Some(PciConfigEntry {
            segment_group: first.pci_segment_group,
            bus_range: first.bus_number_start..=first.bus_number_end,
            physical_address: first.base_address,
        })
    }
}
