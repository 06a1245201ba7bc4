// Made by scripts/erase of crates/acpi_c_devices/src/pci.rt, where it is proved.
//! PCI configuration space.

mod shown;

use crate::acpi::AddressRange;
use crate::acpi::mcfg::{Mcfg, McfgEntry, McfgEntryIter};
use crate::c_devices::fixed::records::EcamRange;
use crate::c_devices::records::PciRegion;
use crate::c_lib::lists::{Listing, fill};
use crate::c_lib::opening::first;
use crate::c_lib::records::Source;
use crate::c_lib::refusal::Refusal;
use crate::c_lib::regions::Mapped;
use shown::pci_record;

/// Lists the regions of PCI configuration space of the first valid MCFG.
pub fn pci_regions(source: &Source<'_>, out: &mut [PciRegion]) -> Result<usize, Refusal> {
    let memory = Mapped::new(source.regions);
    let mcfg = first::<Mcfg>(&memory, source)?;
    Ok(fill(mcfg.entries(), &(), out))
}

impl Listing<(), PciRegion> for McfgEntryIter<'_> {
    fn record(_known: &(), entry: McfgEntry) -> Option<PciRegion> {
        Some(pci_record(&entry))
    }
}

/// The first region of a segment group that holds a bus.
fn region_for(entries: McfgEntryIter<'_>, segment: u16, bus: u8) -> Option<McfgEntry> {
    for entry in entries {
        if entry.pci_segment_group == segment && entry.bus_number_start <= bus && bus <= entry.bus_number_end {
            return Some(entry);
        }
    }
    None
}

/// The physical address of a PCI function's configuration space, with a region's base as that of bus 0.
pub fn ecam_address(source: &Source<'_>, segment: u16, bus: u8, device: u8, function: u8) -> Result<u64, Refusal> {
    let memory = Mapped::new(source.regions);
    let mcfg = first::<Mcfg>(&memory, source)?;
    let region = region_for(mcfg.entries(), segment, bus).ok_or(Refusal::NoSuchFunction)?;
    let address = region.ecam_address(bus, device, function);
    address.ok_or(Refusal::NoSuchFunction)
}

/// Lists the memory that each region of PCI configuration space takes, by the first valid MCFG.
pub fn ecam_ranges(source: &Source<'_>, out: &mut [EcamRange]) -> Result<usize, Refusal> {
    let memory = Mapped::new(source.regions);
    let mcfg = first::<Mcfg>(&memory, source)?;
    Ok(fill(mcfg.entries(), &(), out))
}

impl Listing<(), EcamRange> for McfgEntryIter<'_> {
    fn record(_known: &(), entry: McfgEntry) -> Option<EcamRange> {
        let found = entry.ecam_range();
        let none = AddressRange { address: 0, length: 0 };
        let range = found.unwrap_or(none);
        Some(EcamRange {
            address: range.address,
            length: range.length,
            segment_group: entry.pci_segment_group,
            present: found.is_some() as u8,
            reserved: [0; 5],
        })
    }
}
