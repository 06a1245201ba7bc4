// Made by scripts/erase of crates/acpi_base/src/tables/mcfg.rt, where it is proved.
//! The MCFG: the regions of memory that hold the configuration space of PCI functions (PCI Firmware
//! Specification; ACPI 6.4, section 5.2.6, reserves the signature).

mod ecam;
mod readings;

use crate::base::bytes::skip;
use crate::base::memory::handler::{Lender, PhysicalRecord};
use crate::base::memory::mapping::PhysicalMapping;
use crate::base::table::header::SdtHeader;

/// The MCFG: regions of memory, each with the configuration space of some PCI buses. Section 5.2.6 reserves
/// its signature, and its layout is the PCI Firmware Specification's (section 4.1.2). Its entries are after
/// 44 fixed bytes; a mapping of it returns them.
#[derive(Debug)]
pub struct Mcfg {
    header: SdtHeader,
}

/// An entry of an MCFG: a region of memory with the configuration space of the buses of one PCI segment
/// group, from the first to the last (PCI Firmware Specification, section 4.1.2). It holds no bus if the
/// last is below the first.
#[derive(Clone, Copy, Debug)]
pub struct McfgEntry {
    /// Base Address: the physical address that the addresses of functions are counted from. It is that of
    /// bus 0 by the PCI Firmware Specification (section 4.1.2) and in `ecam_address`, and that of the first
    /// bus by the Rust crate and in `PciConfigRegions::physical_address`.
    pub base_address: u64,
    /// PCI Segment Group Number: the segment group of the buses.
    pub pci_segment_group: u16,
    /// Start Bus Number: the first bus.
    pub bus_number_start: u8,
    /// End Bus Number: the last bus.
    pub bus_number_end: u8,
}

/// The entries of an MCFG, of 16 bytes each, in order (section 5.2.6 reserves the signature). A remainder
/// that is shorter than an entry is none.
#[derive(Debug)]
pub struct McfgEntryIter<'a> {
    rest: &'a [u8],
}

impl<'a> McfgEntryIter<'a> {
    /// The entries of an MCFG's bytes: as many as there are whole ones after its 44 fixed bytes. It needs no
    /// handler.
    pub fn over(table: &'a [u8]) -> Self {
        McfgEntryIter { rest: skip(table, Mcfg::MIN_LENGTH) }
    }
}

impl Iterator for McfgEntryIter<'_> {
    type Item = McfgEntry;

    fn next(&mut self) -> Option<McfgEntry> {
        if self.rest.len() < McfgEntry::MIN_LENGTH {
            return None;
        }
        let entry = McfgEntry::read(self.rest);
        self.rest = &self.rest[McfgEntry::MIN_LENGTH..];
        Some(entry)
    }
}

impl ExactSizeIterator for McfgEntryIter<'_> {
    /// How many entries are still to come.
    fn len(&self) -> usize {
        self.rest.len() / McfgEntry::MIN_LENGTH
    }
}

impl<'h, H: Lender> PhysicalMapping<'h, H, Mcfg> {
    /// The entries of this MCFG, in order: as many as there are whole ones after its 44 fixed bytes (section
    /// 5.2.6 reserves the signature).
    pub fn entries(&self) -> McfgEntryIter<'_> {
        McfgEntryIter::over(self.bytes())
    }
}
