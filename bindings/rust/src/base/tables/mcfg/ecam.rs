// Made by scripts/erase of crates/acpi_base/src/tables/mcfg/ecam.rt, where it is proved.
//! The addresses of the configuration space of a region's functions, by the base of bus 0.

use super::McfgEntry;
use crate::base::range::AddressRange;

impl McfgEntry {
    /// The physical address of the configuration space of a PCI function of this region, with its base
    /// taken as that of bus 0 (PCI Firmware Specification, section 4.1.2): the base, plus 2^20 bytes for each
    /// bus, 2^15 for each device and 2^12 for each function.
    ///
    /// It is `None` if the region doesn't hold the bus, if the device is above 31 or the function
    /// above 7, and if the sum is 2^64 or more.
    pub fn ecam_address(&self, bus: u8, device: u8, function: u8) -> Option<u64> {
        let is_held = self.bus_number_start <= bus && bus <= self.bus_number_end;
        if !is_held || device > 31 || function > 7 {
            return None;
        }
        let offset = (u64::from(bus) << 20) + (u64::from(device) << 15) + (u64::from(function) << 12);
        self.base_address.checked_add(offset)
    }

    /// The range of physical memory that this region's configuration space takes, with its base taken as
    /// that of bus 0 (PCI Firmware Specification, section 4.1.2). It begins at the base plus 2^20 bytes for
    /// each bus before the first one, and has 2^20 bytes for each bus from the first to the last.
    ///
    /// It is `None` if the last bus is below the first, and if the range ends at 2^64 or above. Some
    /// addresses in it may then be returned all the same by `ecam_address`.
    pub fn ecam_range(&self) -> Option<AddressRange> {
        let (first, last) = (self.bus_number_start, self.bus_number_end);
        if last < first {
            return None;
        }
        let address = self.base_address.checked_add(u64::from(first) << 20)?;
        let length = (u64::from(last - first) + 1) << 20;
        address.checked_add(length)?;
        Some(AddressRange { address, length })
    }
}
