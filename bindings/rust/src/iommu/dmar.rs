// Made by scripts/erase of crates/acpi_iommu/src/dmar.rt, where it is proved.
//! The DMA Remapping Reporting Structure (DMAR, chapter 8): which unit remaps a device's requests of memory, and which
//! memory is reserved for a device.

mod fields;
mod readings;
mod reserved;
mod scope;
mod structure;
mod units;

use crate::base::bytes::has_bit;
use crate::base::sdt::SdtHeader;
pub use fields::{Andd, Atsr, DmarFields, Drhd, Rhsa, Rmrr, Satc, Sidp};
pub use reserved::ReservedIter;
pub use scope::{DeviceScope, DeviceScopeIter, Hop, HopIter, Scopes};
pub use structure::{DmarStructure, DmarStructureIter, Structures};
pub use units::{DmarUnits, UnitSource};

/// The DMA Remapping Reporting Structure (DMAR, section 8.1). Its structures are after 48 fixed bytes; `DmarUnits`
/// reads them.
#[derive(Debug)]
#[non_exhaustive]
pub struct Dmar {
    /// The header that every table begins with.
    pub header: SdtHeader,
    /// Host Address Width: one less than how many bits an address has that a device can reach.
    pub host_address_width: u8,
    /// Flags: bit 0 INTR_REMAP, bit 1 X2APIC_OPT_OUT, bit 2 DMA_CTRL_PLATFORM_OPT_IN_FLAG.
    pub flags: u8,
}

impl Dmar {
    /// Host Address Width: how many bits an address has that a device can reach, from 1 to 256.
    pub fn address_bits(&self) -> u16 {
        self.host_address_width as u16 + 1
    }

    /// INTR_REMAP (bit 0 of the flags): whether the platform remaps interrupts.
    pub fn remaps_interrupts(&self) -> bool {
        has_bit(self.flags as u64, 0) // INTR_REMAP
    }

    /// X2APIC_OPT_OUT (bit 1 of the flags): whether the firmware requests not to enable the x2APIC mode.
    pub fn opts_out_of_x2apic(&self) -> bool {
        has_bit(self.flags as u64, 1) // X2APIC_OPT_OUT
    }

    /// DMA_CTRL_PLATFORM_OPT_IN_FLAG (bit 2 of the flags): whether, when the firmware passes the
    /// machine on, DMA that it began reaches only the ranges of RMRRs.
    pub fn opts_into_dma_control(&self) -> bool {
        has_bit(self.flags as u64, 2) // DMA_CTRL_PLATFORM_OPT_IN_FLAG
    }
}
