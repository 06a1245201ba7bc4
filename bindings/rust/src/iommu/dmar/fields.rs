// Made by scripts/erase of crates/acpi_iommu/src/dmar/fields.rt, where it is proved.
//! What the structures of a DMAR contain in their fixed bytes, by their types (sections 8.3 to 8.9).

mod readings;

use crate::base::bytes::{bits, field, has_bit};
use readings::{andd_at, atsr_at, rhsa_at, satc_at, sidp_at};
pub(super) use readings::{drhd_at, rmrr_at};

/// DMA Remapping Hardware Unit Definition (DRHD, section 8.3): a unit that remaps.
#[derive(Clone, Copy, Debug)]
#[non_exhaustive]
pub struct Drhd {
    /// Flags: bit 0 INCLUDE_PCI_ALL.
    pub flags: u8,
    /// Size: in bits 0 to 3 how many pages of 4 KiB the registers have, as the exponent of a power of two.
    pub size: u8,
    /// Segment Number: the PCI segment of the unit's devices.
    pub segment: u16,
    /// Register Base Address: the physical address of the unit's registers.
    pub register_base: u64,
}

/// Reserved Memory Region Reporting (RMRR, section 8.4): memory that devices of firmware reach, and that has to be
/// mapped for them.
#[derive(Clone, Copy, Debug)]
#[non_exhaustive]
pub struct Rmrr {
    /// Segment Number: the PCI segment of the devices.
    pub segment: u16,
    /// Reserved Memory Region Base Address: the physical address of the first byte.
    pub base: u64,
    /// Reserved Memory Region Limit Address: the physical address of the last byte.
    pub limit: u64,
}

/// Root Port ATS Capability Reporting (ATSR, section 8.5): the root ports that support address translation services.
#[derive(Clone, Copy, Debug)]
#[non_exhaustive]
pub struct Atsr {
    /// Flags: bit 0 ALL_PORTS.
    pub flags: u8,
    /// Segment Number: the PCI segment of the ports.
    pub segment: u16,
}

/// Remapping Hardware Static Affinity (RHSA, section 8.6): the proximity domain of a unit.
#[derive(Clone, Copy, Debug)]
#[non_exhaustive]
pub struct Rhsa {
    /// Register Base Address: that of the unit's DRHD.
    pub register_base: u64,
    /// Proximity Domain: the domain that the unit is in.
    pub domain: u32,
}

/// ACPI Name-space Device Declaration (ANDD, section 8.7): a device that the ACPI namespace names;
/// `DmarStructure::object_name` has the name.
#[derive(Clone, Copy, Debug)]
#[non_exhaustive]
pub struct Andd {
    /// ACPI Device Number: the Enumeration ID by which device scopes of type 5 name the device.
    pub device_number: u8,
}

/// SoC Integrated Address Translation Cache (SATC, section 8.8): integrated devices that cache translations.
#[derive(Clone, Copy, Debug)]
#[non_exhaustive]
pub struct Satc {
    /// Flags: bit 0 ATC_REQUIRED.
    pub flags: u8,
    /// Segment Number: the PCI segment of the devices.
    pub segment: u16,
}

/// SoC Integrated Device Property (SIDP, section 8.9): integrated devices with properties.
#[derive(Clone, Copy, Debug)]
#[non_exhaustive]
pub struct Sidp {
    /// Segment Number: the PCI segment of the devices.
    pub segment: u16,
}

/// What a structure of a DMAR contains in its fixed bytes, by its type (section 8.2).
#[derive(Clone, Copy, Debug)]
#[non_exhaustive]
pub enum DmarFields {
    /// Type 0.
    Drhd(Drhd),
    /// Type 1.
    Rmrr(Rmrr),
    /// Type 2.
    Atsr(Atsr),
    /// Type 3.
    Rhsa(Rhsa),
    /// Type 4.
    Andd(Andd),
    /// Type 5.
    Satc(Satc),
    /// Type 6.
    Sidp(Sidp),
}

impl Drhd {
    /// INCLUDE_PCI_ALL (bit 0 of the flags): whether the unit remaps all devices of its segment that no other unit
    /// names.
    pub fn includes_pci_all(&self) -> bool {
        has_bit(self.flags as u64, 0) // INCLUDE_PCI_ALL
    }

    /// How many bytes the unit's registers have: 2^n pages of 4096, n being bits 0 to 3 of Size.
    pub fn register_bytes(&self) -> u64 {
        4096 << bits(self.size as u64, 0, 4) // Size
    }
}

impl Rmrr {
    /// Whether the last byte isn't before the first.
    pub(super) fn is_range(&self) -> bool {
        self.base <= self.limit
    }

    /// How many bytes the range has, or `None` if its last byte is before its first, or it has all 2^64.
    pub fn length(&self) -> Option<u64> {
        self.limit.checked_sub(self.base)?.checked_add(1)
    }
}

impl Atsr {
    /// ALL_PORTS (bit 0 of the flags): whether all root ports of the segment support the services.
    pub fn has_all_ports(&self) -> bool {
        has_bit(self.flags as u64, 0) // ALL_PORTS
    }
}

impl Satc {
    /// ATC_REQUIRED (bit 0 of the flags): whether the devices have to have their caches enabled to work.
    pub fn requires_cache(&self) -> bool {
        has_bit(self.flags as u64, 0) // ATC_REQUIRED
    }
}

/// Type of a structure.
pub(super) fn kind_of(bytes: &[u8]) -> u16 {
    field(bytes, 0, 2) as u16 // Type
}

/// Segment Number of a structure.
pub(super) fn segment_of(bytes: &[u8]) -> u16 {
    field(bytes, 6, 2) as u16 // Segment Number
}

/// What a structure's fixed bytes contain, or `None` if its type isn't one of 0 to 6.
pub(super) fn fields_of(bytes: &[u8]) -> Option<DmarFields> {
    match kind_of(bytes) {
        0 => Some(DmarFields::Drhd(drhd_at(bytes))),
        1 => Some(DmarFields::Rmrr(rmrr_at(bytes))),
        2 => Some(DmarFields::Atsr(atsr_at(bytes))),
        3 => Some(DmarFields::Rhsa(rhsa_at(bytes))),
        4 => Some(DmarFields::Andd(andd_at(bytes))),
        5 => Some(DmarFields::Satc(satc_at(bytes))),
        6 => Some(DmarFields::Sidp(sidp_at(bytes))),
        _ => None,
    }
}
