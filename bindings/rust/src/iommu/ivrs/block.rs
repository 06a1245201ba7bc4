// Made by scripts/erase of crates/acpi_iommu/src/ivrs/block.rt, where it is proved.
//! The blocks of an IVRS, one at a time (section 5.2).

mod readings;

use super::Ivrs;
use super::blocks::DeviceUnit;
use super::entry::DeviceEntryIter;
use crate::base::bytes::{field, skip};
use crate::base::{AddressRange, PhysicalRecord};
use crate::iommu::error::IommuError;
use crate::iommu::pieces::{PieceIter, PieceKind, valid_length};
use readings::{ivhd_at, ivmd_at};

/// I/O Virtualization Hardware Definition (IVHD, section 5.2): a unit that remaps.
#[derive(Clone, Copy, Debug)]
#[non_exhaustive]
pub struct Ivhd {
    /// Type: 0x10, 0x11 or 0x40.
    pub kind: u8,
    /// Flags, which the specification names by the type.
    pub flags: u8,
    /// DeviceID: the unit's own bus, device and function.
    pub device_id: u16,
    /// Capability Offset: where its capability block is in its PCI configuration space.
    pub capability_offset: u16,
    /// IOMMU Base Address: the physical address of the unit's registers.
    pub base: u64,
    /// PCI Segment Group: the PCI segment of the unit and of its devices.
    pub segment: u16,
    /// IOMMU Info: in bits 0 to 4 the number of its MSI, in bits 8 to 12 its UnitID.
    pub info: u16,
    /// IOMMU Feature Reporting, or of types 0x11 and 0x40 IOMMU Attributes.
    pub features: u32,
    /// EFR Register Image: that of the extended features, or `None` of type 0x10, which has none.
    pub extended_features: Option<u64>,
}

/// I/O Virtualization Memory Definition (IVMD, section 5.2): memory that devices reach by its own rules.
#[derive(Clone, Copy, Debug)]
#[non_exhaustive]
pub struct Ivmd {
    /// Type: 0x20 for all devices, 0x21 for the one of `device_id`, 0x22 for those from it to `auxiliary`.
    pub kind: u8,
    /// Flags: bit 0 Unity, bit 1 IR, bit 2 IW, bit 3 Exclusion Range.
    pub flags: u8,
    /// DeviceID: the device, or the first of a range.
    pub device_id: u16,
    /// Auxiliary Data: of type 0x22 the last device of the range.
    pub auxiliary: u16,
    /// IVMD start address: the physical address of the first byte.
    pub start: u64,
    /// IVMD memory block length: how many bytes there are.
    pub length: u64,
}

/// What a block of an IVRS contains in its fixed bytes, by its type (section 5.2).
#[derive(Clone, Copy, Debug)]
#[non_exhaustive]
pub enum IvrsFields {
    /// Types 0x10, 0x11 and 0x40.
    Ivhd(Ivhd),
    /// Types 0x20, 0x21 and 0x22.
    Ivmd(Ivmd),
}

/// Type of a block.
fn kind_of(block: &[u8]) -> u8 {
    field(block, 0, 1) as u8 // Type
}

/// Whether a type is one of an IVHD.
fn is_ivhd(kind: u8) -> bool {
    kind == 0x10 || kind == 0x11 || kind == 0x40
}

/// Whether a type is one of an IVMD.
fn is_ivmd(kind: u8) -> bool {
    kind == 0x20 || kind == 0x21 || kind == 0x22
}

/// The least length of a block of a type.
fn least_of(kind: u8) -> usize {
    if kind == 0x10 {
        24
    } else if is_ivhd(kind) {
        40
    } else if is_ivmd(kind) {
        32
    } else {
        4
    }
}

/// EFR Register Image, that of the extended features; type 0x10 has none.
fn extended_features_of(block: &[u8]) -> Option<u64> {
    if kind_of(block) == 0x10 {
        None
    } else {
        Some(field(block, 24, 8)) // EFR Register Image
    }
}

impl Ivmd {
    /// Whether the memory ends below 2^64.
    pub(super) fn ends_below(&self) -> bool {
        AddressRange::new(self.start, self.length).fits()
    }
}

/// A block of an IVRS (section 5.2).
#[derive(Clone, Copy, Debug)]
pub struct IvrsBlock<'a> {
    bytes: &'a [u8],
}

impl<'a> IvrsBlock<'a> {
    /// Type: 0x10, 0x11 and 0x40 IVHD, 0x20, 0x21 and 0x22 IVMD. Others are kept.
    pub fn kind(&self) -> u8 {
        kind_of(self.bytes)
    }

    /// How many bytes the block has.
    pub fn length(&self) -> usize {
        self.bytes.len()
    }

    /// What the fixed bytes contain, or `None` if the type is neither one of an IVHD nor one of an IVMD.
    pub fn fields(&self) -> Option<IvrsFields> {
        let kind = self.kind();
        if is_ivhd(kind) {
            Some(IvrsFields::Ivhd(ivhd_at(self.bytes)))
        } else if is_ivmd(kind) {
            Some(IvrsFields::Ivmd(ivmd_at(self.bytes)))
        } else {
            None
        }
    }

    /// The unit, if this is an IVHD.
    pub fn ivhd(&self) -> Option<Ivhd> {
        if is_ivhd(self.kind()) { Some(ivhd_at(self.bytes)) } else { None }
    }

    /// The device entries of an IVHD, in order; other blocks have none.
    pub fn entries(&self) -> DeviceEntryIter<'a> {
        let kind = self.kind();
        DeviceEntryIter::of(if is_ivhd(kind) { skip(self.bytes, least_of(kind)) } else { &[] })
    }

    /// Whether its entries take all bytes that are theirs.
    pub(super) fn has_whole_entries(&self) -> bool {
        self.entries().is_whole()
    }

    /// Why the block is at fault: `InvalidStructureLength` if its entries end before it does, else
    /// `InvalidMemoryRange` if start and length of an IVMD add up to more than 2^64 - 1, or `None`.
    pub fn fault(&self) -> Option<IommuError> {
        if !self.has_whole_entries() {
            return Some(IommuError::InvalidStructureLength);
        }
        if is_ivmd(self.kind()) && !ivmd_at(self.bytes).ends_below() {
            return Some(IommuError::InvalidMemoryRange);
        }
        None
    }

    /// Whether this is a block of a type and a segment.
    pub(super) fn is_of(&self, kind: u8, segment: u16) -> bool {
        let unit = ivhd_at(self.bytes);
        unit.kind == kind && unit.segment == segment
    }

    /// What the first entry that covers a device contains, if this is a block of a type and a segment that has one.
    pub(super) fn unit(&self, kind: u8, segment: u16, device_id: u16) -> Option<DeviceUnit> {
        let unit = ivhd_at(self.bytes);
        if unit.kind != kind || unit.segment != segment {
            return None;
        }
        let mut entries = self.entries();
        while let Some(entry) = entries.next() {
            if entry.covers(device_id) {
                return Some(DeviceUnit { unit, settings: entry.settings(), source: entry.source_for(device_id) });
            }
        }
        None
    }

    /// The memory, if this block is an IVMD for a device.
    pub(super) fn memory_for(&self, device_id: u16) -> Option<Ivmd> {
        let memory = ivmd_at(self.bytes);
        let is_meant = match memory.kind {
            0x20 => true,
            0x21 => memory.device_id == device_id,
            0x22 => memory.device_id <= device_id && device_id <= memory.auxiliary,
            _ => false,
        };
        if is_meant { Some(memory) } else { None }
    }
}

/// The blocks of an IVRS.
#[derive(Clone, Copy, Debug)]
pub struct Blocks;

impl<'a> PieceKind<'a> for Blocks {
    type Piece = IvrsBlock<'a>;

    fn size_at(bytes: &[u8]) -> Option<usize> {
        let length = field(bytes, 2, 2) as usize; // Length
        valid_length(least_of(kind_of(bytes)), length)
    }

    fn piece(bytes: &'a [u8]) -> IvrsBlock<'a> {
        IvrsBlock { bytes }
    }

    fn is_whole(block: &IvrsBlock<'a>) -> bool {
        block.has_whole_entries()
    }
}

/// The blocks of an IVRS, in order (section 5.2), blocks of undefined types too. It ends at the table's end, or where
/// no block begins: if fewer than 4 bytes are left, or if the length is under the least of its type (24 for 0x10, 40
/// for 0x11 and 0x40, 32 for 0x20 to 0x22, 4 for others) or past the table's end.
pub type IvrsBlockIter<'a> = PieceIter<'a, Blocks>;

impl<'a> IvrsBlockIter<'a> {
    /// The blocks of an IVRS' bytes (section 5.2): those after its 48 fixed bytes. It needs no handler.
    pub fn over(table: &'a [u8]) -> Self {
        PieceIter::of(skip(table, Ivrs::MIN_LENGTH))
    }
}
