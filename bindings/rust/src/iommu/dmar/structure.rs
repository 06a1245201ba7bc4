// Made by scripts/erase of crates/acpi_iommu/src/dmar/structure.rt, where it is proved.
//! One structure of a DMAR (section 8.2).

use super::Dmar;
use super::fields::{DmarFields, Drhd, Rmrr, drhd_at, fields_of, kind_of, rmrr_at, segment_of};
use super::scope::{DeviceScopeIter, Hop};
use super::units::UnitSource;
use crate::base::PhysicalRecord;
use crate::base::bytes::{field, skip, text_of};
use crate::iommu::error::IommuError;
use crate::iommu::pieces::{PieceIter, PieceKind, valid_length};
use crate::iommu::texts::up_to_zero;

/// A structure of a DMAR (section 8.2).
#[derive(Clone, Copy, Debug)]
pub struct DmarStructure<'a> {
    bytes: &'a [u8],
}

impl<'a> DmarStructure<'a> {
    /// Type: 0 DRHD, 1 RMRR, 2 ATSR, 3 RHSA, 4 ANDD, 5 SATC, 6 SIDP. Others are kept.
    pub fn kind(&self) -> u16 {
        kind_of(self.bytes)
    }

    /// How many bytes the structure has.
    pub fn length(&self) -> usize {
        self.bytes.len()
    }

    /// What the fixed bytes contain, or `None` if the type isn't one of 0 to 6.
    pub fn fields(&self) -> Option<DmarFields> {
        fields_of(self.bytes)
    }

    /// The device scopes, in order, of a DRHD, an RMRR, an ATSR, a SATC or an SIDP; other types have none.
    pub fn scopes(&self) -> DeviceScopeIter<'a> {
        DeviceScopeIter::of(scope_bytes(self.bytes))
    }

    /// ACPI Object Name of an ANDD: the text from byte 8 on, up to the first zero or the structure's end. It is `None`
    /// if that isn't valid UTF-8. Of other types it is empty.
    pub fn object_name(&self) -> Option<&'a str> {
        if self.kind() == 4 { text_of(up_to_zero(skip(self.bytes, 8))) } else { Some("") }
    }

    /// Whether one of the scopes names the device that these hops reach from a bus, as by `DeviceScope::names`.
    pub fn names(&self, bus: u8, hops: &[Hop]) -> bool {
        let mut scopes = self.scopes();
        while let Some(scope) = scopes.next() {
            if scope.names(bus, hops) {
                return true;
            }
        }
        false
    }

    /// Whether this unit remaps the device that these hops reach from a bus: it names it, or has INCLUDE_PCI_ALL, if no
    /// unit names it.
    pub(super) fn remaps(&self, unit: &Drhd, bus: u8, hops: &[Hop], is_named: bool) -> bool {
        if is_named { self.names(bus, hops) } else { unit.includes_pci_all() }
    }

    /// Whether its scopes take all bytes that are theirs.
    pub(super) fn has_whole_scopes(&self) -> bool {
        self.scopes().is_whole()
    }

    /// Why the structure is at fault: `InvalidStructureLength` if its scopes end before it does, else
    /// `InvalidMemoryRange` if the last byte of an RMRR is before its first, or `None`.
    pub fn fault(&self) -> Option<IommuError> {
        if !self.has_whole_scopes() {
            return Some(IommuError::InvalidStructureLength);
        }
        if self.kind() == 1 && !rmrr_at(self.bytes).is_range() {
            return Some(IommuError::InvalidMemoryRange);
        }
        None
    }

    /// The unit, if this is a DRHD.
    pub fn drhd(&self) -> Option<Drhd> {
        if self.kind() == 0 { Some(drhd_at(self.bytes)) } else { None }
    }

    /// The unit, if it is one of a segment.
    pub(super) fn unit_of(&self, segment: u16) -> Option<Drhd> {
        if self.kind() == 0 && segment_of(self.bytes) == segment { Some(drhd_at(self.bytes)) } else { None }
    }

    /// What the first scope of a type and an Enumeration ID contains, if this is a unit that has one.
    pub(super) fn source(&self, kind: u8, id: u8) -> Option<UnitSource> {
        if self.kind() != 0 {
            return None;
        }
        let mut scopes = self.scopes();
        while let Some(scope) = scopes.next() {
            if scope.is_numbered(kind, id) {
                return Some(UnitSource { unit: drhd_at(self.bytes), bus: scope.start_bus(), hop: scope.last_hop() });
            }
        }
        None
    }

    /// The range, if it is one of a segment for the device that these hops reach from a bus.
    pub(super) fn reserved_for(&self, segment: u16, bus: u8, hops: &[Hop]) -> Option<Rmrr> {
        if self.kind() == 1 && segment_of(self.bytes) == segment && self.names(bus, hops) {
            Some(rmrr_at(self.bytes))
        } else {
            None
        }
    }
}

/// The bytes of a structure's scopes.
fn scope_bytes(structure: &[u8]) -> &[u8] {
    match kind_of(structure) {
        0 => skip(structure, 16),
        1 => skip(structure, 24),
        2 | 5 | 6 => skip(structure, 8),
        _ => &[],
    }
}

/// The least length of a structure of a type.
fn least_of(kind: u16) -> usize {
    match kind {
        0 => 16,
        1 => 24,
        3 => 20,
        2 | 4 | 5 | 6 => 8,
        _ => 4,
    }
}

/// The structures of a DMAR.
#[derive(Clone, Copy, Debug)]
pub struct Structures;

impl<'a> PieceKind<'a> for Structures {
    type Piece = DmarStructure<'a>;

    fn size_at(bytes: &[u8]) -> Option<usize> {
        let length = field(bytes, 2, 2) as usize; // Length
        valid_length(least_of(kind_of(bytes)), length)
    }

    fn piece(bytes: &'a [u8]) -> DmarStructure<'a> {
        DmarStructure { bytes }
    }

    fn is_whole(structure: &DmarStructure<'a>) -> bool {
        structure.has_whole_scopes()
    }
}

/// The structures of a DMAR, in order (section 8.2), structures of undefined types too. It ends at the table's end, or
/// where no structure begins: if fewer than 4 bytes are left, or if the length is under the least of its type (16, 24,
/// 8, 20, 8, 8 and 8 for types 0 to 6, 4 for others) or past the table's end.
pub type DmarStructureIter<'a> = PieceIter<'a, Structures>;

impl<'a> DmarStructureIter<'a> {
    /// The structures of a DMAR's bytes (section 8.2): those after its 48 fixed bytes. It needs no handler.
    pub fn over(table: &'a [u8]) -> Self {
        PieceIter::of(skip(table, Dmar::MIN_LENGTH))
    }
}
