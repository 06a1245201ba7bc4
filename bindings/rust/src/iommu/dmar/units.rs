// Made by scripts/erase of crates/acpi_iommu/src/dmar/units.rt, where it is proved.
//! Which unit remaps a device (section 8.3), and which memory is reserved for it (section 8.4).

use super::fields::Drhd;
use super::reserved::ReservedIter;
use super::scope::Hop;
use super::structure::DmarStructureIter;
use crate::iommu::error::{IommuError, IommuResult};

/// A unit, and how it knows a device that sends it interrupts (section 8.3.1).
#[derive(Clone, Copy, Debug)]
#[non_exhaustive]
pub struct UnitSource {
    /// The unit that remaps the device's interrupts.
    pub unit: Drhd,
    /// Start Bus Number of the device's scope.
    pub bus: u8,
    /// The last hop of the scope's path, or `None` if the path has none. With one hop, bus and hop are the source id.
    pub hop: Option<Hop>,
}

/// The units in a DMAR's bytes (chapter 8). It needs no handler.
#[derive(Clone, Copy, Debug)]
pub struct DmarUnits<'a> {
    table: &'a [u8],
}

impl<'a> DmarUnits<'a> {
    /// The units in a DMAR's bytes (chapter 8), from the table's first byte on. In fewer than 52 bytes there is no
    /// structure.
    pub fn over(table: &'a [u8]) -> Self {
        DmarUnits { table }
    }

    /// The structures of the table, in order (section 8.2).
    pub fn structures(&self) -> DmarStructureIter<'a> {
        DmarStructureIter::over(self.table)
    }

    /// Whether the structures take all bytes of the table, and the scopes of each all that are theirs.
    fn is_whole(&self) -> bool {
        self.structures().is_whole()
    }

    /// The unit that remaps a device (section 8.3), which is named by its segment, its root bus, and the hops from
    /// there to it: the first DRHD of the segment one of whose scopes names it, else the first of the segment with
    /// INCLUDE_PCI_ALL, else `None`. A scope of a PCI endpoint names it if its start bus is the bus and its path is the
    /// hops, and one of a bridge if its path has a hop and the hops begin with it.
    ///
    /// Fails with `InvalidStructureLength` if a structure of the table, or a scope of one, is malformed.
    pub fn unit_for(&self, segment: u16, bus: u8, hops: &[Hop]) -> IommuResult<Option<Drhd>> {
        if !self.is_whole() {
            return Err(IommuError::InvalidStructureLength);
        }
        self.find_unit(segment, bus, hops)
    }

    /// The same unit, also of a table that is malformed elsewhere.
    ///
    /// Fails with `InvalidStructureLength` if a scope is malformed in a DRHD of the segment before the unit; if there
    /// is no unit, in any of them, or if the structures end before the table does.
    pub fn find_unit(&self, segment: u16, bus: u8, hops: &[Hop]) -> IommuResult<Option<Drhd>> {
        let is_named = self.is_named(segment, bus, hops);
        let mut structures = self.structures();
        while let Some(structure) = structures.next() {
            if let Some(unit) = structure.unit_of(segment) {
                if structure.remaps(&unit, bus, hops, is_named) {
                    return Ok(Some(unit));
                }
                if !structure.has_whole_scopes() {
                    return Err(IommuError::InvalidStructureLength);
                }
            }
        }
        structures.none_found()
    }

    /// Whether a unit of a segment names a device.
    fn is_named(&self, segment: u16, bus: u8, hops: &[Hop]) -> bool {
        let mut structures = self.structures();
        while let Some(structure) = structures.next() {
            if structure.unit_of(segment).is_some() && structure.names(bus, hops) {
                return true;
            }
        }
        false
    }

    /// The unit that remaps the interrupts of the I/O APIC with this id (section 8.3.1): the first DRHD with a scope of
    /// type 3 and this Enumeration ID, with the bus and the last hop of its first such scope, or `None`.
    ///
    /// Fails with `InvalidStructureLength` if a structure of the table, or a scope of one, is malformed.
    pub fn unit_of_io_apic(&self, id: u8) -> IommuResult<Option<UnitSource>> {
        self.source_of(3, id)
    }

    /// The unit that remaps the interrupts of the HPET with this number (section 8.3.1): the first DRHD with a scope of
    /// type 4 and this Enumeration ID, with the bus and the last hop of its first such scope, or `None`.
    ///
    /// Fails with `InvalidStructureLength` if a structure of the table, or a scope of one, is malformed.
    pub fn unit_of_hpet(&self, number: u8) -> IommuResult<Option<UnitSource>> {
        self.source_of(4, number)
    }

    /// What the first unit that has a scope of a type with an Enumeration ID contains.
    fn source_of(&self, kind: u8, id: u8) -> IommuResult<Option<UnitSource>> {
        if !self.is_whole() {
            return Err(IommuError::InvalidStructureLength);
        }
        self.find_source(kind, id)
    }

    /// What the first DRHD that has a scope of a type with an Enumeration ID contains (section 8.3.1): of an I/O APIC,
    /// type 3, or an HPET, type 4. It is what `unit_of_io_apic` and `unit_of_hpet` return, also of a table that is
    /// malformed elsewhere.
    ///
    /// Fails with `InvalidStructureLength` if a scope is malformed in a DRHD before it; if there is none, in any DRHD,
    /// or if the structures end before the table does.
    pub fn find_source(&self, kind: u8, id: u8) -> IommuResult<Option<UnitSource>> {
        let mut structures = self.structures();
        while let Some(structure) = structures.next() {
            if let Some(source) = structure.source(kind, id) {
                return Ok(Some(source));
            }
            if structure.kind() == 0 && !structure.has_whole_scopes() {
                return Err(IommuError::InvalidStructureLength);
            }
        }
        structures.none_found()
    }

    /// The ranges of memory that are reserved for a device (section 8.4), which is named as for `unit_for`: each RMRR
    /// of the segment one of whose scopes names it, in order.
    ///
    /// Fails, in this order, with `InvalidStructureLength` if a structure of the table, or a scope of one, is
    /// malformed, and with `InvalidMemoryRange` if the last byte of one of these ranges is before its first.
    pub fn reserved_for<'b>(&self, segment: u16, bus: u8, hops: &'b [Hop]) -> IommuResult<ReservedIter<'a, 'b>> {
        if !self.is_whole() {
            return Err(IommuError::InvalidStructureLength);
        }
        let ranges = self.each_reserved(segment, bus, hops);
        let mut rest = ranges;
        while let Some(range) = rest.next() {
            if !range.is_range() {
                return Err(IommuError::InvalidMemoryRange);
            }
        }
        Ok(ranges)
    }

    /// The same ranges as they are, also of a table that is malformed: the ranges before the place where no structure
    /// begins, each by its scopes before the place where none begins.
    pub fn each_reserved<'b>(&self, segment: u16, bus: u8, hops: &'b [Hop]) -> ReservedIter<'a, 'b> {
        ReservedIter::over(self.structures(), segment, bus, hops)
    }
}
