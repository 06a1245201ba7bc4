// Made by scripts/erase of crates/acpi_iommu/src/dmar/scope.rt, where it is proved.
//! Device scopes: which devices a structure of a DMAR names (section 8.3.1).

use crate::base::bytes::{field, skip};
use crate::iommu::pieces::{PieceIter, PieceKind, valid_length};

/// A step from a bus to a device on it (section 8.3.1). C passes it as these two bytes.
#[repr(C)]
#[derive(Clone, Copy, Debug, Default, PartialEq, Eq)]
pub struct Hop {
    /// The device's number.
    pub device: u8,
    /// The number of its function.
    pub function: u8,
}

impl Hop {
    /// Whether the two are the same.
    fn is_same(&self, other: &Hop) -> bool {
        self.device == other.device && self.function == other.function
    }
}

/// The hops of a path, in order (section 8.3.1): two bytes each. A last single byte is no hop.
#[derive(Clone, Copy, Debug)]
pub struct HopIter<'a> {
    rest: &'a [u8],
}

impl Iterator for HopIter<'_> {
    type Item = Hop;

    fn next(&mut self) -> Option<Hop> {
        match self.rest {
            [device, function, rest @ ..] => {
                self.rest = rest;
                Some(Hop { device: *device, function: *function })
            }
            _ => None,
        }
    }
}

/// A device scope: a device, or a bridge and all devices below it, with the path to it from a bus (section 8.3.1).
#[derive(Clone, Copy, Debug)]
pub struct DeviceScope<'a> {
    bytes: &'a [u8],
}

impl<'a> DeviceScope<'a> {
    /// Type: 1 a PCI endpoint, 2 a bridge and all devices below it, 3 an I/O APIC, 4 an HPET that sends MSIs, 5 a
    /// device that the ACPI namespace names. Others are kept.
    pub fn kind(&self) -> u8 {
        field(self.bytes, 0, 1) as u8 // Type
    }

    /// Flags, whatever structure the scope is in.
    pub fn flags(&self) -> u8 {
        field(self.bytes, 2, 1) as u8 // Flags
    }

    /// Enumeration ID: of type 3 the id of the I/O APIC, of type 4 the number of the HPET, of type 5 the ACPI Device
    /// Number of an ANDD.
    pub fn enumeration_id(&self) -> u8 {
        field(self.bytes, 4, 1) as u8 // Enumeration ID
    }

    /// Start Bus Number: the bus from which the path goes.
    pub fn start_bus(&self) -> u8 {
        field(self.bytes, 5, 1) as u8 // Start Bus Number
    }

    /// Path: the hops from the start bus to the device, in order.
    pub fn hops(&self) -> HopIter<'a> {
        HopIter { rest: skip(self.bytes, 6) }
    }

    /// Whether the scope names the device that these hops reach from a bus: a PCI endpoint, type 1, if its path is the
    /// hops, and a bridge, type 2, if its path has a hop and the hops begin with it.
    pub fn names(&self, bus: u8, hops: &[Hop]) -> bool {
        self.start_bus() == bus && reaches(self.kind(), self.hops(), hops)
    }

    /// Whether the scope is of a type, and has this Enumeration ID.
    pub(super) fn is_numbered(&self, kind: u8, id: u8) -> bool {
        self.kind() == kind && self.enumeration_id() == id
    }

    /// The last hop of the path, or `None` if it has none.
    pub(super) fn last_hop(&self) -> Option<Hop> {
        let mut last = None;
        let mut path = self.hops();
        while let Some(hop) = path.next() {
            last = Some(hop);
        }
        last
    }
}

/// Whether a path reaches the device at the end of the hops, by the type of its scope.
fn reaches(kind: u8, path: HopIter<'_>, hops: &[Hop]) -> bool {
    match front_length(path, hops) {
        Some(length) => {
            if kind == 1 {
                length == hops.len()
            } else {
                kind == 2 && length > 0
            }
        }
        None => false,
    }
}

/// How many hops a path has, if the hops begin with it.
fn front_length(path: HopIter<'_>, hops: &[Hop]) -> Option<usize> {
    let mut count = 0;
    let mut path = path;
    while let Some(hop) = path.next() {
        if count >= hops.len() || !hop.is_same(&hops[count]) {
            return None;
        }
        count += 1;
    }
    Some(count)
}

/// Device scopes.
#[derive(Clone, Copy, Debug)]
pub struct Scopes;

impl<'a> PieceKind<'a> for Scopes {
    type Piece = DeviceScope<'a>;

    fn size_at(bytes: &[u8]) -> Option<usize> {
        valid_length(6, field(bytes, 1, 1) as usize) // Length
    }

    fn piece(bytes: &'a [u8]) -> DeviceScope<'a> {
        DeviceScope { bytes }
    }

    fn is_whole(_scope: &DeviceScope<'a>) -> bool {
        true
    }
}

/// The device scopes of a structure, in order (section 8.3.1). It ends at the structure's end, or where no scope
/// begins: if one byte is left, or if the length is under 6 or past the structure's end.
pub type DeviceScopeIter<'a> = PieceIter<'a, Scopes>;
