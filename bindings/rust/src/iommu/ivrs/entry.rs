// Made by scripts/erase of crates/acpi_iommu/src/ivrs/entry.rt, where it is proved.
//! The device entries of an IVHD, one at a time (section 5.2).

use crate::base::bytes::{field, skip, text_of};
use crate::iommu::pieces::{PieceIter, PieceKind};
use crate::iommu::texts::up_to_zero;

/// A special device, type 0x48 (section 5.2).
#[derive(Clone, Copy, Debug)]
#[non_exhaustive]
pub struct SpecialDevice {
    /// Handle: of an I/O APIC its id, of an HPET its number.
    pub handle: u8,
    /// Source DeviceID: the id by which the unit knows the device.
    pub source: u16,
    /// Variety: 1 an I/O APIC, 2 an HPET.
    pub variety: u8,
}

/// A device entry of an IVHD (section 5.2): devices, and how the unit treats them. The end of a range belongs to
/// its start.
#[derive(Clone, Copy, Debug)]
pub struct DeviceEntry<'a> {
    bytes: &'a [u8],
}

impl<'a> DeviceEntry<'a> {
    /// The bytes of the entry, with the end's of a range.
    pub fn bytes(&self) -> &'a [u8] {
        self.bytes
    }

    /// Type: 1 all devices, 2 one device, 3 a range of devices, 0x42 and 0x43 one and a range with an alias, 0x46 and
    /// 0x47 one and a range with extended settings, 0x48 a special device, 0xF0 a device by its ACPI HID. Others are
    /// kept.
    pub fn kind(&self) -> u8 {
        kind_of(self.bytes)
    }

    /// DeviceID: the device, or the first of a range. 0 of all devices, a special device and padding, types 0 and 0x40,
    /// which have none.
    pub fn first(&self) -> u16 {
        match self.kind() {
            0 | 1 | 0x40 | 0x48 => 0,
            _ => field(self.bytes, 1, 2) as u16, // DeviceID
        }
    }

    /// The last device of a range, DeviceID of its end. 0xffff of all devices, and of another entry `first`.
    pub fn last(&self) -> u16 {
        match self.kind() {
            3 | 0x43 | 0x47 => field(self.bytes, own_size(self.bytes) + 1, 2) as u16, // DeviceID of the end
            1 => 0xffff,
            _ => self.first(),
        }
    }

    /// DTE Setting: how the unit treats what the devices send. 0 of padding, which has none.
    pub fn settings(&self) -> u8 {
        match self.kind() {
            0 | 0x40 => 0,
            _ => field(self.bytes, 3, 1) as u8, // DTE Setting
        }
    }

    /// Source DeviceID of an alias, types 0x42 and 0x43: the id by which the unit knows the devices. `None` of other
    /// types.
    pub fn alias(&self) -> Option<u16> {
        match self.kind() {
            0x42 | 0x43 => Some(field(self.bytes, 5, 2) as u16), // Source DeviceID
            _ => None,
        }
    }

    /// Extended DTE Setting of types 0x46 and 0x47, or `None` of others.
    pub fn extended_settings(&self) -> Option<u32> {
        match self.kind() {
            0x46 | 0x47 => Some(field(self.bytes, 4, 4) as u32), // Extended DTE Setting
            _ => None,
        }
    }

    /// The special device of type 0x48, or `None` of other types.
    pub fn special(&self) -> Option<SpecialDevice> {
        if self.kind() != 0x48 {
            return None;
        }
        Some(SpecialDevice {
            handle: field(self.bytes, 4, 1) as u8,  // Handle
            source: field(self.bytes, 5, 2) as u16, // Source DeviceID
            variety: field(self.bytes, 7, 1) as u8, // Variety
        })
    }

    /// Hardware ID of type 0xF0: the text in eight bytes, up to the first zero. It is `None` if that isn't valid UTF-8.
    /// Of other types it is empty.
    pub fn hardware_id(&self) -> Option<&'a str> {
        if self.kind() == 0xf0 {
            text_of(up_to_zero(part(self.bytes, 4, 8))) // Hardware ID
        } else {
            Some("")
        }
    }

    /// Compatible ID of type 0xF0: the text in eight bytes, up to the first zero. It is `None` if that isn't valid
    /// UTF-8. Of other types it is empty.
    pub fn compatible_id(&self) -> Option<&'a str> {
        if self.kind() == 0xf0 {
            text_of(up_to_zero(part(self.bytes, 12, 8))) // Compatible ID
        } else {
            Some("")
        }
    }

    /// Unique ID format of type 0xF0: 0 there is no unique id, 1 it is a number of eight bytes, 2 a text. `None` of
    /// other types.
    pub fn unique_id_format(&self) -> Option<u8> {
        if self.kind() == 0xf0 {
            Some(field(self.bytes, 20, 1) as u8) // Unique ID format
        } else {
            None
        }
    }

    /// Unique ID of type 0xF0: its bytes. Other types have no bytes.
    pub fn unique_id(&self) -> &'a [u8] {
        if self.kind() != 0xf0 {
            return &[];
        }
        let length = field(self.bytes, 21, 1) as usize; // Unique ID length
        part(self.bytes, 22, length) // Unique ID
    }

    /// Whether the entry covers the device of an id: type 1 covers every one, a range those from its first to its last,
    /// and a special device its source.
    pub fn covers(&self, id: u16) -> bool {
        match self.kind() {
            1 => true,
            0x48 => field(self.bytes, 5, 2) as u16 == id, // Source DeviceID
            2 | 3 | 0x42 | 0x43 | 0x46 | 0x47 | 0xf0 => self.first() <= id && id <= self.last(),
            _ => false,
        }
    }

    /// The id by which the unit knows a device that the entry covers: that of the alias, or the device's own.
    pub(super) fn source_for(&self, id: u16) -> u16 {
        self.alias().unwrap_or(id)
    }
}

/// As many bytes from an offset on, or those that there are.
fn part(bytes: &[u8], offset: usize, count: usize) -> &[u8] {
    let rest = skip(bytes, offset);
    &rest[..count.min(rest.len())]
}

/// Type of an entry.
fn kind_of(entry: &[u8]) -> u8 {
    field(entry, 0, 1) as u8 // Type
}

/// Whether an entry is the start of a range.
fn is_start(entry: &[u8]) -> bool {
    let kind = kind_of(entry);
    kind == 3 || kind == 0x43 || kind == 0x47
}

/// How many bytes an entry has by itself.
fn own_size(entry: &[u8]) -> usize {
    match kind_of(entry) {
        0xf0 => 22 + field(entry, 21, 1) as usize, // Unique ID length
        0x00..0x40 => 4,
        0x40..0x80 => 8,
        0x80..0xc0 => 16,
        _ => 32,
    }
}

/// Device entries.
#[derive(Clone, Copy, Debug)]
pub struct Entries;

impl<'a> PieceKind<'a> for Entries {
    type Piece = DeviceEntry<'a>;

    fn size_at(bytes: &[u8]) -> Option<usize> {
        let size = own_size(bytes);
        if is_start(bytes) {
            // Type of the end.
            if field(bytes, size, 1) == 4 { Some(size + 4) } else { None }
        } else if kind_of(bytes) == 4 {
            None
        } else {
            Some(size)
        }
    }

    fn piece(bytes: &'a [u8]) -> DeviceEntry<'a> {
        DeviceEntry { bytes }
    }

    fn is_whole(_entry: &DeviceEntry<'a>) -> bool {
        true
    }
}

/// The device entries of an IVHD, in order (section 5.2), entries of undefined types and padding too. It ends at the
/// block's end, or where no entry begins: if an entry goes past the block's end, if the end of a range doesn't follow
/// its start at once, or if an end follows no start.
pub type DeviceEntryIter<'a> = PieceIter<'a, Entries>;
