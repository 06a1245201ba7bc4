// Made by scripts/erase of crates/acpi_fixed/src/bgrt.rt, where it is proved.
//! The Boot Graphics Resource Table (BGRT): the image that the firmware showed while it started the machine
//! (section 5.2.22).

mod readings;

use crate::base::bytes::{bits, has_bit};
use crate::base::sdt::SdtHeader;

/// The Boot Graphics Resource Table (BGRT, section 5.2.22): an image in memory, and its place on the
/// screen.
#[derive(Clone, Copy, Debug)]
pub struct Bgrt {
    header: SdtHeader,
    /// Version: that of the table's layout, 1 by the specification. It is kept as it is.
    pub version: u16,
    status: u8,
    image_type: u8,
    /// Image Address: the physical address of the image's first byte. How many bytes the image has
    /// is not in the table.
    pub image_address: u64,
    x: u32,
    y: u32,
}

impl Bgrt {
    /// Displayed (bit 0 of Status, section 5.2.22): whether the image is still on the screen, as far as the
    /// firmware knows.
    pub fn was_displayed(&self) -> bool {
        has_bit(self.status as u64, 0) // Displayed
    }

    /// Orientation Offset (bits 1 and 2 of Status, section 5.2.22): by how many degrees the image was turned
    /// clockwise before it was drawn, 0, 90, 180 or 270.
    pub fn orientation_offset(&self) -> u16 {
        bits(self.status as u64, 1, 2) as u16 * 90 // Orientation Offset
    }

    /// Image Type (section 5.2.22): the format of the image, `Bitmap` for code 0 and `Reserved` for all
    /// others.
    pub fn image_type(&self) -> ImageType {
        match self.image_type {
            0 => ImageType::Bitmap,
            _ => ImageType::Reserved,
        }
    }

    /// Image Offset X and Image Offset Y (section 5.2.22): how far right and how far down of the screen's
    /// upper left corner the image's upper left corner is, in pixels.
    pub fn image_offset(&self) -> (u32, u32) {
        (self.x, self.y)
    }
}

/// Image Type: the format of a boot image (section 5.2.22). `Bitmap` is ordered before `Reserved`.
#[derive(Clone, Copy, Debug, PartialEq, Eq, PartialOrd, Ord, Hash)]
#[non_exhaustive]
pub enum ImageType {
    /// Bitmap, code 0: a file in the format BMP.
    Bitmap,
    /// Any other code, which is reserved.
    Reserved,
}
