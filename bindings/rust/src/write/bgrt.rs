// Made by scripts/erase of crates/acpi_writer/src/bgrt.rt, where it is proved.
//! The Boot Graphics Resource Table (BGRT, section 5.2.22), from what it contains of an image.

use crate::base::Signature;
use crate::table_writer::error::WriterError;
use crate::table_writer::ids::TableIds;
use crate::table_writer::numbers::bit_of;
use crate::table_writer::table::{Table, write};

/// Orientation Offset: by how many degrees an image was turned clockwise before it was drawn (section 5.2.22).
#[derive(Clone, Copy, Debug)]
#[non_exhaustive]
pub enum BgrtOrientation {
    /// Not at all.
    Degrees0,
    /// By a quarter.
    Degrees90,
    /// By a half.
    Degrees180,
    /// By three quarters.
    Degrees270,
}

/// The contents of a BGRT, by the names of `Bgrt`, as which it is read.
#[derive(Clone, Copy, Debug)]
pub struct BgrtContents {
    /// Displayed: whether the image is on the screen.
    pub was_displayed: bool,
    /// Orientation Offset: by how many degrees it was turned.
    pub orientation_offset: BgrtOrientation,
    /// Image Address: the physical address of the bitmap's first byte.
    pub image_address: u64,
    /// Image Offset X and Image Offset Y: how far right and how far down of the screen's upper left corner the image's
    /// upper left corner is, in pixels.
    pub image_offset: (u32, u32),
}

/// The number of an orientation.
fn orientation_code(orientation: BgrtOrientation) -> u8 {
    match orientation {
        BgrtOrientation::Degrees0 => 0,
        BgrtOrientation::Degrees90 => 1,
        BgrtOrientation::Degrees180 => 2,
        BgrtOrientation::Degrees270 => 3,
    }
}

/// The byte Status.
pub(crate) fn status_of(contents: &BgrtContents) -> u8 {
    bit_of(contents.was_displayed) + 2 * orientation_code(contents.orientation_offset)
}

impl Table for BgrtContents {
    type Body = BgrtContents;

    fn head(&self) -> (Signature, u8) {
        (Signature::BGRT, 1)
    }

    fn check(&self) -> Result<(), WriterError> {
        Ok(())
    }

    fn body(&self) -> BgrtContents {
        *self
    }
}

/// Writes a BGRT of revision 1, whose Version is 1 and whose image is a bitmap, to the front of a slice, and returns
/// how many bytes it has, 56. Whether there is an image at its address isn't checked.
///
/// Returns, in this order, `BadName` if a name of the ids is not valid UTF-8, and `NoRoom` if the slice is shorter
/// than the table.
pub fn write_bgrt(out: &mut [u8], ids: &TableIds, contents: &BgrtContents) -> Result<usize, WriterError> {
    write(out, ids, contents)
}
