// Made by scripts/erase of crates/acpi_dump_input/src/memory.rt, where it is proved.
//! Raw memory as an image.

use crate::rattle::Vec;
use crate::rattle::alloc::AllocError;

/// The image whose one record has these bytes from a physical address on. They are moved, since memory may be so much
/// that two of it are too much.
pub(crate) fn image_of(address: u64, bytes: Vec<u8>) -> Result<Vec<u8>, AllocError> {
    let mut image = bytes;
    let length = image.len() as u64;
    image.extend_from_slice(&address.to_le_bytes()[..8])?;
    image.extend_from_slice(&length.to_le_bytes()[..8])?;
    image.rotate_right(16);
    Ok(image)
}
