// Made by scripts/erase of crates/acpi_image_reader/src/error.rt, where it is proved.
//! The errors of a file of memory.

use core::fmt;

/// Why a file encodes no memory, by the first record that is at fault.
#[derive(Clone, Copy, Debug, PartialEq, Eq)]
pub enum ImageError {
    /// Fewer than 16 bytes are left for the record's start and length, or fewer bytes than that length
    /// after them.
    Truncated,
    /// The record's start and length add up to more than 2^64 - 1.
    EndTooLarge,
    /// The record shares a byte with an earlier one.
    Overlap,
    /// Memory for the record ran out.
    OutOfMemory,
}

/// Prints the variant's name.
impl fmt::Display for ImageError {
    fn fmt(&self, f: &mut fmt::Formatter<'_>) -> fmt::Result {
        f.write_str(match self {
            ImageError::Truncated => "Truncated",
            ImageError::EndTooLarge => "EndTooLarge",
            ImageError::Overlap => "Overlap",
            ImageError::OutOfMemory => "OutOfMemory",
        })
    }
}
