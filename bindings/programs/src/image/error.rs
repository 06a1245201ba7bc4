// Made by scripts/erase of crates/acpi_image/src/error.rt, where it is proved.
//! The errors of an image that is to be written.

use core::fmt;

/// Why `write_image` writes no image, in the order of its checks.
#[derive(Clone, Copy, Debug, PartialEq, Eq)]
pub enum WriteError {
    /// The root table's address is 0.
    ZeroRoot,
    /// The table of this index, counted from 0, has fewer than 36 bytes, a length field that is not
    /// the number of its bytes, or a signature or an id that is not valid UTF-8 (section 5.2.6). It is the
    /// first such table.
    BadTable(usize),
    /// The root table's length would be 2^32 or above (sections 5.2.7 and 5.2.8).
    TooMany,
    /// For revision 0, the root table's address or a table's is 2^32 or above (section 5.2.7).
    PointerTooLarge,
    /// A record's start and length add up to more than 2^64 - 1.
    EndTooLarge,
    /// Two records share a byte.
    Overlap,
    /// Memory ran out.
    OutOfMemory,
}

/// Prints the variant's name, and after a space the index that it contains.
impl fmt::Display for WriteError {
    fn fmt(&self, f: &mut fmt::Formatter<'_>) -> fmt::Result {
        let name = match self {
            WriteError::ZeroRoot => "ZeroRoot",
            WriteError::BadTable(index) => return write!(f, "BadTable {index}"),
            WriteError::TooMany => "TooMany",
            WriteError::PointerTooLarge => "PointerTooLarge",
            WriteError::EndTooLarge => "EndTooLarge",
            WriteError::Overlap => "Overlap",
            WriteError::OutOfMemory => "OutOfMemory",
        };
        f.write_str(name)
    }
}
