// Made by scripts/erase of crates/acpi_pack_lib/src/error.rt, where it is proved.
//! The errors of files that are packed.

use crate::image::WriteError;
use crate::rattle::alloc::AllocFailed;
use core::fmt;

/// Why a file can't be packed.
#[derive(Clone, Copy, Debug, PartialEq, Eq)]
pub enum FileError {
    /// The file can't be read.
    Unreadable,
    /// The file has no bytes.
    Empty,
    /// The file of a table has fewer than the 36 bytes of a header, or ends before the length in it.
    Short,
    /// The file of a table goes on after the length in its header.
    Long,
    /// The file's address and the number of its bytes add up to more than 2^64 - 1.
    EndTooLarge,
    /// The file would share a byte with an earlier one, or as the DSDT with the RSDP; or it is a second DSDT.
    Overlap,
}

/// Prints the variant's name.
impl fmt::Display for FileError {
    fn fmt(&self, f: &mut fmt::Formatter<'_>) -> fmt::Result {
        f.write_str(match self {
            FileError::Unreadable => "Unreadable",
            FileError::Empty => "Empty",
            FileError::Short => "Short",
            FileError::Long => "Long",
            FileError::EndTooLarge => "EndTooLarge",
            FileError::Overlap => "Overlap",
        })
    }
}

/// Why nothing is packed.
#[derive(Clone, Copy, Debug, PartialEq, Eq)]
pub enum Refusal {
    /// The file of this index, counted from 0, is an error.
    File(usize, FileError),
    /// The tables are more than the XSDT can list, or one would be placed so that it ends above 2^64 - 1.
    NoRoom,
    /// There are more than 2^30 bytes from the first address of plain memory to the last.
    TooLarge,
    /// The allocator had no memory.
    OutOfMemory,
}

/// Prints the error of the file, or the variant's name.
impl fmt::Display for Refusal {
    fn fmt(&self, f: &mut fmt::Formatter<'_>) -> fmt::Result {
        match self {
            Refusal::File(_, error) => write!(f, "{error}"),
            Refusal::NoRoom => f.write_str("NoRoom"),
            Refusal::TooLarge => f.write_str("TooLarge"),
            Refusal::OutOfMemory => f.write_str("OutOfMemory"),
        }
    }
}

/// Makes `OutOfMemory`, if memory runs out for one more item.
impl<T> From<AllocFailed<T>> for Refusal {
    fn from(_error: AllocFailed<T>) -> Self {
        Refusal::OutOfMemory
    }
}

/// Makes `OutOfMemory`, if memory runs out for one more record: the only error of functions that put
/// records into a file.
impl From<WriteError> for Refusal {
    fn from(_error: WriteError) -> Self {
        Refusal::OutOfMemory
    }
}
