// Made by scripts/erase of crates/acpi_iommu/src/error.rt, where it is proved.
//! The errors of this crate.

use core::fmt;

/// The result of a call of this crate that can fail: a value, or an `IommuError`.
pub type IommuResult<T> = Result<T, IommuError>;

/// Why a call of this crate fails.
#[derive(Clone, Copy, Debug, PartialEq, Eq)]
#[non_exhaustive]
pub enum IommuError {
    /// The structures of a table (of an IVRS: its blocks) end before its bytes do, or the device scopes or entries of
    /// one end before it does: bytes are left in which none begins. The length there is less than the least of its type
    /// or goes past the end, the end of a range of entries doesn't follow its start at once, or it follows none.
    InvalidStructureLength,
    /// The last byte of an RMRR is before its first, or start and length of an IVMD add up to more than 2^64 - 1.
    InvalidMemoryRange,
}

/// Prints the variant's name.
impl fmt::Display for IommuError {
    fn fmt(&self, f: &mut fmt::Formatter<'_>) -> fmt::Result {
        match self {
            IommuError::InvalidStructureLength => f.write_str("InvalidStructureLength"),
            IommuError::InvalidMemoryRange => f.write_str("InvalidMemoryRange"),
        }
    }
}
