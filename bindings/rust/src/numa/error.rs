// Made by scripts/erase of crates/acpi_numa/src/error.rt, where it is proved.
//! The errors of this crate.

use crate::alloc::AllocError;
use crate::base::AcpiError;
use core::fmt;

/// The result of a call of this crate that can fail: a value, or a `NumaError`.
pub type NumaResult<T> = Result<T, NumaError>;

/// Why a call of this crate fails.
#[derive(Clone, Copy, Debug, PartialEq, Eq)]
#[non_exhaustive]
pub enum NumaError {
    /// The lookup of the table fails, with `TableMissing`, or memory runs out, with `AllocError`.
    Acpi(AcpiError),
    /// The entries of a SRAT end before its bytes do (section 5.2.16): after the last entry that was cut,
    /// bytes are left in which no entry begins. One byte is left, or the next length is under 2, under
    /// the least of its type (16, 40, 24, 18, 12, 32 and 32 for types 0 to 6), or past the table's end.
    InvalidEntryLength,
    /// The base and the length of an enabled Memory Affinity Structure that has bytes (section 5.2.16.2) add
    /// up to more than 2^64 - 1.
    InvalidMemoryRange,
}

impl From<AcpiError> for NumaError {
    /// Makes `Acpi` of an error.
    fn from(refused: AcpiError) -> NumaError {
        NumaError::Acpi(refused)
    }
}

impl From<AllocError> for NumaError {
    /// Makes `Acpi` of `AllocError`, if memory runs out.
    fn from(_refused: AllocError) -> NumaError {
        NumaError::Acpi(AcpiError::AllocError)
    }
}

/// Prints the variant's name, or of `Acpi` what the error in it prints.
impl fmt::Display for NumaError {
    fn fmt(&self, f: &mut fmt::Formatter<'_>) -> fmt::Result {
        match self {
            NumaError::Acpi(refused) => write!(f, "{refused}"),
            NumaError::InvalidEntryLength => f.write_str("InvalidEntryLength"),
            NumaError::InvalidMemoryRange => f.write_str("InvalidMemoryRange"),
        }
    }
}
