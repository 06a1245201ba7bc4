// Made by scripts/erase of crates/acpi_bytes/src/error.rt, where it is proved.
//! The errors of this library.

use crate::alloc::AllocError;
use crate::bytes::signature::Signature;
use core::fmt;

/// What a call that can fail returns: a value, or an `AcpiError`.
pub type AcpiResult<T> = Result<T, AcpiError>;

/// Why a call fails. A signature in an error is the one that was requested.
#[derive(Clone, Copy, Debug, PartialEq, Eq)]
#[non_exhaustive]
pub enum AcpiError {
    /// No valid RSDP is in the areas that were searched (section 5.2.5.1).
    NoValidRsdp,
    /// An RSDP does not begin with `RSD PTR ` (section 5.2.5.3).
    RsdpIncorrectSignature,
    /// The OEM id of an RSDP is not valid UTF-8 (section 5.2.5.3).
    RsdpInvalidOemId,
    /// The first 20 bytes of an RSDP, or all, do not sum to 0 modulo 256, or its length is under 36 or above
    /// the number of bytes at hand (section 5.2.5.3).
    RsdpInvalidChecksum,
    /// A table has another signature, or one that is not valid UTF-8 (section 5.2.6).
    SdtInvalidSignature(Signature),
    /// The OEM id of a table is not valid UTF-8 (section 5.2.6).
    SdtInvalidOemId(Signature),
    /// The OEM table id of a table is not valid UTF-8 (section 5.2.6).
    SdtInvalidTableId(Signature),
    /// The bytes of a table do not sum to 0 modulo 256 (section 5.2.6).
    SdtInvalidChecksum(Signature),
    /// No valid table of this signature is listed in the root table (sections 5.2.7 and 5.2.8).
    TableMissing(Signature),
    /// The FADT has no address of the FACS: X_FIRMWARE_CTRL and FIRMWARE_CTRL are 0 (section 5.2.9).
    InvalidFacsAddress,
    /// The FADT has no address of the DSDT: X_DSDT and DSDT are 0 (section 5.2.9).
    InvalidDsdtAddress,
    /// The MADT is valid, but one of its entries isn't (section 5.2.12), or a processor isn't woken.
    InvalidMadt(MadtError),
    /// A generic address has a reserved code (section 5.2.3.2), the ports of a FADT's block are 32 bytes or
    /// more (section 5.2.9), or the registers of an HPET aren't in memory.
    InvalidGenericAddress,
    /// Out of memory.
    AllocError,
    /// The handler doesn't map the range of memory that was requested.
    MapFailed,
    /// The length in a table's header is under the least of its type, or above the number of bytes at hand
    /// (section 5.2.6).
    SdtInvalidLength(Signature),
    /// NamespaceString of an SPCR is outside the table, or is not valid UTF-8.
    InvalidNamespaceString,
}

impl From<AllocError> for AcpiError {
    /// Makes `AllocError`, after an allocation failed.
    fn from(_refused: AllocError) -> AcpiError {
        AcpiError::AllocError
    }
}

/// Prints the variant's name and, after a space, the signature or the error that it contains.
impl fmt::Display for AcpiError {
    fn fmt(&self, f: &mut fmt::Formatter<'_>) -> fmt::Result {
        let name = match self {
            AcpiError::SdtInvalidSignature(signature) => {
                return write!(f, "SdtInvalidSignature {signature}");
            }
            AcpiError::SdtInvalidOemId(signature) => {
                return write!(f, "SdtInvalidOemId {signature}");
            }
            AcpiError::SdtInvalidTableId(signature) => {
                return write!(f, "SdtInvalidTableId {signature}");
            }
            AcpiError::SdtInvalidChecksum(signature) => {
                return write!(f, "SdtInvalidChecksum {signature}");
            }
            AcpiError::SdtInvalidLength(signature) => {
                return write!(f, "SdtInvalidLength {signature}");
            }
            AcpiError::TableMissing(signature) => return write!(f, "TableMissing {signature}"),
            AcpiError::InvalidMadt(error) => return write!(f, "InvalidMadt {error}"),
            AcpiError::NoValidRsdp => "NoValidRsdp",
            AcpiError::RsdpIncorrectSignature => "RsdpIncorrectSignature",
            AcpiError::RsdpInvalidOemId => "RsdpInvalidOemId",
            AcpiError::RsdpInvalidChecksum => "RsdpInvalidChecksum",
            AcpiError::InvalidFacsAddress => "InvalidFacsAddress",
            AcpiError::InvalidDsdtAddress => "InvalidDsdtAddress",
            AcpiError::InvalidGenericAddress => "InvalidGenericAddress",
            AcpiError::AllocError => "AllocError",
            AcpiError::MapFailed => "MapFailed",
            AcpiError::InvalidNamespaceString => "InvalidNamespaceString",
        };
        f.write_str(name)
    }
}

/// What is wrong with an entry of a valid MADT, or why a processor isn't woken (section 5.2.12).
#[derive(Clone, Copy, Debug, PartialEq, Eq)]
#[non_exhaustive]
pub enum MadtError {
    /// There is an entry of a type that the model has no place for, or none of the requested type.
    UnexpectedEntry,
    /// Bus of an Interrupt Source Override isn't 0, ISA (section 5.2.12.5).
    InterruptOverrideEntryHasInvalidBus,
    /// LINT# of a Local APIC NMI or a Local x2APIC NMI is neither 0 nor 1 (sections 5.2.12.7 and 5.2.12.13).
    InvalidLocalNmiLine,
    /// Polarity of MPS INTI Flags is 2, which is reserved (section 5.2.12.5).
    MpsIntiInvalidPolarity,
    /// Trigger Mode of MPS INTI Flags is 2, which is reserved (section 5.2.12.5).
    MpsIntiInvalidTriggerMode,
    /// The firmware did not take the Wakeup command within the reads that were requested (section
    /// 5.2.12.19).
    WakeupApsTimeout,
    /// The entries of a MADT end before its bytes do: bytes are left in which no entry begins. One byte is
    /// left, or the next length is under 2, under the least of its type, or past the table's end.
    InvalidEntryLength,
}

/// Prints the variant's name.
impl fmt::Display for MadtError {
    fn fmt(&self, f: &mut fmt::Formatter<'_>) -> fmt::Result {
        f.write_str(match self {
            MadtError::UnexpectedEntry => "UnexpectedEntry",
            MadtError::InterruptOverrideEntryHasInvalidBus => "InterruptOverrideEntryHasInvalidBus",
            MadtError::InvalidLocalNmiLine => "InvalidLocalNmiLine",
            MadtError::MpsIntiInvalidPolarity => "MpsIntiInvalidPolarity",
            MadtError::MpsIntiInvalidTriggerMode => "MpsIntiInvalidTriggerMode",
            MadtError::WakeupApsTimeout => "WakeupApsTimeout",
            MadtError::InvalidEntryLength => "InvalidEntryLength",
        })
    }
}
