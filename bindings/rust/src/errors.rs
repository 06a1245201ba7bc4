//! Texts of the errors that have none in the proved crates, errors by their numbers, and `core::error::Error`.
use crate::handler::RegionError;
use crate::iommu::IommuError;
use crate::lists::refusal::Refusal;
use crate::numa::NumaError;
use crate::sleep::{AmlError, PlanError, SleepError};
use crate::write::WriterError;
use crate::{AcpiError, MadtError, sdt::Signature};
use core::error::Error;
use core::fmt;

/// Each error of the calls of `lists` that carries no other.
const OWN: [Refusal; 29] = [
    Refusal::RegionsNotAscending,
    Refusal::RegionTooHigh,
    Refusal::UnknownStart,
    Refusal::RangeTooHigh,
    Refusal::UnknownWidth,
    Refusal::NoSuchState,
    Refusal::UnknownPolicy,
    Refusal::NoSuchFunction,
    Refusal::NoRegister,
    Refusal::NoReset,
    Refusal::SleepStateAbsent,
    Refusal::SleepStateNotSeen,
    Refusal::SleepTypeTooHigh,
    Refusal::NoApics,
    Refusal::NoGic,
    Refusal::NoSuchInterrupt,
    Refusal::NoSuchIoApic,
    Refusal::InvalidSratEntryLength,
    Refusal::InvalidMemoryRange,
    Refusal::NoDomain,
    Refusal::NoDistance,
    Refusal::InvalidIommuStructureLength,
    Refusal::InvalidIommuMemoryRange,
    Refusal::NoIommu,
    Refusal::InvalidTimerLength,
    Refusal::NoRiscv,
    Refusal::ShortRiscvEntry,
    Refusal::UnknownCode,
    Refusal::BadTable,
];

/// Each error of a memory, an RSDP, a table, a register or the MADT's entries that carries no signature.
const OF_TABLES: [AcpiError; 13] = [
    AcpiError::MapFailed,
    AcpiError::NoValidRsdp,
    AcpiError::RsdpIncorrectSignature,
    AcpiError::RsdpInvalidOemId,
    AcpiError::RsdpInvalidChecksum,
    AcpiError::InvalidDsdtAddress,
    AcpiError::InvalidGenericAddress,
    AcpiError::InvalidMadt(MadtError::UnexpectedEntry),
    AcpiError::InvalidMadt(MadtError::InterruptOverrideEntryHasInvalidBus),
    AcpiError::InvalidMadt(MadtError::InvalidLocalNmiLine),
    AcpiError::InvalidMadt(MadtError::MpsIntiInvalidPolarity),
    AcpiError::InvalidMadt(MadtError::MpsIntiInvalidTriggerMode),
    AcpiError::InvalidMadt(MadtError::InvalidEntryLength),
];

/// Each error that carries a table's signature.
const OF_A_TABLE: [fn(Signature) -> AcpiError; 6] = [
    AcpiError::SdtInvalidSignature,
    AcpiError::SdtInvalidOemId,
    AcpiError::SdtInvalidTableId,
    AcpiError::SdtInvalidLength,
    AcpiError::SdtInvalidChecksum,
    AcpiError::TableMissing,
];

impl Refusal {
    /// The error of a `status` of `lists`, of a table of this signature if it carries one. `None` for 0, with which
    /// nothing is at fault, and for a number that no entry and no table has.
    pub fn of_status(status: u32, signature: Signature) -> Option<Refusal> {
        let of_tables = OF_TABLES.into_iter().chain(OF_A_TABLE.into_iter().map(|error| error(signature)));
        let all = OWN.into_iter().chain(of_tables.map(Refusal::Acpi)).chain([Refusal::AmlInvalid(signature)]);
        all.into_iter().find(|error| error.code() == status)
    }
}

/// Prints the variant's name, then the signature that it carries, or what the error that it is prints.
impl fmt::Display for Refusal {
    fn fmt(&self, f: &mut fmt::Formatter<'_>) -> fmt::Result {
        match self {
            Refusal::AmlInvalid(signature) => write!(f, "AmlInvalid {signature}"),
            Refusal::Writer(error) => error.fmt(f),
            Refusal::Acpi(error) => error.fmt(f),
            own => write!(f, "{own:?}"),
        }
    }
}

/// Prints the variant's name.
impl fmt::Display for WriterError {
    fn fmt(&self, f: &mut fmt::Formatter<'_>) -> fmt::Result {
        write!(f, "{self:?}")
    }
}

/// Prints the variant's name, or the error that it carries: the AML's after its table's signature.
impl fmt::Display for SleepError {
    fn fmt(&self, f: &mut fmt::Formatter<'_>) -> fmt::Result {
        match self {
            SleepError::NoSuchState => f.write_str("NoSuchState"),
            SleepError::Aml(signature, error) => write!(f, "{signature} {error}"),
            SleepError::Acpi(error) => error.fmt(f),
        }
    }
}

/// Prints the variant's name, or the error of the register.
impl fmt::Display for PlanError {
    fn fmt(&self, f: &mut fmt::Formatter<'_>) -> fmt::Result {
        match self {
            PlanError::BadRegister(error) => error.fmt(f),
            own => write!(f, "{own:?}"),
        }
    }
}

/// Errors that `?` turns into a `Box<dyn Error>`.
macro_rules! errors {
    ($($error:ty)*) => { $(impl Error for $error {})* };
}

errors! { AcpiError MadtError RegionError NumaError IommuError AmlError SleepError PlanError WriterError Refusal }
