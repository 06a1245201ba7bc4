// Made by scripts/erase of crates/acpi_sleep/src/error.rt, where it is proved.
//! The errors of this crate.

use crate::base::{AcpiError, Signature};
use core::fmt;

/// Why a walk along AML ends. Each has the offset in the AML where it ended.
#[derive(Clone, Copy, Debug, PartialEq, Eq)]
#[non_exhaustive]
pub enum AmlError {
    /// The block ends before the byte, name, text or number that begins here.
    PastEnd(usize),
    /// A PkgLength here is less than its own bytes, or goes past the end of the block (section 20.2.4).
    InvalidLength(usize),
    /// No name begins here: a character isn't one of a name's, or there are no segments (section 20.2.2).
    InvalidName(usize),
    /// What begins here is no term and no argument of AML (section 20.2.5).
    UnknownTerm(usize),
    /// AML begins here that this crate doesn't read: a statement, an expression (`Revision` too) or a call, which is
    /// run; or where a sleep state has its package another value, or an element that is no integer constant.
    NotRead(usize),
}

/// Prints the variant's name and, after a space, the offset.
impl fmt::Display for AmlError {
    fn fmt(&self, f: &mut fmt::Formatter<'_>) -> fmt::Result {
        match self {
            AmlError::PastEnd(at) => write!(f, "PastEnd {at}"),
            AmlError::InvalidLength(at) => write!(f, "InvalidLength {at}"),
            AmlError::InvalidName(at) => write!(f, "InvalidName {at}"),
            AmlError::UnknownTerm(at) => write!(f, "UnknownTerm {at}"),
            AmlError::NotRead(at) => write!(f, "NotRead {at}"),
        }
    }
}

/// Why the tables of a machine have no result for a sleep state.
#[derive(Clone, Copy, Debug, PartialEq, Eq)]
#[non_exhaustive]
pub enum SleepError {
    /// The state is above 5.
    NoSuchState,
    /// The walk along the AML of a table of this signature, `DSDT` or `SSDT`, ends with this error.
    Aml(Signature, AmlError),
    /// The DSDT isn't found.
    Acpi(AcpiError),
}

impl From<AcpiError> for SleepError {
    /// Makes `Acpi` of an error.
    fn from(refused: AcpiError) -> SleepError {
        SleepError::Acpi(refused)
    }
}

/// Why there is no plan.
#[derive(Clone, Copy, Debug, PartialEq, Eq)]
#[non_exhaustive]
pub enum PlanError {
    /// The FADT has no PM1a_CNT, or on reduced hardware no SLEEP_CONTROL_REG (section 5.2.9).
    NoRegister,
    /// The machine can't be reset by its FADT (section 4.8.3.6).
    NoReset,
    /// A sleep type that would be written is above 7: SLP_TYP has three bits (section 4.8.3.2.1).
    SleepTypeTooHigh,
    /// A register's address has a reserved code, or its block has 32 ports or more.
    BadRegister(AcpiError),
}

impl From<AcpiError> for PlanError {
    /// Makes `BadRegister` of an error.
    fn from(refused: AcpiError) -> PlanError {
        PlanError::BadRegister(refused)
    }
}
