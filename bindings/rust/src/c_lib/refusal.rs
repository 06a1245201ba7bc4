// Made by scripts/erase of crates/acpi_c_lib/src/refusal.rt, where it is proved.
//! Why a call fails, the number that C gets for it, and the signature that it carries.

mod codes;

use crate::acpi::AcpiError;
use crate::acpi::sdt::Signature;
use crate::iommu::IommuError;
use crate::sleep::{PlanError, SleepError};
use crate::table_writer::WriterError;
use codes::{madt_code, own_acpi_code, own_code, writer_code};

/// Why a call fails. `enum zacpi_status_code` of `include/zacpi.h` has what each error means.
#[derive(Clone, Copy, Debug, PartialEq, Eq)]
#[non_exhaustive]
pub enum Refusal {
    /// A region begins below the end of the one before it.
    RegionsNotAscending,
    /// A region ends at 2^64 or above.
    RegionTooHigh,
    /// `start` isn't one of `enum zacpi_start`.
    UnknownStart,
    /// A range ends at 2^64 or above.
    RangeTooHigh,
    /// A width of a walk isn't 1, 2 or 4.
    UnknownWidth,
    /// A sleep state is above 5.
    NoSuchState,
    /// `accept` has a bit that `enum zacpi_accept` hasn't.
    UnknownPolicy,
    /// No region of configuration space contains the function.
    NoSuchFunction,
    /// The register isn't there: PM1a_CNT, or on reduced hardware SLEEP_CONTROL_REG.
    NoRegister,
    /// RESET_REG_SUP is clear, or RESET_REG is at address 0.
    NoReset,
    /// No table defines the state's name.
    SleepStateAbsent,
    /// A table may define the state's name, if its AML is run, or not as two integer constants.
    SleepStateNotSeen,
    /// The AML is that of a table of this signature.
    AmlInvalid(Signature),
    /// A sleep type is above 7 where it is written, or above 255 where it is returned.
    SleepTypeTooHigh,
    /// The MADT has no entry of a machine with APICs.
    NoApics,
    /// The MADT has no entry of a GIC, or no distributor.
    NoGic,
    /// The ISA interrupt comes to no I/O APIC.
    NoSuchInterrupt,
    /// No I/O APIC has this global system interrupt.
    NoSuchIoApic,
    /// Bytes of the SRAT are left in which no entry begins.
    InvalidSratEntryLength,
    /// Memory of the SRAT ends at 2^64 or above.
    InvalidMemoryRange,
    /// The SRAT puts it in no domain.
    NoDomain,
    /// The SLIT has no distance of these localities.
    NoDistance,
    /// Bytes are left in which no structure, device scope or device entry begins.
    InvalidIommuStructureLength,
    /// An RMRR's last byte is before its first, or an IVMD's memory ends at 2^64 or above.
    InvalidIommuMemoryRange,
    /// The table has no such unit or structure, or no unit for the device.
    NoIommu,
    /// A structure of the GTDT is too short, or ends outside of what contains it.
    InvalidTimerLength,
    /// The MADT has no entry of a RISC-V machine.
    NoRiscv,
    /// An entry of a RISC-V machine is shorter than its type is.
    ShortRiscvEntry,
    /// A code of what is to be written is reserved.
    UnknownCode,
    /// A table of a machine that is to be written isn't a whole one.
    BadTable,
    /// The error is one of a table that is written.
    Writer(WriterError),
    /// The error is one of the crate `acpi`: of memory, an RSDP, a table, a register or the MADT's entries.
    Acpi(AcpiError),
}

impl From<AcpiError> for Refusal {
    fn from(error: AcpiError) -> Refusal {
        Refusal::Acpi(error)
    }
}

impl From<WriterError> for Refusal {
    fn from(error: WriterError) -> Refusal {
        Refusal::Writer(error)
    }
}

impl From<SleepError> for Refusal {
    fn from(error: SleepError) -> Refusal {
        match error {
            SleepError::NoSuchState => Refusal::NoSuchState,
            SleepError::Aml(signature, _) => Refusal::AmlInvalid(signature),
            SleepError::Acpi(error) => Refusal::Acpi(error),
        }
    }
}

impl From<IommuError> for Refusal {
    fn from(error: IommuError) -> Refusal {
        match error {
            IommuError::InvalidStructureLength => Refusal::InvalidIommuStructureLength,
            IommuError::InvalidMemoryRange => Refusal::InvalidIommuMemoryRange,
        }
    }
}

impl From<PlanError> for Refusal {
    fn from(error: PlanError) -> Refusal {
        match error {
            PlanError::NoRegister => Refusal::NoRegister,
            PlanError::NoReset => Refusal::NoReset,
            PlanError::SleepTypeTooHigh => Refusal::SleepTypeTooHigh,
            PlanError::BadRegister(error) => Refusal::Acpi(error),
        }
    }
}

impl Refusal {
    /// The number of the error, as `enum zacpi_status_code` of `include/zacpi.h` has it.
    pub(crate) fn code(self) -> u32 {
        match self {
            Refusal::Writer(error) => writer_code(error),
            Refusal::Acpi(error) => acpi_code(error),
            own => own_code(own) as u32,
        }
    }

    /// The signature that the error carries, if it carries one: numbers 20 to 25 and 37 do.
    pub(crate) fn signature(self) -> Option<Signature> {
        match self {
            Refusal::Acpi(error) => carried(error),
            Refusal::AmlInvalid(signature) => Some(signature),
            _ => None,
        }
    }
}

/// The number of an error of the crate `acpi`; 99 is for the errors that no call returns.
pub(crate) fn acpi_code(error: AcpiError) -> u32 {
    match error {
        AcpiError::InvalidMadt(error) => madt_code(error),
        own => own_acpi_code(own) as u32,
    }
}

/// The signature that an error of the crate `acpi` carries, if it carries one.
fn carried(error: AcpiError) -> Option<Signature> {
    match error {
        AcpiError::SdtInvalidSignature(signature)
        | AcpiError::SdtInvalidOemId(signature)
        | AcpiError::SdtInvalidTableId(signature)
        | AcpiError::SdtInvalidLength(signature)
        | AcpiError::SdtInvalidChecksum(signature)
        | AcpiError::TableMissing(signature) => Some(signature),
        _ => None,
    }
}
