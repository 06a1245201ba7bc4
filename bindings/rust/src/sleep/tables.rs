// Made by scripts/erase of crates/acpi_sleep/src/tables.rt, where it is proved.
//! The sleep types that the tables of a machine contain (section 7.4.2).

mod readings;

use crate::acpi::AcpiTables;
use crate::acpi::fadt::Fadt;
use crate::base::Lender;
use crate::base::bytes::skip;
use crate::base::sdt::{SdtHeader, Signature, map_sdt};
use crate::sleep::error::SleepError;
use crate::sleep::sleep::{SleepAnswer, sleep_types};

/// A Secondary System Description Table (SSDT, section 5.2.11.2), whose AML is after the header.
#[derive(Debug)]
#[non_exhaustive]
pub struct Ssdt {
    /// The header that every table begins with.
    pub header: SdtHeader,
}

/// The sleep types of tables.
pub trait SleepTables {
    /// The sleep types of a sleep state, 0 to 5, that the DSDT and the valid SSDTs contain: the types of the first of
    /// them, in the order of the root table, that has the state's package (`sleep_types`). If none has it, the first
    /// error or `NotSeen` of one, else `Absent`.
    ///
    /// Fails with `NoSuchState` if the state is above 5; else with `Acpi`, carrying the error of `AcpiTables::dsdt`, if
    /// the DSDT isn't found, and with `Aml` where the AML of a table ends the walk.
    fn sleep_types(&self, state: u8) -> Result<SleepAnswer, SleepError>;
}

impl<H: Lender> SleepTables for AcpiTables<'_, H> {
    fn sleep_types(&self, state: u8) -> Result<SleepAnswer, SleepError> {
        tables_answer(self, state)
    }
}

/// The result of all tables.
fn tables_answer<H: Lender>(tables: &AcpiTables<'_, H>, state: u8) -> Result<SleepAnswer, SleepError> {
    if state > 5 {
        return Err(SleepError::NoSuchState);
    }
    let mut answer = dsdt_answer(tables, state);
    for ssdt in tables.find_tables::<Ssdt>() {
        if let Ok(SleepAnswer::Types(_)) = answer {
            return answer;
        }
        answer = or_after(answer, block_answer(Signature::SSDT, state, ssdt.bytes()));
    }
    answer
}

/// The result of a block of AML before that of the blocks after it: types, its own first; else the first that isn't
/// `Absent`.
pub fn or_after(
    answer: Result<SleepAnswer, SleepError>,
    after: Result<SleepAnswer, SleepError>,
) -> Result<SleepAnswer, SleepError> {
    match (answer, after) {
        (Ok(SleepAnswer::Types(types)), _) => Ok(SleepAnswer::Types(types)),
        (Ok(SleepAnswer::Absent), _) => after,
        (_, Ok(SleepAnswer::Types(types))) => Ok(SleepAnswer::Types(types)),
        _ => answer,
    }
}

/// The result of the DSDT that the first valid FADT leads to.
fn dsdt_answer<H: Lender>(tables: &AcpiTables<'_, H>, state: u8) -> Result<SleepAnswer, SleepError> {
    let fadt = tables.find_table::<Fadt>()?;
    let dsdt = map_sdt(fadt.handler(), fadt.dsdt_address()?, Signature::DSDT)?;
    block_answer(Signature::DSDT, state, dsdt.bytes())
}

/// The result of the AML of a table of a signature, by the table's bytes: the AML is after the header.
///
/// Fails with `Aml` where the walk ends.
///
/// # Panics
///
/// Panics if `state` is above 207, where overflow is checked.
pub fn block_answer(signature: Signature, state: u8, table: &[u8]) -> Result<SleepAnswer, SleepError> {
    match sleep_types(skip(table, 36), state) {
        Ok(answer) => Ok(answer),
        Err(error) => Err(SleepError::Aml(signature, error)),
    }
}
