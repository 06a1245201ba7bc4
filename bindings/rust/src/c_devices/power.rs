// Made by scripts/erase of crates/acpi_c_devices/src/power.rt, where it is proved.
//! Sleep types, and what to write to sleep, to power off, to enable ACPI and to reset.

pub mod records;

use crate::acpi::sdt::Signature;
use crate::acpi::{Accept, AcpiHandler, AcpiTables};
use crate::c_devices::devices::optional_register;
use crate::c_devices::power::records::{Plan, SleepTypes, Step};
use crate::c_lib::opening::{find_fadt, first_fadt, open};
use crate::c_lib::records::Source;
use crate::c_lib::refusal::Refusal;
use crate::c_lib::regions::Mapped;
use crate::sleep::tables::{block_answer, or_after};
use crate::sleep::{PlanError, PlanStep, SleepAnswer, SleepError, StepKind};

/// The sleep types of a sleep state, by the DSDT and the SSDTs, if each fits a byte.
pub fn sleep_types(source: &Source<'_>, state: u32) -> Result<SleepTypes, Refusal> {
    let types = types_of(source, state)?;
    if types.a > 255 || types.b > 255 {
        return Err(Refusal::SleepTypeTooHigh);
    }
    Ok(SleepTypes { a: types.a as u8, b: types.b as u8 })
}

/// The sleep types of a sleep state, by the DSDT and the SSDTs, whether or not they fit a byte.
fn types_of(source: &Source<'_>, state: u32) -> Result<crate::sleep::SleepTypes, Refusal> {
    let memory = Mapped::new(source.regions)?;
    let tables = open(&memory, source)?;
    if state > 5 {
        return Err(Refusal::NoSuchState);
    }
    match tables_answer(&tables, state as u8)? {
        SleepAnswer::Types(types) => Ok(types),
        SleepAnswer::Absent => Err(Refusal::SleepStateAbsent),
        SleepAnswer::NotSeen(_) => Err(Refusal::SleepStateNotSeen),
    }
}

/// The result of the DSDT and the SSDTs that are accepted.
fn tables_answer<H: AcpiHandler>(tables: &AcpiTables<'_, H, Accept>, state: u8) -> Result<SleepAnswer, SleepError> {
    let mut answer = dsdt_answer(tables, state);
    for address in tables.addresses() {
        if let Ok(SleepAnswer::Types(_)) = answer {
            return answer;
        }
        if let Ok(ssdt) = tables.sdt_at(address, Signature::SSDT) {
            answer = or_after(answer, block_answer(Signature::SSDT, state, ssdt.bytes()));
        }
    }
    answer
}

/// The result of the DSDT that the first accepted FADT points to.
fn dsdt_answer<H: AcpiHandler>(tables: &AcpiTables<'_, H, Accept>, state: u8) -> Result<SleepAnswer, SleepError> {
    let fadt = find_fadt(tables)?;
    let dsdt = tables.sdt_at(fadt.dsdt_address()?, Signature::DSDT)?;
    block_answer(Signature::DSDT, state, dsdt.bytes())
}

/// What to write to enter a sleep state, by the first valid FADT.
pub fn sleep_plan(source: &Source<'_>, state: u32) -> Result<Plan, Refusal> {
    let types = types_of(source, state)?;
    let memory = Mapped::new(source.regions);
    let fadt = first_fadt(&memory, source)?;
    plan_said(crate::sleep::sleep_plan(&fadt, types))
}

/// What to write to power the machine off: to enter S5 (section 16.1).
pub fn power_off_plan(source: &Source<'_>) -> Result<Plan, Refusal> {
    sleep_plan(source, 5)
}

/// What to write to enable ACPI, by the first valid FADT.
pub fn enable_plan(source: &Source<'_>) -> Result<Plan, Refusal> {
    let memory = Mapped::new(source.regions);
    let fadt = first_fadt(&memory, source)?;
    plan_said(crate::sleep::enable_plan(&fadt))
}

/// What to write to reset the machine, by the first valid FADT.
pub fn reset_plan(source: &Source<'_>) -> Result<Plan, Refusal> {
    let memory = Mapped::new(source.regions);
    let fadt = first_fadt(&memory, source)?;
    plan_said(crate::sleep::reset_plan(&fadt))
}

/// A plan, or why there is none.
fn plan_said(outcome: Result<crate::sleep::Plan, PlanError>) -> Result<Plan, Refusal> {
    let plan = outcome?;
    Ok(plan_record(plan))
}

/// A plan under C's names.
fn plan_record(plan: crate::sleep::Plan) -> Plan {
    let none = step_record(None);
    Plan {
        steps: [step_record(plan.first), step_record(plan.second), none, none, none, none, none, none],
        count: plan.first.is_some() as u32 + plan.second.is_some() as u32,
        reserved: [0; 4],
    }
}

/// A step under C's names, or zeros.
fn step_record(step: Option<PlanStep>) -> Step {
    match step {
        Some(step) => Step {
            at: optional_register(Ok(Some(step.register))),
            mask: step.mask,
            value: step.value,
            width: step.width,
            kind: kind_code(step.kind),
            reserved: [0; 6],
        },
        None => Step { at: optional_register(Ok(None)), mask: 0, value: 0, width: 0, kind: 0, reserved: [0; 6] },
    }
}

/// The number of a step's kind.
fn kind_code(kind: StepKind) -> u8 {
    match kind {
        StepKind::Write => 0,
        StepKind::Wait => 1,
    }
}
