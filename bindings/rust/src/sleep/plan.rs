// Made by scripts/erase of crates/acpi_sleep/src/plan.rt, where it is proved.
//! What to write, and where, to sleep or to power off, to enable ACPI and to reset (sections 4.8.3.2, 4.8.3.6, 4.8.3.7
//! and 16.1). Nothing is written here: a caller has the registers' spaces mapped, and takes the steps in order.
//!
//! Sleep states have methods of AML besides: before the first step an interpreter runs `_TTS` and `_PTS` with the
//! state's number, and `_GTS` where a machine still has it, and after a sleep `_WAK` (section 7.4).

use crate::acpi::Lender;
use crate::acpi::address::{AccessSize, AddressSpace, GenericAddress};
use crate::acpi::fadt::FadtView;
use crate::sleep::error::PlanError;
use crate::sleep::sleep::SleepTypes;

/// What a step does with its register.
#[derive(Clone, Copy, Debug, PartialEq, Eq)]
pub enum StepKind {
    /// It sets the bits of the mask as in the value, and keeps the others: it reads first, unless the mask has
    /// all bits of the register.
    Write,
    /// It reads until the bits of the mask are as in the value.
    Wait,
}

/// A step of a plan.
#[derive(Clone, Copy, Debug, PartialEq, Eq)]
pub struct PlanStep {
    /// The register.
    pub register: GenericAddress,
    /// How many bits of the register are read and written at once, from its first on: 8 or 16.
    pub width: u8,
    /// The bits that the step is about.
    pub mask: u32,
    /// The value of these bits.
    pub value: u32,
    /// What it does with them.
    pub kind: StepKind,
}

/// Steps to take in order: two, one or none.
#[derive(Clone, Copy, Debug, PartialEq, Eq)]
pub struct Plan {
    /// The first step.
    pub first: Option<PlanStep>,
    /// The second one, which there is only after a first.
    pub second: Option<PlanStep>,
}

/// That PM1 control gets a sleep type and SLP_EN (section 4.8.3.2.1).
fn pm1_step(register: GenericAddress, sleep_type: u64) -> PlanStep {
    PlanStep {
        register,
        width: 16,
        mask: 7 * (1 << 10) + (1 << 13),
        value: sleep_type as u32 * (1 << 10) + (1 << 13), // SLP_TYPx, SLP_EN
        kind: StepKind::Write,
    }
}

/// That SLEEP_CONTROL_REG gets a sleep type and SLP_EN (section 4.8.3.7).
fn sleep_control_step(register: GenericAddress, sleep_type: u64) -> PlanStep {
    PlanStep {
        register,
        width: 8,
        mask: 7 * (1 << 2) + (1 << 5),
        value: sleep_type as u32 * (1 << 2) + (1 << 5), // SLP_TYPx, SLP_EN
        kind: StepKind::Write,
    }
}

/// That SCI_EN of PM1 control is set (section 4.8.3.2.1).
fn sci_step(register: GenericAddress) -> PlanStep {
    PlanStep { register, width: 16, mask: 1, value: 1, kind: StepKind::Wait }
}

/// That a register gets a whole byte.
fn byte_step(register: GenericAddress, value: u8) -> PlanStep {
    PlanStep { register, width: 8, mask: 0xFF, value: value as u32, kind: StepKind::Write }
}

/// A port of one byte.
fn port(address: u32) -> GenericAddress {
    GenericAddress {
        address_space: AddressSpace::SystemIo,
        bit_width: 8,
        bit_offset: 0,
        access_size: AccessSize::ByteAccess,
        address: address as u64,
    }
}

/// A register, or an error if its address is 0.
fn unless_zero(error: PlanError, register: GenericAddress) -> Result<GenericAddress, PlanError> {
    if register.address == 0 { Err(error) } else { Ok(register) }
}

/// PM1a_CNT (section 5.2.9).
fn pm1a_control<H: Lender>(fadt: &FadtView<'_, H>) -> Result<GenericAddress, PlanError> {
    unless_zero(PlanError::NoRegister, fadt.pm1a_control_block()?)
}

/// SLEEP_CONTROL_REG (section 5.2.9).
fn sleep_control<H: Lender>(fadt: &FadtView<'_, H>) -> Result<GenericAddress, PlanError> {
    match fadt.sleep_control_register()? {
        Some(register) => unless_zero(PlanError::NoRegister, register),
        None => Err(PlanError::NoRegister),
    }
}

/// Whether a sleep type fits the three bits of SLP_TYPx.
fn fits(sleep_type: u64) -> bool {
    sleep_type <= 7
}

/// Enters the sleep state of these sleep types (section 16.1), or with S5's powers the machine off: SLP_TYP
/// and SLP_EN of PM1a_CNT, and then of PM1b_CNT if the machine has it, each with its own type; on reduced hardware the
/// same of SLEEP_CONTROL_REG, with the type of PM1a_CNT.
///
/// Fails with `BadRegister` for the address of PM1a_CNT, or on reduced hardware of SLEEP_CONTROL_REG, with `NoRegister`
/// if the FADT has no such register, with `BadRegister` for the address of PM1b_CNT, and with `SleepTypeTooHigh` if a
/// type that the plan writes is above 7.
pub fn sleep_plan<H: Lender>(fadt: &FadtView<'_, H>, types: SleepTypes) -> Result<Plan, PlanError> {
    if fadt.flags().system_is_hw_reduced_acpi() {
        let control = sleep_control(fadt)?;
        if !fits(types.a) {
            return Err(PlanError::SleepTypeTooHigh);
        }
        return Ok(Plan { first: Some(sleep_control_step(control, types.a)), second: None });
    }
    let a = pm1a_control(fadt)?;
    let b = fadt.pm1b_control_block()?;
    if !fits(types.a) || (b.is_some() && !fits(types.b)) {
        return Err(PlanError::SleepTypeTooHigh);
    }
    let second = match b {
        Some(b) => Some(pm1_step(b, types.b)),
        None => None,
    };
    Ok(Plan { first: Some(pm1_step(a, types.a)), second })
}

/// Whether a machine is always in ACPI mode (section 5.2.9).
fn is_always_enabled<H: Lender>(fadt: &FadtView<'_, H>) -> bool {
    fadt.flags().system_is_hw_reduced_acpi()
        || fadt.smi_cmd_port() == 0
        || (fadt.acpi_enable() == 0 && fadt.acpi_disable() == 0)
}

/// Enables ACPI: ACPI_ENABLE to the port SMI_CMD, and then until SCI_EN of PM1a_CNT is set (section 4.8.3.2.1). It has
/// no step on a machine that is always in ACPI mode: on reduced hardware, and if SMI_CMD is 0, or ACPI_ENABLE and
/// ACPI_DISABLE both are (section 5.2.9). If SCI_EN is set already, nothing is to be written: a caller looks there, at
/// the register of the second step, before the first.
///
/// Fails as `sleep_plan` does over PM1a_CNT.
pub fn enable_plan<H: Lender>(fadt: &FadtView<'_, H>) -> Result<Plan, PlanError> {
    if is_always_enabled(fadt) {
        return Ok(Plan { first: None, second: None });
    }
    let control = pm1a_control(fadt)?;
    Ok(Plan { first: Some(byte_step(port(fadt.smi_cmd_port()), fadt.acpi_enable())), second: Some(sci_step(control)) })
}

/// Resets the machine (section 4.8.3.6): RESET_VALUE to RESET_REG.
///
/// Fails with `NoReset` if RESET_REG_SUP isn't set, with `BadRegister` if the address of RESET_REG has a reserved code,
/// and with `NoReset` if it is 0.
pub fn reset_plan<H: Lender>(fadt: &FadtView<'_, H>) -> Result<Plan, PlanError> {
    if !fadt.flags().supports_system_reset_via_fadt() {
        return Err(PlanError::NoReset);
    }
    let register = unless_zero(PlanError::NoReset, fadt.reset_register()?)?;
    Ok(Plan { first: Some(byte_step(register, fadt.reset_value())), second: None })
}

/// How many ticks of the power management timer there are from one value of TMR_VAL to a later one, if it went around
/// less than once (section 4.8.3.3): it has 32 bits, or else 24.
pub fn pm_timer_ticks(before: u32, after: u32, is_32_bit: bool) -> u32 {
    let ticks = after.wrapping_sub(before);
    if is_32_bit { ticks } else { ticks % (1 << 24) }
}
