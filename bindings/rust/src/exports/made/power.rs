// Made by scripts/erase of crates/acpi_c/src/made/power.rt, where it is proved.
//! Made by scripts/exports of include/zacpi.h, which has what each call does.

use crate::c_devices::power::records::{Plan, SleepTypes};
use crate::c_devices::power::{enable_plan, power_off_plan, reset_plan, sleep_plan, sleep_types};
use crate::c_lib::answer::answer;
use crate::c_lib::records::{Signature, Source};

/// Returns the sleep types of S0 to S5, each as a byte, from the first of the DSDT and the SSDTs that contains the
/// state's package.
#[unsafe(no_mangle)]
pub extern "C" fn zacpi_1_get_sleep_types(
    source: &Source<'_>,
    state: u32,
    out: &mut SleepTypes,
    named: &mut Signature,
) -> u32 {
    answer(sleep_types(source, state), out, named)
}

/// Returns what to write to enter a sleep state (section 16.1).
#[unsafe(no_mangle)]
pub extern "C" fn zacpi_1_get_sleep_plan(
    source: &Source<'_>,
    state: u32,
    out: &mut Plan,
    named: &mut Signature,
) -> u32 {
    answer(sleep_plan(source, state), out, named)
}

/// Returns what to write to power the machine off, what zacpi_get_sleep_plan returns for S5.
#[unsafe(no_mangle)]
pub extern "C" fn zacpi_1_get_power_off_plan(source: &Source<'_>, out: &mut Plan, named: &mut Signature) -> u32 {
    answer(power_off_plan(source), out, named)
}

/// Returns what to write to reset the machine.
#[unsafe(no_mangle)]
pub extern "C" fn zacpi_1_get_reset_plan(source: &Source<'_>, out: &mut Plan, named: &mut Signature) -> u32 {
    answer(reset_plan(source), out, named)
}

/// Returns what to write to enable ACPI.
#[unsafe(no_mangle)]
pub extern "C" fn zacpi_1_get_enable_plan(source: &Source<'_>, out: &mut Plan, named: &mut Signature) -> u32 {
    answer(enable_plan(source), out, named)
}
