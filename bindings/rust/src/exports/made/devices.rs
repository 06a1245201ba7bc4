// Made by scripts/erase of crates/acpi_c/src/made/devices.rt, where it is proved.
//! Made by scripts/exports of include/zacpi.h, which has what each call does.

use crate::c_devices::console::console;
use crate::c_devices::devices::{graphic, hpet, hpets, timer};
use crate::c_devices::fixed::fixed;
use crate::c_devices::fixed::records::{Console, FixedHardware};
use crate::c_devices::records::{BootGraphic, HpetInfo, PmTimer};
use crate::c_lib::answer::answer;
use crate::c_lib::facs::facs;
use crate::c_lib::records::{Facs, Signature, Source};

/// Returns the fixed hardware of the FADT.
#[unsafe(no_mangle)]
pub extern "C" fn zacpi_1_get_fixed_hardware(
    source: &Source<'_>,
    out: &mut FixedHardware,
    named: &mut Signature,
) -> u32 {
    answer(fixed(source), out, named)
}

/// Returns the FACS of the FADT.
#[unsafe(no_mangle)]
pub extern "C" fn zacpi_1_get_facs(source: &Source<'_>, out: &mut Facs, named: &mut Signature) -> u32 {
    answer(facs(source), out, named)
}

/// Returns the serial console that the firmware used, by the SPCR.
#[unsafe(no_mangle)]
pub extern "C" fn zacpi_1_get_console(source: &Source<'_>, out: &mut Console, named: &mut Signature) -> u32 {
    answer(console(source), out, named)
}

/// Returns the power management timer of the FADT, which counts at 3.579545 MHz (sections 4.8.3.3 and 5.2.9).
#[unsafe(no_mangle)]
pub extern "C" fn zacpi_1_get_pm_timer(source: &Source<'_>, out: &mut PmTimer, named: &mut Signature) -> u32 {
    answer(timer(source), out, named)
}

/// Returns the block of event timers of the HPET (IA-PC HPET Specification).
#[unsafe(no_mangle)]
pub extern "C" fn zacpi_1_get_hpet(source: &Source<'_>, out: &mut HpetInfo, named: &mut Signature) -> u32 {
    answer(hpet(source), out, named)
}

/// Lists the blocks of all HPETs, but those that aren't in memory.
#[unsafe(no_mangle)]
pub extern "C" fn zacpi_1_list_hpets(
    source: &Source<'_>,
    out: *mut HpetInfo,
    out_length: usize,
    count: &mut usize,
    named: &mut Signature,
) -> u32 {
    let out = unsafe { core::slice::from_raw_parts_mut(out, out_length) };
    answer(hpets(source, out), count, named)
}

/// Returns the image that the firmware showed, by the BGRT (section 5.2.22).
#[unsafe(no_mangle)]
pub extern "C" fn zacpi_1_get_boot_graphic(source: &Source<'_>, out: &mut BootGraphic, named: &mut Signature) -> u32 {
    answer(graphic(source), out, named)
}
