// Made by scripts/erase of crates/acpi_c/src/made/timers.rt, where it is proved.
//! Made by scripts/exports of include/zacpi.h, which has what each call does.

use crate::c_interrupts::arm::records::{ArmTimers, GtFrame, Watchdog};
use crate::c_interrupts::arm::timer_faults::gtdt_faults;
use crate::c_interrupts::arm::timers::{arm_timers, frames, watchdogs};
use crate::c_lib::answer::answer;
use crate::c_lib::entry_faults::EntryFault;
use crate::c_lib::records::{Signature, Source};

/// Returns the timers of every processor.
#[unsafe(no_mangle)]
pub extern "C" fn zacpi_1_get_arm_timers(source: &Source<'_>, out: &mut ArmTimers, named: &mut Signature) -> u32 {
    answer(arm_timers(source), out, named)
}

/// Lists the frames that are in their GT Blocks, up to where no structure begins; below revision 2 none.
#[unsafe(no_mangle)]
pub extern "C" fn zacpi_1_list_gt_frames(
    source: &Source<'_>,
    out: *mut GtFrame,
    out_length: usize,
    count: &mut usize,
    named: &mut Signature,
) -> u32 {
    let out = unsafe { core::slice::from_raw_parts_mut(out, out_length) };
    answer(frames(source, out), count, named)
}

/// Lists the Arm Generic Watchdogs, up to where no structure begins; below revision 2 none.
#[unsafe(no_mangle)]
pub extern "C" fn zacpi_1_list_watchdogs(
    source: &Source<'_>,
    out: *mut Watchdog,
    out_length: usize,
    count: &mut usize,
    named: &mut Signature,
) -> u32 {
    let out = unsafe { core::slice::from_raw_parts_mut(out, out_length) };
    answer(watchdogs(source, out), count, named)
}

/// Lists where none begins: of each GT Block with frames that aren't in it, no frame, after the frames that are or else
/// at GT Block Timer Offset, at most at the block's end; and last, if structures are missing, no structure, after the
/// structures before or else at Platform Timer Offset, at most at the table's end. entry_type is 0 if Platform Timer
/// Offset is below 96.
#[unsafe(no_mangle)]
pub extern "C" fn zacpi_1_list_gtdt_faults(
    source: &Source<'_>,
    out: *mut EntryFault,
    out_length: usize,
    count: &mut usize,
    named: &mut Signature,
) -> u32 {
    let out = unsafe { core::slice::from_raw_parts_mut(out, out_length) };
    answer(gtdt_faults(source, out), count, named)
}
