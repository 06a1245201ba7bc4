// Made by scripts/erase of crates/acpi_c/src/made/gic.rt, where it is proved.
//! Made by scripts/exports of include/zacpi.h, which has what each call does.

use crate::c_interrupts::arm::gic::{distributor, parts, parts_from};
use crate::c_interrupts::arm::records::{GicCpuInterface, GicDistributor, GicMsiFrame, GicTranslationService};
use crate::c_lib::answer::answer;
use crate::c_lib::records::{Range, Signature, Source};

/// Returns the distributor of the first GICD.
#[unsafe(no_mangle)]
pub extern "C" fn zacpi_1_get_gic_distributor(
    source: &Source<'_>,
    out: &mut GicDistributor,
    named: &mut Signature,
) -> u32 {
    answer(distributor(source), out, named)
}

/// Lists the GICCs.
#[unsafe(no_mangle)]
pub extern "C" fn zacpi_1_list_gic_cpu_interfaces(
    source: &Source<'_>,
    out: *mut GicCpuInterface,
    out_length: usize,
    count: &mut usize,
    named: &mut Signature,
) -> u32 {
    let out = unsafe { core::slice::from_raw_parts_mut(out, out_length) };
    answer(parts(source, out), count, named)
}

/// Lists the items of zacpi_list_gic_cpu_interfaces from the `from`-th on, from 0 on; `count` is of all.
#[unsafe(no_mangle)]
pub extern "C" fn zacpi_1_list_gic_cpu_interfaces_from(
    source: &Source<'_>,
    from: usize,
    out: *mut GicCpuInterface,
    out_length: usize,
    count: &mut usize,
    named: &mut Signature,
) -> u32 {
    let out = unsafe { core::slice::from_raw_parts_mut(out, out_length) };
    answer(parts_from(source, from, out), count, named)
}

/// Lists the memory that contains redistributors.
#[unsafe(no_mangle)]
pub extern "C" fn zacpi_1_list_gic_redistributors(
    source: &Source<'_>,
    out: *mut Range,
    out_length: usize,
    count: &mut usize,
    named: &mut Signature,
) -> u32 {
    let out = unsafe { core::slice::from_raw_parts_mut(out, out_length) };
    answer(parts(source, out), count, named)
}

/// Lists the ITS entries.
#[unsafe(no_mangle)]
pub extern "C" fn zacpi_1_list_gic_translation_services(
    source: &Source<'_>,
    out: *mut GicTranslationService,
    out_length: usize,
    count: &mut usize,
    named: &mut Signature,
) -> u32 {
    let out = unsafe { core::slice::from_raw_parts_mut(out, out_length) };
    answer(parts(source, out), count, named)
}

/// Lists the GIC MSI Frames.
#[unsafe(no_mangle)]
pub extern "C" fn zacpi_1_list_gic_msi_frames(
    source: &Source<'_>,
    out: *mut GicMsiFrame,
    out_length: usize,
    count: &mut usize,
    named: &mut Signature,
) -> u32 {
    let out = unsafe { core::slice::from_raw_parts_mut(out, out_length) };
    answer(parts(source, out), count, named)
}
