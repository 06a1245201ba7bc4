// Made by scripts/erase of crates/acpi_c/src/made/riscv.rt, where it is proved.
//! Made by scripts/exports of include/zacpi.h, which has what each call does.

use crate::c_interrupts::riscv::{riscv_entries, riscv_entries_from};
use crate::c_lib::answer::answer;
use crate::c_lib::records::{Signature, Source};
use crate::riscv::{Aplic, Imsic, Plic, Rintc};

/// Each lists the MADT's entries of one Type, up to where none begins, since Length is above the bytes left or below
/// the least of its Type (at ZACPI_NO_APICS). zacpi_list_madt_faults lists the skipped ones, with
/// ZACPI_SHORT_RISCV_ENTRY.
#[unsafe(no_mangle)]
pub extern "C" fn zacpi_1_list_rintcs(
    source: &Source<'_>,
    out: *mut Rintc,
    out_length: usize,
    count: &mut usize,
    named: &mut Signature,
) -> u32 {
    let out = unsafe { core::slice::from_raw_parts_mut(out, out_length) };
    answer(riscv_entries(source, out), count, named)
}

/// Each lists the MADT's entries of one Type, up to where none begins, since Length is above the bytes left or below
/// the least of its Type (at ZACPI_NO_APICS). zacpi_list_madt_faults lists the skipped ones, with
/// ZACPI_SHORT_RISCV_ENTRY.
#[unsafe(no_mangle)]
pub extern "C" fn zacpi_1_list_imsics(
    source: &Source<'_>,
    out: *mut Imsic,
    out_length: usize,
    count: &mut usize,
    named: &mut Signature,
) -> u32 {
    let out = unsafe { core::slice::from_raw_parts_mut(out, out_length) };
    answer(riscv_entries(source, out), count, named)
}

/// Each lists the MADT's entries of one Type, up to where none begins, since Length is above the bytes left or below
/// the least of its Type (at ZACPI_NO_APICS). zacpi_list_madt_faults lists the skipped ones, with
/// ZACPI_SHORT_RISCV_ENTRY.
#[unsafe(no_mangle)]
pub extern "C" fn zacpi_1_list_aplics(
    source: &Source<'_>,
    out: *mut Aplic,
    out_length: usize,
    count: &mut usize,
    named: &mut Signature,
) -> u32 {
    let out = unsafe { core::slice::from_raw_parts_mut(out, out_length) };
    answer(riscv_entries(source, out), count, named)
}

/// Each lists the MADT's entries of one Type, up to where none begins, since Length is above the bytes left or below
/// the least of its Type (at ZACPI_NO_APICS). zacpi_list_madt_faults lists the skipped ones, with
/// ZACPI_SHORT_RISCV_ENTRY.
#[unsafe(no_mangle)]
pub extern "C" fn zacpi_1_list_plics(
    source: &Source<'_>,
    out: *mut Plic,
    out_length: usize,
    count: &mut usize,
    named: &mut Signature,
) -> u32 {
    let out = unsafe { core::slice::from_raw_parts_mut(out, out_length) };
    answer(riscv_entries(source, out), count, named)
}

/// Lists the items of zacpi_list_rintcs from the `from`-th on, from 0 on; `count` is of all.
#[unsafe(no_mangle)]
pub extern "C" fn zacpi_1_list_rintcs_from(
    source: &Source<'_>,
    from: usize,
    out: *mut Rintc,
    out_length: usize,
    count: &mut usize,
    named: &mut Signature,
) -> u32 {
    let out = unsafe { core::slice::from_raw_parts_mut(out, out_length) };
    answer(riscv_entries_from(source, from, out), count, named)
}
