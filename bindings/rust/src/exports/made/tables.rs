// Made by scripts/erase of crates/acpi_c/src/made/tables.rt, where it is proved.
//! Made by scripts/exports of include/zacpi.h, which has what each call does.

use crate::c_lib::answer::{answer, answer_plain};
use crate::c_lib::copied::start_of_rsdp;
use crate::c_lib::entries::table_entries;
use crate::c_lib::faults::faults;
use crate::c_lib::members::members;
use crate::c_lib::missing::missing;
use crate::c_lib::opening::root;
use crate::c_lib::records::{AmlTable, Entry, Fault, Member, Range, Root, Rsdp, Signature, Source, Table, Walk};
use crate::c_lib::rsdp::rsdp;
use crate::c_lib::tables::{dsdt, find, ssdts, table_there, tables};
use crate::c_lib::walks::{nth, ranges};

/// Makes the root table that a copy of the RSDP points to (multiboot2's tags 14 and 15) the start of `source`, whose
/// regions and `accept` stay.
#[unsafe(no_mangle)]
pub extern "C" fn zacpi_1_start_of_rsdp(copy: *const u8, copy_length: usize, source: &mut Source<'_>) -> u32 {
    let copy = unsafe { core::slice::from_raw_parts(copy, copy_length) };
    answer_plain(start_of_rsdp(copy, *source), source)
}

/// Returns the root table (sections 5.2.7 and 5.2.8).
#[unsafe(no_mangle)]
pub extern "C" fn zacpi_1_open(source: &Source<'_>, out: &mut Root, named: &mut Signature) -> u32 {
    answer(root(source), out, named)
}

/// Returns the RSDP of a start (section 5.2.5.3), whatever is at its addresses: with each of these as a start,
/// zacpi_list_members returns what that root table lists.
#[unsafe(no_mangle)]
pub extern "C" fn zacpi_1_get_rsdp(source: &Source<'_>, out: &mut Rsdp, named: &mut Signature) -> u32 {
    answer(rsdp(source), out, named)
}

/// Lists the memory that the tables still need and no one region contains (C.md).
#[unsafe(no_mangle)]
pub extern "C" fn zacpi_1_list_missing_ranges(
    source: &Source<'_>,
    out: *mut Range,
    out_length: usize,
    count: &mut usize,
    named: &mut Signature,
) -> u32 {
    let out = unsafe { core::slice::from_raw_parts_mut(out, out_length) };
    answer(missing(source, out), count, named)
}

/// Lists the members of the root table that are valid under their own signatures, with repeats (sections 5.2.6 to
/// 5.2.8).
#[unsafe(no_mangle)]
pub extern "C" fn zacpi_1_list_tables(
    source: &Source<'_>,
    out: *mut Table,
    out_length: usize,
    count: &mut usize,
    named: &mut Signature,
) -> u32 {
    let out = unsafe { core::slice::from_raw_parts_mut(out, out_length) };
    answer(tables(source, out), count, named)
}

/// Lists what each pointer of the root table points to, also if that is no valid table (sections 5.2.6 to 5.2.8):
/// zacpi_list_tables returns those of status 0.
#[unsafe(no_mangle)]
pub extern "C" fn zacpi_1_list_members(
    source: &Source<'_>,
    out: *mut Member,
    out_length: usize,
    count: &mut usize,
    named: &mut Signature,
) -> u32 {
    let out = unsafe { core::slice::from_raw_parts_mut(out, out_length) };
    answer(members(source, out), count, named)
}

/// Returns the first valid table of the wanted signature (section 5.2.6), whose fields aren't checked.
#[unsafe(no_mangle)]
pub extern "C" fn zacpi_1_find_table(
    source: &Source<'_>,
    name: Signature,
    out: &mut Table,
    named: &mut Signature,
) -> u32 {
    answer(find(source, name), out, named)
}

/// Returns the header of the table at an address, listed or not, as the root table's or the DSDT's; `start` isn't
/// looked at.
#[unsafe(no_mangle)]
pub extern "C" fn zacpi_1_get_table(source: &Source<'_>, address: u64, out: &mut Table, named: &mut Signature) -> u32 {
    answer(table_there(source, address), out, named)
}

/// Returns the `index`-th valid table of the wanted signature, from 0 on (section 5.2.6).
#[unsafe(no_mangle)]
pub extern "C" fn zacpi_1_find_nth_table(
    source: &Source<'_>,
    name: Signature,
    index: usize,
    out: &mut Table,
    named: &mut Signature,
) -> u32 {
    answer(nth(source, name, index), out, named)
}

/// Lists the entries of the table at address `table`, listed or not, by a walk of its kind; `start` isn't looked at.
#[unsafe(no_mangle)]
pub extern "C" fn zacpi_1_list_entries(
    source: &Source<'_>,
    address: u64,
    walk: &Walk,
    out: *mut Entry,
    out_length: usize,
    count: &mut usize,
    malformed: &mut u8,
    named: &mut Signature,
) -> u32 {
    let out = unsafe { core::slice::from_raw_parts_mut(out, out_length) };
    answer(table_entries(source, address, *walk, out, malformed), count, named)
}

/// Lists the members of the root table that a lookup of the wanted signature, by a call that needs its fixed fields,
/// skips for a reason other than their Signature, up to the one that it finds, and last that one if only `accept` lets
/// it find it (section 5.2.6).
#[unsafe(no_mangle)]
pub extern "C" fn zacpi_1_list_faults(
    source: &Source<'_>,
    name: Signature,
    out: *mut Fault,
    out_length: usize,
    count: &mut usize,
    named: &mut Signature,
) -> u32 {
    let out = unsafe { core::slice::from_raw_parts_mut(out, out_length) };
    answer(faults(source, name, out), count, named)
}

/// Returns the AML of the DSDT that the FADT names (sections 5.2.9 and 5.2.11.1).
#[unsafe(no_mangle)]
pub extern "C" fn zacpi_1_get_dsdt(source: &Source<'_>, out: &mut AmlTable, named: &mut Signature) -> u32 {
    answer(dsdt(source), out, named)
}

/// Lists the AML of each valid SSDT (section 5.2.11.2).
#[unsafe(no_mangle)]
pub extern "C" fn zacpi_1_list_ssdts(
    source: &Source<'_>,
    out: *mut AmlTable,
    out_length: usize,
    count: &mut usize,
    named: &mut Signature,
) -> u32 {
    let out = unsafe { core::slice::from_raw_parts_mut(out, out_length) };
    answer(ssdts(source, out), count, named)
}

/// Lists the memory of the tables, which is to be kept: of the RSDP, the root table, each listed table that is valid
/// under its own signature, and the DSDT and FACS that zacpi_get_dsdt and zacpi_get_facs return (sections 5.2.5 to
/// 5.2.11).
#[unsafe(no_mangle)]
pub extern "C" fn zacpi_1_list_ranges(
    source: &Source<'_>,
    out: *mut Range,
    out_length: usize,
    count: &mut usize,
    named: &mut Signature,
) -> u32 {
    let out = unsafe { core::slice::from_raw_parts_mut(out, out_length) };
    answer(ranges(source, out), count, named)
}
