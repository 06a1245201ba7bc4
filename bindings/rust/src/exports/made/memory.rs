// Made by scripts/erase of crates/acpi_c/src/made/memory.rt, where it is proved.
//! Made by scripts/exports of include/zacpi.h, which has what each call does.

use crate::c_lib::answer::answer_plain;
use crate::c_lib::clip::clip_ranges;
use crate::c_lib::records::{Place, Range};
use crate::c_lib::regions::{Region, locate};

/// Lists the ranges to make regions of, from ranges in any order: sorted, joined where they overlap or touch, clipped
/// to `window`, without what is in `without` (the kernel's image, and whatever is written while calls run), and none
/// empty.
#[unsafe(no_mangle)]
pub extern "C" fn zacpi_1_clip_ranges(
    ranges: *mut Range,
    ranges_length: usize,
    without: *mut Range,
    without_length: usize,
    window: &Range,
    out: *mut Range,
    out_length: usize,
    count: &mut usize,
) -> u32 {
    let ranges = unsafe { core::slice::from_raw_parts_mut(ranges, ranges_length) };
    let without = unsafe { core::slice::from_raw_parts_mut(without, without_length) };
    let out = unsafe { core::slice::from_raw_parts_mut(out, out_length) };
    clip_ranges(ranges, without, window, out, count)
}

/// Returns where memory is in the regions: the byte at `address` is regions[region].bytes[offset], and `length` bytes
/// from there on are in that region.
#[unsafe(no_mangle)]
pub extern "C" fn zacpi_1_locate(
    regions: *const Region<'_>,
    regions_length: usize,
    address: u64,
    length: u64,
    out: &mut Place,
) -> u32 {
    let regions = unsafe { core::slice::from_raw_parts(regions, regions_length) };
    answer_plain(locate(regions, address, length), out)
}
