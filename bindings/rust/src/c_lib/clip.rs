// Made by scripts/erase of crates/acpi_c_lib/src/clip.rt, where it is proved.
//! Ranges of memory in order: as a firmware's memory map lists them, some of them left out, and clipped to a window.

use crate::c_lib::lists::put;
use crate::c_lib::order::put_in_order;
use crate::c_lib::records::Range;
use crate::c_lib::refusal::Refusal;

/// Ranges that each begin where the one before ends, or after it: a place is searched by halves.
#[derive(Clone, Copy, Debug)]
struct Ranges<'k> {
    all: &'k [Range],
}

/// The ranges that are wanted, those to leave out, and the window.
#[derive(Clone, Copy, Debug)]
struct Wanted<'k> {
    ranges: Ranges<'k>,
    without: Ranges<'k>,
    window: Range,
}

/// Lists the memory that ranges hold in a window, without some that are left out, in order. Both lists are put in order
/// first, in place.
pub fn clip_ranges(
    ranges: &mut [Range],
    without: &mut [Range],
    window: &Range,
    out: &mut [Range],
    count: &mut usize,
) -> u32 {
    if !(all_fit(ranges) && all_fit(without) && fits(window)) {
        return Refusal::RangeTooHigh.code();
    }
    put_in_order(ranges);
    put_in_order(without);
    let wanted = Wanted { ranges: Ranges::new(ranges), without: Ranges::new(without), window: *window };
    *count = fill(wanted, out);
    0
}

/// Whether the address after a range's last byte is 2^64 - 1 at most.
fn fits(range: &Range) -> bool {
    range.length <= u64::MAX - range.address
}

/// Whether the address after the last byte of each range is 2^64 - 1 at most.
fn all_fit(ranges: &[Range]) -> bool {
    ranges.iter().all(|range| fits(range))
}

/// Whether a range holds an address.
fn holds(range: &Range, address: u64) -> bool {
    range.address <= address && address - range.address < range.length
}

/// Whether one of several ranges holds an address.
fn any_holds(ranges: &[Range], address: u64) -> bool {
    ranges.iter().any(|range| holds(range, address))
}

/// The next address after this one at which a range begins or has ended, or the limit if that comes before.
fn change_of(range: &Range, address: u64, limit: u64) -> u64 {
    if address < range.address {
        return range.address.min(limit);
    }
    match range.address.checked_add(range.length) {
        Some(end) if address < end => end.min(limit),
        _ => limit,
    }
}

/// The next address after this one at which one of several ranges begins or has ended, or the limit if that comes
/// before.
fn change_in(ranges: &[Range], address: u64, limit: u64) -> u64 {
    ranges.iter().fold(limit, |first, range| change_of(range, address, first))
}

impl<'k> Ranges<'k> {
    /// Ranges that are in order.
    fn new(all: &'k [Range]) -> Ranges<'k> {
        Ranges { all }
    }

    /// Those that matter at an address: the last that begins there or before, and the next.
    fn near(self, address: u64) -> &'k [Range] {
        let after = self.all.partition_point(|range| range.address <= address);
        let first = after.saturating_sub(1);
        if after < self.all.len() { &self.all[first..after + 1] } else { &self.all[first..] }
    }

    /// Whether one of them holds an address.
    fn hold(self, address: u64) -> bool {
        any_holds(self.near(address), address)
    }

    /// The next address after this one at which one of them begins or has ended, or the limit if that comes before.
    fn change(self, address: u64, limit: u64) -> u64 {
        change_in(self.near(address), address, limit)
    }
}

impl Wanted<'_> {
    /// Whether a byte is one that is wanted.
    fn has(self, address: u64) -> bool {
        holds(&self.window, address) && self.ranges.hold(address) && !self.without.hold(address)
    }

    /// The next address after one at which that may change.
    fn change(self, address: u64) -> u64 {
        let limit = change_of(&self.window, address, u64::MAX);
        let limit = self.without.change(address, limit);
        self.ranges.change(address, limit)
    }

    /// The next address from one on at which a byte is wanted, or isn't, or an address after the window.
    fn next(self, from: u64, is_asked: bool) -> u64 {
        let end = self.window.address + self.window.length;
        let mut at = from;
        while at < end && self.has(at) != is_asked {
            at = self.change(at);
        }
        at
    }
}

/// The memory that is wanted, in order.
fn fill(wanted: Wanted<'_>, out: &mut [Range]) -> usize {
    let end = wanted.window.address + wanted.window.length;
    let mut count = 0;
    let mut address = wanted.next(0, true);
    while address < end {
        let next = wanted.next(address, false);
        let length = next - address;
        put(out, count, Range { address, length });
        count += 1;
        address = wanted.next(next, true);
    }
    count
}
