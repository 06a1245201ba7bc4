// Made by scripts/erase of crates/acpi_c_lib/src/candidates.rt, where it is proved.
//! What isn't mapped of the RSDPs that a search comes to (section 5.2.5.1): each is tried as the search tries it.

use crate::acpi::rsdp::{Rsdp, bios_areas, map_accepted_rsdp};
use crate::acpi::{AcpiError, AcpiHandler, AddressRange, PhysicalMapping};
use crate::c_lib::missing::{is_lent, put_pair, range, second_range};
use crate::c_lib::opening::{ebda, ebda_segment};
use crate::c_lib::records::{Range, Source};

/// Candidates of a search: the address of the first, and how many there are, 16 bytes apart.
#[derive(Clone, Copy, Debug)]
struct Candidates {
    first: u64,
    count: u64,
}

/// The candidates of a search's two areas: it comes to the second's if none of the first's is valid.
#[derive(Clone, Copy, Debug)]
struct Areas {
    first: Candidates,
    second: Candidates,
}

/// Writes what isn't mapped of the candidates of a source's search, and returns the number of these ranges.
pub(crate) fn candidate_missing_ranges<H: AcpiHandler>(handler: &H, source: &Source<'_>, out: &mut [Range]) -> usize {
    let areas = areas_of(handler, source);
    let (count, is_found) = walk(handler, areas.first, source.accept, out, 0);
    if is_found {
        return count;
    }
    walk(handler, areas.second, source.accept, out, count).0
}

/// The candidates of a source's search. Another start has none.
fn areas_of<H: AcpiHandler>(handler: &H, source: &Source<'_>) -> Areas {
    match source.start {
        3 => pieces(handler),
        4 => {
            let [first, second] = bios_areas(ebda(handler));
            Areas { first: stretch(first), second: stretch(second) }
        }
        _ => no_areas(),
    }
}

fn no_areas() -> Areas {
    let none = Candidates { first: 0, count: 0 };
    Areas { first: none, second: none }
}

/// The candidates of the search that maps the word at 0x40e, and then each area in one piece with 16 bytes after it.
fn pieces<H: AcpiHandler>(handler: &H) -> Areas {
    let Ok(word) = ebda_segment(handler) else {
        return no_areas();
    };
    if !is_lent(handler, 0xe0000, 0x20010) {
        return no_areas();
    }
    let second = second_range(word);
    let is_second = is_lent(handler, second.address, second.length as u32);
    Areas {
        first: Candidates { first: 0xe0000, count: 0x1fff },
        second: Candidates { first: second.address, count: if is_second { (second.length - 20) / 16 } else { 0 } },
    }
}

/// The candidates of an area as far as it is mapped.
fn stretch(area: AddressRange) -> Candidates {
    Candidates { first: area.address, count: u64::saturating_sub(area.length, 4) / 16 }
}

/// Writes what isn't mapped of candidates from an index on, up to the first that the bits of `accept` accept. Returns
/// the next index, and whether there is one.
fn walk<H: AcpiHandler>(
    handler: &H,
    candidates: Candidates,
    accept: u32,
    out: &mut [Range],
    from: usize,
) -> (usize, bool) {
    let mut next = from;
    let mut address = candidates.first;
    let mut left = candidates.count;
    while left > 0 {
        match try_candidate(handler, address, accept) {
            Ok(()) => return (next, true),
            Err(missing_range) => next = put_pair((missing_range, None), out, next),
        }
        address += 16;
        left -= 1;
    }
    (next, false)
}

/// Tries a candidate: whether it is accepted, or else the range that its Length covers, if its first 36 bytes are
/// mapped and that range isn't.
fn try_candidate<H: AcpiHandler>(handler: &H, address: u64, accept: u32) -> Result<(), Option<Range>> {
    match map_accepted_rsdp(handler, address, accept) {
        Ok(_rsdp) => Ok(()),
        Err(AcpiError::MapFailed) => Err(length_missing_range(handler, address, accept)),
        Err(_) => Err(None),
    }
}

/// Of an RSDP that isn't mapped, the range that its Length covers, if its first 36 bytes are mapped.
fn length_missing_range<H: AcpiHandler>(handler: &H, address: u64, accept: u32) -> Option<Range> {
    let Ok(rsdp) = PhysicalMapping::<'_, H, Rsdp>::map(handler, address, 36) else {
        return None;
    };
    range_of_length(address, rsdp.length())
}

/// The range of `length` bytes from an address, if there is a length.
fn range_of_length(address: u64, length: Option<u32>) -> Option<Range> {
    match length {
        Some(length) => Some(range(address, length)),
        _ => None,
    }
}
