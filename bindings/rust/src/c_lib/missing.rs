// Made by scripts/erase of crates/acpi_c_lib/src/missing.rt, where it is proved.
//! The ranges of memory that a caller has to map before the calls can read all tables.

use crate::acpi::fadt::FadtView;
use crate::acpi::rsdp::{Rsdp, second_area};
use crate::acpi::sdt::{SdtHeader, Signature};
use crate::acpi::{AcpiError, AcpiHandler, PhysicalMapping, PhysicalRecord, Pointers, facs_length};
use crate::base::table::{own_valid_by, valid_by};
use crate::c_lib::candidates::candidate_missing_ranges;
use crate::c_lib::lists::{Listing, fill_from, put};
use crate::c_lib::opening::{check_policy, find_fadt, open, root_pointer};
use crate::c_lib::records::{Range, Source};
use crate::c_lib::refusal::Refusal;
use crate::c_lib::regions::Mapped;

/// Lists the ranges of memory that a caller has to map before all tables can be read.
pub fn missing(source: &Source<'_>, out: &mut [Range]) -> Result<usize, Refusal> {
    let memory = Mapped::new(source.regions)?;
    check_policy(source)?;
    let from = candidate_missing_ranges(&memory, source, out);
    others(&memory, source, out, from)
}

/// Writes the ranges that aren't of a search's candidates, from an index on, and returns the next index.
fn others<H: AcpiHandler>(handler: &H, source: &Source<'_>, out: &mut [Range], from: usize) -> Result<usize, Refusal> {
    match open(handler, source) {
        Ok(tables) => {
            let dsdt_and_facs = match find_fadt(&tables) {
                Ok(fadt) => (dsdt_missing_range(handler, source.accept, &fadt), facs_missing_range(handler, &fadt)),
                Err(_) => (None, None),
            };
            let accept = source.accept;
            Ok(fill_with(tables.addresses(), &Unmapped { handler, accept }, dsdt_and_facs, out, from))
        }
        Err(Refusal::Acpi(_)) => {
            let refused = opening_missing_range(handler, source);
            Ok(put_pair((refused, None), out, from))
        }
        Err(refusal) => Err(refusal),
    }
}

/// Writes the ranges of a walk's items, and then a pair of ranges, from an index on, and returns the next index.
pub(crate) fn fill_with<C, W: Listing<C, Range>>(
    walk: W,
    known: &C,
    others: (Option<Range>, Option<Range>),
    out: &mut [Range],
    from: usize,
) -> usize {
    let count = fill_from(walk, known, out, from);
    put_pair(others, out, count)
}

/// The memory in which tables are looked up, and what is accepted of them, to list what isn't mapped.
#[derive(Debug)]
struct Unmapped<'h, H: AcpiHandler> {
    handler: &'h H,
    accept: u32,
}

impl<H: AcpiHandler> Listing<Unmapped<'_, H>, Range> for Pointers<'_> {
    /// The unmapped range because of which a member of the root table fails.
    fn record(known: &Unmapped<'_, H>, address: u64) -> Option<Range> {
        match own_valid_by(known.handler, address, known.accept) {
            Err(AcpiError::MapFailed) => Some(table_missing_range(known.handler, address)),
            Err(_) => None,
            Ok(table) => {
                table.mapping::<SdtHeader>();
                None
            }
        }
    }
}

/// Writes the ranges of a pair that are there, from an index on, and returns the next index.
pub(crate) fn put_pair(pair: (Option<Range>, Option<Range>), out: &mut [Range], from: usize) -> usize {
    let mut count = from;
    if let Some(range) = pair.0 {
        put(out, count, range);
        count += 1;
    }
    if let Some(range) = pair.1 {
        put(out, count, range);
        count += 1;
    }
    count
}

/// The range of `length` bytes from an address.
pub(crate) fn range(address: u64, length: u32) -> Range {
    Range { address, length: length as u64 }
}

/// Whether `length` bytes from an address are mapped, of which there are at least two.
pub(crate) fn is_lent<H: AcpiHandler>(handler: &H, address: u64, length: u32) -> bool {
    PhysicalMapping::<'_, H, u16>::map(handler, address, length as usize).is_ok()
}

/// The unmapped range of a table of any signature: its header, or the bytes of the header's Length (section 5.2.6).
fn table_missing_range<H: AcpiHandler>(handler: &H, address: u64) -> Range {
    match PhysicalMapping::<'_, H, SdtHeader>::map(handler, address, 36) {
        Ok(head) => range(address, head.length),
        Err(_) => range(address, 36),
    }
}

/// The unmapped range because of which the table at an address fails under a signature.
fn missing_range_at<H: AcpiHandler>(handler: &H, accept: u32, address: u64, signature: Signature) -> Option<Range> {
    match valid_by(handler, address, signature, SdtHeader::MIN_LENGTH, accept) {
        Err(AcpiError::MapFailed) => Some(table_missing_range(handler, address)),
        Err(_) => None,
        Ok(table) => {
            table.mapping::<SdtHeader>();
            None
        }
    }
}

/// The unmapped range because of which the DSDT that a FADT points to fails (section 5.2.11.1).
fn dsdt_missing_range<H: AcpiHandler>(handler: &H, accept: u32, fadt: &FadtView<'_, H>) -> Option<Range> {
    missing_range_at(handler, accept, fadt.dsdt_address().ok()?, Signature::DSDT)
}

/// The unmapped range because of which the FACS that a FADT points to fails: its first 36 bytes, or the bytes of its
/// Length (section 5.2.10).
fn facs_missing_range<H: AcpiHandler>(handler: &H, fadt: &FadtView<'_, H>) -> Option<Range> {
    let address = fadt.facs_address().ok()?;
    let Ok(head) = PhysicalMapping::<'_, H, SdtHeader>::map(handler, address, 36) else {
        return Some(range(address, 36));
    };
    let length = facs_length(head.signature, head.length).ok()?;
    if is_lent(handler, address, length) {
        return None;
    }
    Some(range(address, length))
}

/// The unmapped range because of which opening fails: the root table, or what is to point to it.
fn opening_missing_range<H: AcpiHandler>(handler: &H, source: &Source<'_>) -> Option<Range> {
    match root_pointer(handler, source) {
        Ok((root, _)) => missing_range_at(handler, source.accept, root.address, root.kind.signature()),
        Err(Refusal::Acpi(AcpiError::MapFailed)) => rsdp_missing_range(handler, source),
        Err(_) => None,
    }
}

/// The unmapped range because of which the RSDP fails, or the search for it that needs its areas mapped whole
/// (sections 5.2.5.1 and 5.2.5.3).
fn rsdp_missing_range<H: AcpiHandler>(handler: &H, source: &Source<'_>) -> Option<Range> {
    match source.start {
        0 => Some(own_missing_range(handler, source.address, source.accept)),
        3 => Some(search_missing_range(handler, source.accept)),
        _ => None,
    }
}

/// The unmapped range because of which the RSDP at an address fails: its first 36 bytes, or the bytes of its Length
/// (section 5.2.5.3).
fn own_missing_range<H: AcpiHandler>(handler: &H, address: u64, accept: u32) -> Range {
    let length = match PhysicalMapping::<'_, H, Rsdp>::map(handler, address, 36) {
        Ok(rsdp) => rsdp.length(),
        Err(_) => None,
    };
    range(address, length.unwrap_or(36))
}

/// The unmapped range because of which the search fails: the word at 0x40e, which is the segment of the extended BIOS
/// data area (EBDA), or the first area, 0xe0000..0x100000, or the second one, each with 16 bytes after it (section
/// 5.2.5.1).
fn search_missing_range<H: AcpiHandler>(handler: &H, accept: u32) -> Range {
    let Ok(word) = PhysicalMapping::<'_, H, u16>::map(handler, 0x40e, 2) else {
        return range(0x40e, 2);
    };
    if !is_lent(handler, 0xe0000, 0x20010) {
        return range(0xe0000, 0x20010);
    }
    second_range(*word.get())
}

/// The area that a search looks at second, with the 16 bytes after it (section 5.2.5.1).
pub(crate) fn second_range(word: u16) -> Range {
    let area = second_area(word);
    range(area.start, (area.end - area.start + 16) as u32)
}
