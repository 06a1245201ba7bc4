// Made by scripts/erase of crates/acpi_c_lib/src/entries.rt, where it is proved.
//! The entries of any table, which have Type and Length at places that a walk names.

use crate::acpi::AcpiError;
use crate::acpi::sdt::SdtHeader;
use crate::base::bytes::skip;
use crate::base::entries::{EntryLayout, Grammar, Place, Width, number_at, split_front};
use crate::base::table::own_valid_by;
use crate::c_lib::lists::put;
use crate::c_lib::opening::check_policy;
use crate::c_lib::records::{Entry, Source, Walk};
use crate::c_lib::refusal::Refusal;
use crate::c_lib::regions::Mapped;

/// Lists the entries of the table at an address, by a walk, and whether bytes are left after them. Of a source only
/// the regions and what it accepts count.
pub fn table_entries(
    source: &Source<'_>,
    address: u64,
    walk: Walk,
    out: &mut [Entry],
    malformed: &mut u8,
) -> Result<usize, Refusal> {
    let memory = Mapped::new(source.regions)?;
    check_policy(source)?;
    let layout = walk_layout(walk)?;
    let table = own_valid_by(&memory, address, source.accept)?.mapping::<SdtHeader>();
    let bytes = table.bytes();
    let first = walk.first as usize;
    if bytes.len() < first {
        return Err(Refusal::Acpi(AcpiError::SdtInvalidLength(table.signature)));
    }
    let (count, rest) = fill(layout, skip(bytes, first), address + first as u64, out);
    *malformed = !rest.is_empty() as u8;
    Ok(count)
}

fn width_of_bytes(bytes: u8) -> Result<Width, Refusal> {
    match bytes {
        1 => Ok(Width::One),
        2 => Ok(Width::Two),
        4 => Ok(Width::Four),
        _ => Err(Refusal::UnknownWidth),
    }
}

fn number_place(offset: u8, bytes: u8) -> Result<Place, Refusal> {
    let width = width_of_bytes(bytes)?;
    Ok(Place { at: offset, width })
}

/// Where Type and Length are in each entry of a walk.
///
/// Fails with `UnknownWidth` if one of these hasn't 1, 2 or 4 bytes.
fn walk_layout(walk: Walk) -> Result<EntryLayout<0>, Refusal> {
    Ok(EntryLayout {
        kind_place: number_place(walk.type_offset, walk.type_width)?,
        length_place: number_place(walk.length_offset, walk.length_width)?,
        least_lengths: [],
        least_of_others: 0,
    })
}

/// Writes the entries of bytes at an address, and returns the number of entries, and the bytes after them.
fn fill<'a>(layout: EntryLayout<0>, bytes: &'a [u8], address: u64, out: &mut [Entry]) -> (usize, &'a [u8]) {
    let grammar = Grammar { layout, most: None };
    let mut rest = bytes;
    let mut at = address;
    let mut count = 0;
    while let Some((entry, others)) = split_front(&grammar, rest) {
        put(out, count, entry_record(&grammar.layout, at, entry));
        at += entry.len() as u64;
        rest = others;
        count += 1;
    }
    (count, rest)
}

/// An entry at an address.
fn entry_record(layout: &EntryLayout<0>, address: u64, entry: &[u8]) -> Entry {
    Entry { address, entry_type: number_at(layout.kind_place, entry) as u32, length: entry.len() as u32 }
}
