// Made by scripts/erase of crates/acpi_dump_walk/src/walk.rt, where it is proved.
//! A walk over a table by its layout, which shows what there is in the order of the bytes.

mod entry;
mod parts;

use crate::rattle::Pieces;
use crate::rattle::alloc::Global;
use crate::walk::aml::{Ends, Object, show_objects};
use crate::walk::fault::Fault;
use crate::walk::language::{Label, choice_of, next_word, number_of, size, sum_of};
use crate::walk::layouts::{HEADER, layout_of};
use entry::next_entry;
use parts::{Extent, Piece, list_extent, show_fields, show_gap, show_missing, show_start};
use zacpi::PhysicalRecord;
use zacpi::sdt::{SdtHeader, Signature};

/// How deep structures lie in structures at most.
pub const DEEPEST: u32 = 16;

/// A field of a table: its offset in the table, its bytes, its number if it is one of several of its name, and what the
/// layout has of it.
#[derive(Clone, Copy)]
pub struct Field<'a> {
    pub offset: u64,
    pub bytes: &'a [u8],
    pub number: Option<u64>,
    pub label: Label,
}

/// A structure in a table: its offset in the table, its length, its number in its list from 0 on, its
/// name, which is empty if its type isn't known, and its type if it has one.
#[derive(Clone, Copy)]
pub struct Group {
    pub offset: u64,
    pub length: u64,
    pub number: u64,
    pub name: &'static str,
    pub kind: Option<u64>,
}

/// What a walk shows a table to, in the order of the bytes. What it has no function for is skipped.
pub trait Show {
    /// Whether it takes fields. One that only looks for what is malformed doesn't, and of entries of one type whose
    /// fields can't be, it is shown the first of a row alone.
    fn takes_fields(&self) -> bool {
        true
    }

    /// Shows a field.
    fn field(&mut self, _shown: &Field<'_>) {}

    /// Shows bytes at an offset of the table that no field covers.
    fn bytes(&mut self, _offset: u64, _bytes: &[u8]) {}

    /// Shows that a structure begins.
    fn begin(&mut self, _group: &Group) {}

    /// Shows that the structure ends that began last and hasn't ended.
    fn end(&mut self) {}

    /// Shows why bytes from an offset of the table on aren't shown by the layout. The bytes, if there are
    /// some, come next.
    fn malformed(&mut self, _offset: u64, _fault: Fault) {}
}

/// What a walk shows also the objects to that AML defines, in place of its bytes.
pub trait ShowObjects: Show {
    /// Shows an object.
    fn object(&mut self, object: &Object<'_>);

    /// Shows why the objects from an offset of the table on aren't shown.
    fn ends(&mut self, offset: u64, why: Ends);
}

/// Whether tables of a signature have AML after the header (section 5.2.11).
pub fn has_aml(signature: Signature) -> bool {
    signature == Signature::DSDT || signature == Signature::SSDT || signature == Signature::PSDT
}

/// Shows a table by its layout, and in place of the bytes of AML the objects that it defines.
pub fn walk_with_objects<S: ShowObjects>(alloc: Global, signature: Signature, table: &[u8], show: &mut S) {
    if has_aml(signature) && table.len() >= SdtHeader::MIN_LENGTH {
        walk_table(signature, &table[..SdtHeader::MIN_LENGTH], show);
        return show_objects(alloc, table, SdtHeader::MIN_LENGTH, show);
    }
    walk_table(signature, table, show)
}

/// The lines of what a table with this signature begins with: a FACS and an RSDP have no header.
fn head_of(signature: Signature) -> &'static str {
    match signature.as_str() {
        Some("FACS" | "RSD ") => "",
        _ => HEADER,
    }
}

/// Shows a table by its layout.
pub fn walk_table<S: Show>(signature: Signature, table: &[u8], show: &mut S) {
    let (blocks, block) = &layout_of(signature);
    let piece = Piece { base: 0, bytes: table, blocks };
    walk_structure(piece, head_of(signature), block.lines, DEEPEST, show)
}

/// Shows the parts of a structure, and all other bytes of it as they are.
fn walk_structure<S: Show>(piece: Piece<'_>, head: &'static str, lines: &'static str, depth: u32, show: &mut S) {
    if depth == 0 {
        show.malformed(piece.base, Fault::Deep);
        return show.bytes(piece.base, piece.bytes);
    }
    let shown = walk_lines(piece, head, 0, depth - 1, show);
    let shown = walk_lines(piece, lines, shown, depth - 1, show);
    show_gap(piece, shown, piece.bytes.len(), show)
}

/// Shows the parts of a structure that lines describe, of which this many bytes are shown. Returns how
/// many are then.
fn walk_lines<S: Show>(piece: Piece<'_>, lines: &'static str, from: usize, depth: u32, show: &mut S) -> usize {
    let mut shown = from;
    if depth == 0 {
        return shown;
    }
    for line in lines.pieces('\n') {
        match walk_line(piece, line, shown, depth - 1, show) {
            Ok(end) => shown = end,
            Err(fault) => show.malformed(piece.base, fault),
        }
    }
    shown
}

/// Shows what a line describes.
///
/// Fails if that can't be there, or if a word isn't understood.
fn walk_line<S: Show>(
    piece: Piece<'_>,
    line: &'static str,
    shown: usize,
    depth: u32,
    show: &mut S,
) -> Result<usize, Fault> {
    let (word, rest) = next_word(line);
    let start = match word {
        "" => return Ok(shown),
        "if" | "with" | "then" => {
            let (base, from) = if word == "then" { (shown, 0) } else { (0, shown) };
            let lines = chosen_lines(piece, word, rest)?;
            let end = walk_lines(piece.from(base), lines, from, depth, show);
            return Ok(base.saturating_add(end));
        }
        ">" => shown as u64,
        _ => sum_of(word, piece.bytes)?,
    };
    let (length, rest) = next_word(rest);
    let Some(count) = length.strip_prefix('{') else {
        let is_fixed = number_of(word).is_some();
        return show_fields(piece, shown, start, is_fixed, length, rest, show);
    };
    let extent = list_extent(piece.bytes, start, count)?;
    if depth > 0 && show_start(piece, shown, extent, show)? {
        return Ok(walk_list(piece, extent, rest, depth - 1, show));
    }
    Ok(shown)
}

/// Shows the entries of a list, as far as they are there. Returns up to where the structure is shown then.
fn walk_list<S: Show>(piece: Piece<'_>, extent: Extent, how: &'static str, depth: u32, show: &mut S) -> usize {
    let (mut start, mut number) = (size(extent.start), 0u64);
    let end = size(extent.end);
    let mut known = None; // the type of entries that need not be shown again
    if depth == 0 {
        return start;
    }
    'entries: while start < end && extent.is_more(number) {
        let offset = piece.at(start);
        let rest = piece.bytes.get(start..end).unwrap_or(&[]);
        let entry = match next_entry(piece, rest, how) {
            Ok(entry) => entry,
            Err(fault) => {
                show.malformed(offset, fault);
                show.bytes(offset, rest);
                return end;
            }
        };
        let length = entry.length as u64;
        if known != Some(entry.kind) {
            show.begin(&Group { offset, length, number, name: entry.block.title, kind: entry.kind });
            let bytes = rest.get(..entry.length).unwrap_or(rest);
            let inner = Piece { base: offset, bytes, ..piece };
            walk_structure(inner, entry.head, entry.block.lines, depth - 1, show);
            show.end();
            if !show.takes_fields() && entry.is_fixed() {
                known = Some(entry.kind);
            }
        }
        if let Ok(least) = sum_of(entry.block.size, rest)
            && length < least
        {
            show.malformed(offset, Fault::Length(length));
        }
        start = start.saturating_add(entry.length);
        number = number.saturating_add(1);
    }
    show_missing(piece.at(start), extent, number, show);
    start
}

/// The lines of the block that a line names, or no lines if it begins with `if` and the number at the place that it
/// names doesn't meet its choice.
///
/// Fails if a word isn't understood.
fn chosen_lines(piece: Piece<'_>, word: &str, rest: &'static str) -> Result<&'static str, Fault> {
    let mut name = rest;
    if word == "if" {
        let (place, rest) = next_word(rest);
        let (choice, rest) = next_word(rest);
        let number = sum_of(place, piece.bytes)?;
        if !choice_of(number, choice).ok_or(Fault::Unread(choice))? {
            return Ok("");
        }
        name = rest;
    }
    Ok(piece.blocks.named(name)?.lines)
}
