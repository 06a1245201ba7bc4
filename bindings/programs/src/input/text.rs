// Made by scripts/erase of crates/acpi_dump_input/src/text.rt, where it is proved.
//! The text of acpidump: for each table a heading, `FACP @ 0x00000000BFFE0000`, and rows of its bytes,
//! `    0010: 42 4F 43 48 ..`, up to a blank line. And that of the UEFI shell's acpiview: for each table
//! `Address  : 0xBFFE0000`, `Length   : 244`, a blank line, rows like `00000010 : 42 4F 43 48 .. - ..`, a blank line,
//! and what it says of the fields.

use crate::cli::{number_of, parse_address};
use crate::input::row::{Row, push_pairs, row_in};
use crate::rattle::Pieces;
use crate::rattle::Vec;
use crate::rattle::alloc::{AllocError, Global};

/// A table that a text spells.
pub(crate) struct SpelledTable {
    /// The physical address in its heading.
    pub(crate) address: u64,
    /// The bytes that its rows spell.
    pub(crate) bytes: Vec<u8>,
}

/// Why a text is refused.
#[derive(Clone, Copy)]
pub(crate) enum TextError {
    /// The line of this number, counted from 1, is wrong.
    Line(usize),
    /// The allocator refused memory.
    OutOfMemory,
}

/// Makes `OutOfMemory`.
impl From<AllocError> for TextError {
    fn from(_refused: AllocError) -> TextError {
        TextError::OutOfMemory
    }
}

/// The tables of the lines that were read.
pub struct Reading {
    /// Those that are whole.
    complete: Vec<SpelledTable>,
    /// The one whose rows are read.
    current: Option<SpelledTable>,
    /// How many bytes the text says that it has.
    stated_length: Option<u64>,
}

/// The first line of a text without its line feed, and what comes after that.
pub(crate) fn first_line(text: &str) -> (&str, &str) {
    match text.two_pieces('\n') {
        Some(parts) => parts,
        None => (text, ""),
    }
}

/// The address in a line if it is a heading: after acpiview's label or an `@`, `0x` and one to sixteen hexadecimal
/// digits.
pub(crate) fn heading_in(line: &str) -> Option<u64> {
    parse_address(after_label(line).trim())
}

/// What comes after the first `@` of a line, or nothing if it has none.
fn after_at(line: &str) -> &str {
    match line.two_pieces('@') {
        Some((_, after)) => after,
        None => "",
    }
}

/// What comes after acpiview's label of an address, or else after the first `@`.
fn after_label(line: &str) -> &str {
    match line.strip_prefix("Address  : ") {
        Some(after) => after,
        None => after_at(line),
    }
}

/// How many bytes a line of acpiview says that its table has.
fn length_in(line: &str) -> Option<u64> {
    number_of(line.strip_prefix("Length   : ")?.trim(), 10, 10)
}

impl Reading {
    /// No table.
    fn none(alloc: Global) -> Reading {
        Reading { complete: Vec::new(alloc), current: None, stated_length: None }
    }

    /// All tables, of which the one whose rows were read is the last.
    fn all(self) -> Result<Vec<SpelledTable>, AllocError> {
        let Reading { mut complete, current, .. } = self;
        if let Some(table) = current {
            complete.push(table)?;
        }
        Ok(complete)
    }

    /// These tables, all of them whole.
    fn closed(self) -> Result<Reading, AllocError> {
        Ok(Reading { complete: self.all()?, current: None, stated_length: None })
    }

    /// How many bytes the table has so far whose rows are read.
    fn held(&self) -> Option<u64> {
        match &self.current {
            Some(table) => Some(table.bytes.len() as u64),
            None => None,
        }
    }

    /// These tables, and one more of which no row was read.
    fn opened(self, alloc: Global, address: u64) -> Result<Reading, AllocError> {
        let complete = self.all()?;
        let table = SpelledTable { address, bytes: Vec::new(alloc) };
        Ok(Reading { complete, current: Some(table), stated_length: None })
    }

    /// These tables with one more row, or `None` if it is wrong.
    fn with_row(self, row: Row<'_>) -> Result<Option<Reading>, AllocError> {
        let Reading { complete, current, stated_length } = self;
        let Some(table) = current else {
            return Ok(None);
        };
        let SpelledTable { address, mut bytes } = table;
        if row.offset != bytes.len() as u64 {
            return Ok(None);
        }
        if !push_pairs(&mut bytes, row.pairs)? {
            return Ok(None);
        }
        Ok(Some(Reading { complete, current: Some(SpelledTable { address, bytes }), stated_length }))
    }

    /// These tables after a blank line, or `None` if it is wrong: if the table that it would end has more or fewer
    /// bytes than it is said to have. It ends none that is said to have some before the first of them.
    fn with_blank(self) -> Result<Option<Reading>, AllocError> {
        let (Some(held), Some(stated_length)) = (self.held(), self.stated_length) else {
            return Ok(Some(self.closed()?));
        };
        if stated_length == held {
            return Ok(Some(self.closed()?));
        }
        Ok(if held == 0 { Some(self) } else { None })
    }

    /// These tables after a line that says how many bytes the current one has, or `None` if that has rows by now.
    fn with_length(self, stated_length: u64) -> Option<Reading> {
        let Some(held) = self.held() else {
            return Some(self);
        };
        if held > 0 {
            return None;
        }
        let Reading { complete, current, .. } = self;
        Some(Reading { complete, current, stated_length: Some(stated_length) })
    }

    /// These tables with one more line, or `None` if it is wrong.
    fn with_line(self, alloc: Global, line: &str) -> Result<Option<Reading>, AllocError> {
        if let Some(row) = row_in(line) {
            return self.with_row(row);
        }
        if let Some(address) = heading_in(line) {
            return Ok(Some(self.opened(alloc, address)?));
        }
        if line.trim().is_empty() {
            return self.with_blank();
        }
        if let Some(stated_length) = length_in(line) {
            return Ok(self.with_length(stated_length));
        }
        if self.current.is_some() {
            return Ok(None);
        }
        Ok(Some(self))
    }
}

/// The tables that a text spells, in order. A line outside a table that is neither heading, row nor blank is
/// passed over.
///
/// Fails with `Line` at the first line that is wrong: a row outside a table, or in a table a row whose offset
/// isn't the number of the bytes before it or whose pairs can't be read, a length after a row, a blank line after
/// more or fewer bytes than the length says, or a line that is none of these and no heading. The error is
/// `OutOfMemory` if memory runs out.
pub(crate) fn tables_in(alloc: Global, text: &str) -> Result<Vec<SpelledTable>, TextError> {
    let mut reading = Reading::none(alloc);
    let mut rest = text;
    let mut number = 1usize;
    while !rest.is_empty() {
        let (line, after) = first_line(rest);
        reading = match reading.with_line(alloc, line)? {
            Some(longer) => longer,
            None => return Err(TextError::Line(number)),
        };
        number += 1;
        rest = after;
    }
    Ok(reading.all()?)
}

/// What is wrong with the line of a number, counted from 1, which is the first wrong one of a text.
pub(crate) fn why_wrong(alloc: Global, text: &str, number: usize) -> Result<&'static str, AllocError> {
    let mut is_inside = false; // whether a heading was before it, and no blank line that ends its table
    let mut is_said = false; // whether the last line that isn't blank says how many bytes it has
    for (before, line) in text.pieces('\n').enumerate() {
        if before + 1 == number {
            return reason_of(alloc, line, is_inside);
        }
        if line.trim().is_empty() {
            is_inside = is_inside && is_said;
        } else {
            is_inside = is_inside || heading_in(line).is_some();
            is_said = length_in(line).is_some();
        }
    }
    Ok("it isn't there")
}

/// What is wrong with a line inside a table or outside of one.
fn reason_of(alloc: Global, line: &str, is_inside: bool) -> Result<&'static str, AllocError> {
    if line.trim().is_empty() {
        return Ok("the table before it doesn't have as many bytes as its length says");
    }
    let Some(row) = row_in(line) else {
        return Ok("neither a heading, nor a row of bytes, nor blank");
    };
    if !is_inside {
        return Ok("a row of bytes without a heading");
    }
    if push_pairs(&mut Vec::new(alloc), row.pairs)? {
        Ok("its offset isn't the number of the bytes before it")
    } else {
        Ok("its bytes aren't pairs of hexadecimal digits")
    }
}
