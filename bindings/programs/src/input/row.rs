// Made by scripts/erase of crates/acpi_dump_input/src/row.rt, where it is proved.
//! A row of a table in the text of acpidump or acpiview: its offset, a colon, and up to 16 pairs of hexadecimal digits.

use crate::cli::number_of;
use crate::rattle::Pieces;
use crate::rattle::Vec;
use crate::rattle::alloc::AllocError;

/// A row.
#[derive(Clone, Copy)]
pub(crate) struct Row<'t> {
    /// The number before the colon: how many bytes of the table stand before the row.
    pub(crate) offset: u64,
    /// What comes after the colon and a space: the pairs, and then the bytes as characters.
    pub(crate) pairs: &'t [u8],
}

/// A text up to its first space, and what comes after that.
fn first_word(text: &str) -> (&str, &str) {
    match text.two_pieces(' ') {
        Some(parts) => parts,
        None => (text, ""),
    }
}

/// The number of one to eight hexadecimal digits, after which acpiview has a space. Its names of fields have more of
/// them, also those that are spelled by such digits alone.
fn offset_in(text: &str) -> Option<u64> {
    let (digits, rest) = first_word(text);
    if !rest.is_empty() {
        return None;
    }
    number_of(digits, 16, 8)
}

/// The row that a line is, or `None` if it doesn't begin with one to eight hexadecimal digits, a space or none, a colon
/// and a space, after any spaces.
pub(crate) fn row_in(line: &str) -> Option<Row<'_>> {
    let (offset, pairs) = line.two_pieces(':')?;
    let offset = offset_in(offset.trim_start())?;
    let pairs = pairs.strip_prefix(" ")?;
    Some(Row { offset, pairs: pairs.as_bytes() })
}

/// The byte that two digits spell.
fn byte_of(high: u8, low: u8) -> Option<u8> {
    let high = (high as char).to_digit(16)?;
    let low = (low as char).to_digit(16)?;
    Some((high * 16 + low) as u8)
}

/// Whether a byte ends a pair, or is in place of one: a space or the carriage return of a line's end.
fn is_blank(byte: u8) -> bool {
    byte == b' ' || byte == b'\r'
}

/// Whether a text begins with a gap, or is empty.
fn ends(text: &[u8]) -> bool {
    match text {
        [] => true,
        [first, ..] => is_blank(*first),
    }
}

/// The pair that a text begins with, and what comes after it and its space, or `None` if it begins with none.
fn first_pair(text: &[u8]) -> Option<(u8, &[u8])> {
    match text {
        [high, low] => Some((byte_of(*high, *low)?, &[])),
        [high, low, gap, rest @ ..] if is_blank(*gap) => Some((byte_of(*high, *low)?, rest)),
        _ => None,
    }
}

/// The pairs of a row of which so many are left, less the dash that acpiview has before the last eight.
fn without_dash(left: usize, text: &[u8]) -> &[u8] {
    match text {
        [dash, gap, rest @ ..] if left == 8 && *dash == b'-' && *gap == b' ' => rest,
        _ => text,
    }
}

/// Adds the bytes that up to 16 pairs spell, up to a gap in place of one or the end of the text, and returns whether
/// all of that are pairs.
pub(crate) fn push_pairs(bytes: &mut Vec<u8>, text: &[u8]) -> Result<bool, AllocError> {
    let mut rest = text;
    let mut left = 16usize;
    while left > 0 && !ends(without_dash(left, rest)) {
        let Some((byte, after)) = first_pair(without_dash(left, rest)) else {
            return Ok(false);
        };
        bytes.push(byte)?;
        rest = after;
        left -= 1;
    }
    Ok(true)
}
