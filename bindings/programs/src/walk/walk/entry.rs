// Made by scripts/erase of crates/acpi_dump_walk/src/walk/entry.rt, where it is proved.
//! The entries of a list in a structure, one by one.

use super::parts::{Piece, after_zero};
use crate::rattle::Pieces;
use crate::walk::fault::Fault;
use crate::walk::language::{Block, next_word, number_of, places_end, size, sum_of};

/// What is known of an entry.
#[derive(Clone, Copy)]
pub(super) struct Entry {
    pub(super) length: usize,
    pub(super) kind: Option<u64>,
    /// The lines for what the entries of all types begin with.
    pub(super) head: &'static str,
    pub(super) block: Block,
}

impl Entry {
    /// Whether it is only fields at offsets, and of lengths, that no bytes tell: none of them can be malformed, as
    /// such a field need not be there.
    pub(super) fn is_fixed(&self) -> bool {
        are_fixed(self.head) && are_fixed(self.block.lines)
    }
}

/// Whether lines are only fields at offsets, and of lengths, that no bytes tell.
fn are_fixed(lines: &'static str) -> bool {
    for line in lines.pieces('\n') {
        let (offset, rest) = next_word(line);
        let (length, _) = next_word(rest);
        if !offset.is_empty() && (number_of(offset).is_none() || number_of(length).is_none()) {
            return false;
        }
    }
    true
}

/// The entry that bytes in a structure begin with, or why they don't begin with one.
pub(super) fn next_entry(piece: Piece<'_>, rest: &[u8], how: &'static str) -> Result<Entry, Fault> {
    let (form, how) = next_word(how);
    let (first, how) = next_word(how);
    let (length, end) = match form {
        "each" if first == "z" => (after_zero(rest, 0) as u64, 0),
        // The structure tells it, so all bytes of the entry have to be there.
        "each" => {
            let length = sum_of(first, piece.bytes)?;
            (length, size(length))
        }
        "own" => (sum_of(first, rest)?, places_end(first)),
        "typed" => {
            let (word, how) = next_word(how);
            return typed_entry(piece, rest, first, word, how);
        }
        "sized" => return typed_entry(piece, rest, first, "", how),
        _ => return Err(Fault::Unread(form)),
    };
    Ok(Entry { length: checked_length(rest, length, end)?, kind: None, head: "", block: piece.blocks.named(how)? })
}

/// An entry of the type at a place of it, by the blocks that a line names. Its length is the value of a word, or if
/// that has no letters the length that entries of the type have.
fn typed_entry(
    piece: Piece<'_>,
    rest: &[u8],
    place: &'static str,
    word: &'static str,
    how: &'static str,
) -> Result<Entry, Fault> {
    let head = piece.blocks.named(how)?;
    let (kind, end) = (sum_of(place, rest)?, places_end(place));
    let block = piece.blocks.find(head.name, Some(kind)).unwrap_or(Block::NONE);
    let word = if word.is_empty() { block.size } else { word };
    if rest.len() < end {
        return Err(Fault::Cut);
    } else if word.is_empty() {
        return Err(Fault::Unknown(kind));
    }
    Ok(Entry {
        length: checked_length(rest, sum_of(word, rest)?, places_end(word).max(end))?,
        kind: Some(kind),
        head: head.lines,
        block,
    })
}

/// A length of an entry, if it is at least 1, covers the bytes up to an end, and is at most what is left.
fn checked_length(rest: &[u8], length: u64, end: usize) -> Result<usize, Fault> {
    let (size, least) = (size(length), end.max(1));
    if rest.len() < least {
        Err(Fault::Cut)
    } else if size < least {
        Err(Fault::Length(length))
    } else if rest.len() < size {
        Err(Fault::Past(length))
    } else {
        Ok(size)
    }
}
