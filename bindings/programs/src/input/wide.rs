// Made by scripts/erase of crates/acpi_dump_input/src/wide.rt, where it is proved.
//! Texts in UTF-16, as PowerShell writes what a command prints.

use crate::rattle::Vec;
use crate::rattle::alloc::{AllocError, Global};

/// Whether bytes begin with the mark of a text in UTF-16 whose lower bytes come first.
pub(crate) fn is_wide(bytes: &[u8]) -> bool {
    matches!(bytes, [0xff, 0xfe, ..])
}

/// The letter that two bytes are, or `?` if it isn't ASCII.
fn letter_of(low: u8, high: u8) -> u8 {
    if high == 0 && low.is_ascii() { low } else { b'?' }
}

/// The first letter of a text that isn't empty, and what comes after it.
fn first_letter(text: &[u8]) -> (u8, &[u8]) {
    match text {
        [low, high, rest @ ..] => (letter_of(*low, *high), rest),
        _ => (b'?', &[]),
    }
}

/// The text after the mark, with `?` in place of what isn't ASCII.
pub(crate) fn narrowed(alloc: Global, bytes: &[u8]) -> Result<Vec<u8>, AllocError> {
    let mut text = Vec::new(alloc);
    let mut rest = bytes.get(2..).unwrap_or(&[]);
    while !rest.is_empty() {
        let (letter, after) = first_letter(rest);
        text.push(letter)?;
        rest = after;
    }
    Ok(text)
}
