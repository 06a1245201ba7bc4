//! The ids by which the parts of a page are linked.

use crate::prelude::*;
use std::fmt::{self, Display, Formatter};

/// The id of a table: the letters of its signature, and its number from 1 on among the tables of the same letters. The
/// ids of what isn't a table's aren't four letters long.
#[derive(Clone, Copy)]
pub struct Id {
    letters: [u8; 4],
    number: usize,
    /// Whether the table is one of the first one of two inputs.
    pub(super) is_first: bool,
}

pub(super) fn signature_of(entry: &Entry<'_>) -> Signature {
    let signature = entry.signature().or(entry.sought);
    signature.unwrap_or(own_signature(&[]))
}

/// The letters of a table's signature: `_` for what is no letter or digit.
fn letters_of(entry: &Entry<'_>) -> [u8; 4] {
    signature_of(entry).to_bytes().map(|letter| if letter.is_ascii_alphanumeric() { letter } else { b'_' })
}

impl Id {
    pub(super) fn of(entry: &Entry<'_>, before: &[Entry<'_>], is_first: bool) -> Id {
        let letters = letters_of(entry);
        let number = 1 + before.iter().filter(|other| letters_of(other) == letters).count();
        Id { letters, number, is_first }
    }
}

/// `APIC`, or `SSDT.2` for the second one.
impl Display for Id {
    fn fmt(&self, f: &mut Formatter<'_>) -> fmt::Result {
        let front = if self.is_first { "first-" } else { "" };
        write!(f, "{front}{}", self.letters.escape_ascii())?;
        if self.number > 1 { write!(f, ".{}", self.number) } else { Ok(()) }
    }
}
