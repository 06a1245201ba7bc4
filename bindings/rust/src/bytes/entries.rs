// Made by scripts/erase of crates/acpi_bytes/src/entries.rt, where it is proved.
//! Entries of a table, each of which has its type and its length near its front.
//!
//! What tables differ in is a value, a `Grammar`. A walk goes from entry to entry by `split_front`; over
//! a grammar that is a constant it costs what a walk written for that table does.

/// How many bytes a number has.
#[derive(Clone, Copy, Debug)]
pub enum Width {
    /// One byte.
    One,
    /// Two bytes, the lower one first.
    Two,
    /// Four bytes, the lowest one first.
    Four,
}

/// The place of a number in an entry.
#[derive(Clone, Copy, Debug)]
pub struct Place {
    /// How many bytes of the entry are before it.
    pub at: u8,
    /// How many bytes the number has.
    pub width: Width,
}

/// The layout of a table's entries: the places of type and length, and the least lengths.
#[derive(Clone, Copy, Debug)]
pub struct EntryLayout<const KINDS: usize> {
    /// The place of an entry's type.
    pub kind_place: Place,
    /// The place of an entry's length, which is in bytes and counts these two numbers too.
    pub length_place: Place,
    /// The least length of an entry of each type, from type 0 on.
    pub least_lengths: [usize; KINDS],
    /// The least length of an entry of any other type.
    pub least_of_others: usize,
}

/// A grammar of entries: how a table's bytes are cut into entries.
#[derive(Clone, Copy, Debug)]
pub struct Grammar<const KINDS: usize> {
    /// The layout of each entry.
    pub layout: EntryLayout<KINDS>,
    /// The greatest number of entries, whatever comes after them. `None`: there is no bound.
    pub most: Option<usize>,
}

/// A byte, or zero past the end.
#[inline(always)]
fn byte_at(bytes: &[u8], at: usize) -> u8 {
    match bytes.get(at) {
        Some(byte) => *byte,
        None => 0,
    }
}

/// Two bytes as a number, the lower one first. A byte past the end is zero.
#[inline(always)]
fn two_at(bytes: &[u8], at: usize) -> usize {
    byte_at(bytes, at) as usize + 256 * byte_at(bytes, at + 1) as usize
}

/// The number at a place of an entry. A byte past the end is read as zero.
#[inline(always)]
pub fn number_at(place: Place, bytes: &[u8]) -> usize {
    let at = place.at as usize;
    match place.width {
        Width::One => byte_at(bytes, at) as usize,
        Width::Two => two_at(bytes, at),
        Width::Four => two_at(bytes, at) + 65536 * two_at(bytes, at + 2),
    }
}

/// The number at a place of an entry, all of whose bytes are there: nothing is tested.
#[inline(always)]
fn number_there(place: Place, bytes: &[u8]) -> usize {
    let at = place.at as usize;
    match place.width {
        Width::One => bytes[at] as usize,
        Width::Two => bytes[at] as usize + 256 * bytes[at + 1] as usize,
        Width::Four => {
            bytes[at] as usize
                + 256 * bytes[at + 1] as usize
                + 65536 * (bytes[at + 2] as usize + 256 * bytes[at + 3] as usize)
        }
    }
}

/// The offset after a number's last byte.
#[inline(always)]
fn end_of(place: Place) -> usize {
    match place.width {
        Width::One => place.at as usize + 1,
        Width::Two => place.at as usize + 2,
        Width::Four => place.at as usize + 4,
    }
}

/// The least length of an entry of a type.
#[inline(always)]
fn least_length<const KINDS: usize>(layout: &EntryLayout<KINDS>, entry_type: usize) -> usize {
    match layout.least_lengths.get(entry_type) {
        Some(least) => *least,
        None => layout.least_of_others,
    }
}

/// The length of the entry that the bytes begin with, or `None` if they begin with none: if the length
/// is less than what holds the two numbers, than the least of its type, or goes past the bytes.
#[inline(always)]
fn front<const KINDS: usize>(layout: &EntryLayout<KINDS>, bytes: &[u8]) -> Option<usize> {
    let size = number_at(layout.length_place, bytes);
    let entry_type = number_at(layout.kind_place, bytes);
    if end_of(layout.kind_place) <= size
        && end_of(layout.length_place) <= size
        && least_length(layout, entry_type) <= size
        && size <= bytes.len()
    {
        Some(size)
    } else {
        None
    }
}

/// The entry of this length that the bytes begin with, and the bytes after it.
#[inline(always)]
fn split_next<'a, const KINDS: usize>(grammar: &Grammar<KINDS>, bytes: &'a [u8], size: usize) -> (&'a [u8], &'a [u8]) {
    bytes.split_at(size)
}

/// The entry that the bytes begin with, and the bytes after it, or `None` if there may be no more
/// entries, or the bytes begin with none: if the length is less than what holds type and length, than
/// the least of its type, or goes past the bytes. The bytes after it are entries by the same grammar
/// with one less of them.
#[inline(always)]
pub fn split_front<'a, const KINDS: usize>(grammar: &Grammar<KINDS>, bytes: &'a [u8]) -> Option<(&'a [u8], &'a [u8])> {
    if let Some(0) = grammar.most {
        return None;
    }
    let size = front(&grammar.layout, bytes)?;
    Some(split_next(grammar, bytes, size))
}

/// The entry that the bytes begin with, and the bytes after it, or `None` if there are no more. It is for
/// bytes that are known to be entries to their end, so that nothing is tested but whether there are more.
#[inline(always)]
pub(crate) fn split_whole<'a, const KINDS: usize>(
    grammar: &Grammar<KINDS>,
    bytes: &'a [u8],
) -> Option<(&'a [u8], &'a [u8])> {
    // Entries to their end have a length, or there are none: tested so, it isn't tested again where it is read.
    if bytes.len() < end_of(grammar.layout.length_place) {
        return None;
    }
    let size = number_there(grammar.layout.length_place, bytes);
    Some(split_next(grammar, bytes, size))
}
