//! The objects of AML that a table has.

use super::outline::{BYTES, Part, Side};
use super::pairs::Key;
use crate::prelude::*;

/// The path of the root.
const ROOT: &str = "\\";

/// An object, or bytes that no object has: where it is, its length, its own bytes, what it is, its path and its value.
/// One without a path has that of the last one before it that has one, after a word.
#[derive(Clone, Copy)]
pub(crate) struct Known<'a> {
    pub(super) offset: u64,
    pub(super) length: u64,
    pub(super) own: &'a [u8],
    pub(super) kind: &'static str,
    word: &'static str,
    pub(super) path: &'a str,
    pub(super) value: &'a str,
}

impl Known<'_> {
    /// Between which offsets of its table its own bytes are, if they are at its end: a method's code.
    pub(super) fn code(&self) -> (usize, usize) {
        let end = size(self.offset.saturating_add(self.length));
        (end.saturating_sub(self.own.len()), end)
    }

    pub(super) fn whole_path(self) -> String {
        format!("{}{}", self.word, self.path)
    }

    pub(super) fn whole_value(self) -> String {
        format!("{} bytes{}", self.length, self.value)
    }
}

/// The objects of a table in the order of its bytes, and between them the bytes that no object has.
struct Objects<'a> {
    side: Side<'a>,
    known: Vec<Known<'a>>,
    /// The path of the last object that has one.
    last: &'a str,
    /// Up to where the bytes are those of objects, or kept as bytes that none has.
    shown: u64,
}

impl Objects<'_> {
    /// Adds what has no path of its own, or an object up to its path and its value.
    fn add(&mut self, offset: u64, length: u64, own: (u64, u64), kind: &'static str) {
        self.known.push(Known {
            offset,
            length,
            own: self.side.bytes(own.0, own.1.saturating_sub(own.0)),
            kind,
            word: if self.last == ROOT { "in " } else { "after " },
            path: self.last,
            value: "",
        });
        self.shown = own.1;
    }

    fn add_bytes(&mut self, end: u64) {
        if self.shown < end {
            self.add(self.shown, end - self.shown, (self.shown, end), BYTES);
        }
    }

    /// Adds an object whose own bytes are between two offsets.
    fn add_object(&mut self, part: &Part, own: (u64, u64)) {
        self.add_bytes(part.offset);
        self.add(part.offset, part.length, own, part.name);
        if let (Some(item), Some(known)) = (self.side.items.get(part.first), self.known.last_mut()) {
            known.value = self.side.rest(item);
            if part.id.is_some() {
                self.last = self.side.digits(item);
                (known.word, known.path) = ("", self.last);
            }
        }
    }
}

/// By what objects are paired: their paths, what they are, and their order.
pub(super) fn keys_of<'a>(objects: &[Known<'a>]) -> Vec<Key<'a>> {
    let key = |(place, known): (usize, &Known<'a>)| (known.word.len(), known.path, known.kind, "", place);
    let mut keys: Vec<_> = objects.iter().enumerate().map(key).collect();
    keys.sort_unstable();
    keys
}

pub(super) fn objects_of(side: Side<'_>) -> Vec<Known<'_>> {
    let mut objects = Objects { side, known: Vec::new(), last: ROOT, shown: SdtHeader::MIN_LENGTH as u64 };
    for part in side.parts {
        if let Some(own) = part.own {
            objects.add_object(part, own);
        }
    }
    if let Some(end) = side.end {
        objects.add_bytes(end);
        objects.last = ROOT;
    }
    if side.has_objects() {
        objects.add_bytes(side.table.len() as u64);
    }
    objects.known
}
