//! What the AML of tables names.

use crate::check::numbers::Numbers;
use crate::prelude::*;
use acpi_programs::walk::aml::value::Value;
use std::collections::BTreeMap;
use zacpi::base::bytes::skip;

/// The number of the root's path.
pub(super) const ROOT: u64 = 0;

/// Where the number of a path is kept: by that of the path before its last segment, and this segment.
fn place_of(from: u64, segment: &[u8]) -> u128 {
    (from as u128) << 32 | field(segment, 0, 4) as u128
}

/// An object that has a name.
#[derive(Clone, Copy)]
pub(super) struct Named<'a> {
    /// The number of its table among the entries.
    pub(super) table: usize,
    /// Its offset in the table.
    pub(super) offset: usize,
    pub(super) kind: &'static str,
    /// The number of its path.
    pub(super) key: u64,
    /// The number of the path of the object that it is in.
    pub(super) scope: u64,
    /// What a Name is set to, and of other objects none, or of a Processor what is between its name and the objects in
    /// it.
    pub(super) data: &'a [u8],
    /// Where that begins in the table.
    pub(super) at: usize,
    /// Where its path begins and ends in the letters.
    path: (usize, usize),
}

/// The objects of all tables that have a name, in the order of the tables, and in a table by offset.
pub(super) struct Names<'a> {
    pub(super) all: Vec<Named<'a>>,
    /// The segments of their paths.
    letters: Vec<u8>,
    /// The numbers of their paths and of all before them, of which no two have the same.
    numbers: BTreeMap<u128, u64>,
    /// The paths of those that are defined, each with the number of the object.
    pub(super) keys: Numbers,
    /// Whether these are all: no list ends before its table does, and nothing is in an `If`, which isn't run.
    pub(super) are_all: bool,
    /// Why the list of the last table ends, if it ends before the table.
    end: Option<(u64, Ends)>,
    /// The table that is read, and its number.
    bytes: &'a [u8],
    table: usize,
}

impl<'a> Names<'a> {
    pub(super) fn new() -> Names<'a> {
        Names {
            all: Vec::new(),
            letters: Vec::new(),
            numbers: BTreeMap::new(),
            keys: Numbers::new(),
            are_all: true,
            end: None,
            bytes: &[],
            table: 0,
        }
    }

    /// Adds the objects of a table of a signature. Returns why its list ends, and where, if it ends before the table.
    pub(super) fn add_table(&mut self, number: usize, signature: Signature, table: &'a [u8]) -> Option<(u64, Ends)> {
        self.bytes = table;
        self.table = number;
        self.end = None;
        walk_with_objects(Global, signature, table, self);
        self.end
    }

    pub(super) fn sort(&mut self) {
        self.keys.sort();
    }

    /// The number of the path that goes on with segments from a path with a number, if a path of an object does.
    pub(super) fn number_of(&self, from: u64, segments: &[u8]) -> Option<u64> {
        let mut number = from;
        for segment in segments.chunks(4) {
            number = *self.numbers.get(&place_of(number, segment))?;
        }
        Some(number)
    }

    /// The number of the path that goes on with segments from a path with a number: a new one if no path before does.
    fn numbered(&mut self, from: u64, segments: &[u8]) -> u64 {
        let mut number = from;
        for segment in segments.chunks(4) {
            let place = place_of(number, segment);
            number = if let Some(found) = self.numbers.get(&place) {
                *found
            } else {
                let next = self.numbers.len() as u64 + 1;
                self.numbers.insert(place, next);
                next
            };
        }
        number
    }

    /// The first object that is defined with a path, once they are sorted.
    pub(super) fn find(&self, key: u64) -> Option<Named<'a>> {
        match self.keys.from(0, key) {
            Some((found, number)) if found == key => self.all.get(number).copied(),
            _ => None,
        }
    }

    /// The first object that is defined with these segments after a path with a number.
    pub(super) fn find_in(&self, scope: u64, name: &[u8]) -> Option<Named<'a>> {
        self.find(self.number_of(scope, name)?)
    }

    pub(super) fn path(&self, it: &Named<'_>) -> &[u8] {
        self.letters.get(it.path.0..it.path.1).unwrap_or(&[])
    }

    /// The segments of the path of the object that an object is in.
    pub(super) fn scope_path(&self, it: &Named<'_>) -> &[u8] {
        let path = self.path(it);
        scope_of(path)
    }

    pub(super) fn name(&self, it: &Named<'_>) -> &[u8] {
        let path = self.path(it);
        path.get(path.len().saturating_sub(4)..).unwrap_or(&[])
    }
}

fn scope_of(path: &[u8]) -> &[u8] {
    path.get(..path.len().saturating_sub(4)).unwrap_or(&[])
}

/// The bytes of a table between two offsets, or none if they aren't there.
fn part_of(table: &[u8], start: usize, end: usize) -> &[u8] {
    table.get(start..end).unwrap_or(&[])
}

/// Whether an object of a kind is defined where its name is, and not only named.
fn is_defined(kind: &str) -> bool {
    !matches!(kind, "Scope" | "External" | "Field" | "IndexField" | "BankField")
}

/// Between which offsets of its table an object has what it is set to.
fn data_of(object: &Object<'_>) -> (usize, usize) {
    let end = size(object.offset.saturating_add(object.length));
    match object.value {
        Value::Data(data) => (end.saturating_sub(data.len()), end),
        _ if object.kind == "Processor" => (size(object.own.0), size(object.own.1)),
        _ => (end, end),
    }
}

impl Show for Names<'_> {
    fn takes_fields(&self) -> bool {
        false
    }
}

impl ShowObjects for Names<'_> {
    fn object(&mut self, object: &Object<'_>) {
        let Some(path) = object.path else {
            self.are_all = false;
            return;
        };
        let (at, end) = data_of(object);
        let outer = scope_of(path);
        let data = part_of(self.bytes, at, end);
        let (start, number) = (self.letters.len(), self.all.len());
        let scope = self.numbered(ROOT, outer);
        let key = self.numbered(scope, skip(path, outer.len()));
        self.letters.extend_from_slice(path);
        let named = Named {
            table: self.table,
            offset: size(object.offset),
            kind: object.kind,
            key,
            scope,
            data,
            at,
            path: (start, self.letters.len()),
        };
        self.all.push(named);
        if is_defined(object.kind) {
            self.keys.push(0, key, number);
        }
    }

    fn ends(&mut self, offset: u64, why: Ends) {
        self.are_all = false;
        self.end = Some((offset, why));
    }
}
