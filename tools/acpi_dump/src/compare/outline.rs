//! The structures of a table with their fields, and of AML its objects.

use crate::prelude::*;
use acpi_programs::walk::walk::DEEPEST;
use std::ops::Range;

pub(crate) use super::items::{Items, items_of};

/// The name of an item that is bytes which no field covers, up to 16 of them.
pub(crate) const BYTES: &str = "bytes";

/// The name of an item with why the bytes after it aren't shown by the layout.
pub(crate) const MALFORMED: &str = "malformed";

/// A field or a run of bytes: the structure that it is in, where it is in the table and in the structure, its name, and
/// where its value is in the text of all values. An object's has what it is as its name, its path as its value, and the
/// bytes up to the first object in it.
pub(crate) struct Item {
    pub(crate) part: usize,
    pub(crate) offset: u64,
    pub(crate) within: u64,
    pub(crate) length: u64,
    pub(crate) name: &'static str,
    /// Its number if it is one of several of its name.
    pub(crate) number: Option<u64>,
    pub(super) start: usize,
    /// Where the meaning is after the value.
    pub(super) middle: usize,
    pub(super) end: usize,
}

/// A structure, of which the first is the whole table and has no name, or an object: the one that it is in, where it
/// is, what it is called, its place among the ones of its name, and between which places its items are, with the items
/// of the structures in it.
#[derive(Clone, Copy)]
pub(crate) struct Part {
    pub(crate) parent: usize,
    pub(crate) offset: u64,
    pub(crate) length: u64,
    pub(crate) name: &'static str,
    /// Its type, if it has one.
    pub(crate) kind: Option<u64>,
    pub(super) place: u64,
    pub(crate) first: usize,
    pub(crate) last: usize,
    /// The number of the first field that tells it apart, or of the item of an object that has a path.
    pub(crate) id: Option<usize>,
    /// The number of the next one, if several structures have the first.
    pub(super) other_id: Option<usize>,
    /// Between which offsets an object's own bytes are.
    pub(crate) own: Option<(u64, u64)>,
}

impl Part {
    pub(crate) fn is_row(&self) -> bool {
        self.own.is_some() && self.last.saturating_sub(self.first) == 1
    }
}

/// The structures and items of a table, with the text that their values stand in.
#[derive(Clone, Copy)]
pub(crate) struct Side<'a> {
    pub(crate) table: &'a [u8],
    pub(crate) parts: &'a [Part],
    pub(crate) items: &'a [Item],
    pub(super) values: &'a str,
    /// Up to where AML is understood, if that isn't all.
    pub(super) end: Option<u64>,
}

impl<'a> Side<'a> {
    pub(crate) fn item(self, item: Option<usize>) -> Option<&'a Item> {
        self.items.get(item?)
    }

    /// The value of the item of this number, if there is one.
    pub(super) fn value(self, item: Option<usize>) -> Option<&'a str> {
        self.item(item).map(|item| &self.values[item.start..item.end])
    }

    /// The bytes at an offset of the table, of this length, or none if they aren't all there.
    pub(crate) fn bytes(self, offset: u64, length: u64) -> &'a [u8] {
        self.table.get(size(offset)..size(offset.saturating_add(length))).unwrap_or(&[])
    }

    /// The bytes of an item, unless its value has all of them: those of an object that has no objects in it.
    pub(super) fn hidden(self, item: Option<usize>) -> &'a [u8] {
        let item = self.item(item).filter(|item| self.parts[item.part].is_row());
        item.map_or(&[], |item| self.bytes(item.offset, item.length))
    }

    pub(crate) fn digits(self, item: &Item) -> &'a str {
        &self.values[item.start..item.middle]
    }

    pub(crate) fn meaning(self, item: &Item) -> &'a str {
        self.rest(item).trim_ascii()
    }

    pub(super) fn rest(self, item: &Item) -> &'a str {
        &self.values[item.middle..item.end]
    }

    pub(super) fn has_objects(self) -> bool {
        self.end.is_some() || self.parts.get(1).is_some_and(|first| first.own.is_some())
    }

    pub(super) fn without_objects(self) -> Side<'a> {
        if !self.has_objects() {
            return self;
        }
        let count = self.items.partition_point(|item| item.offset < SdtHeader::MIN_LENGTH as u64);
        Side { parts: &self.parts[..1], items: &self.items[..count], ..self }
    }

    /// The numbers of the items of a structure, with those of the structures in it, as far as they are there.
    pub(crate) fn places(self, part: usize) -> Range<usize> {
        let Part { first, last, .. } = self.parts[part];
        first..last.min(self.items.len())
    }

    /// The items of a structure, with those of the structures in it.
    pub(crate) fn items_in(self, part: usize) -> &'a [Item] {
        &self.items[self.places(part)]
    }

    /// What a structure is called: its name, and the field that tells it apart or its place; and in the same way those
    /// that it is in, but not the table. An object is called by what it is and its path.
    pub(crate) fn path_of(self, part: usize) -> String {
        let (mut path, mut place) = (String::new(), part);
        for depth in 0..DEEPEST {
            if place == 0 {
                break;
            }
            let part = &self.parts[place];
            path += if depth > 0 { " of " } else { "" };
            path += part.name;
            path += &self.id_of(part);
            place = if part.own.is_some() { 0 } else { part.parent };
        }
        path
    }

    /// The values of the fields that tell a structure apart, or the path of an object.
    pub(super) fn ids(self, part: &Part) -> (&'a str, &'a str) {
        match self.item(part.id) {
            Some(path) if part.own.is_some() => (self.digits(path), ""),
            _ => (self.value(part.id).unwrap_or(""), self.value(part.other_id).unwrap_or("")),
        }
    }

    /// The values of a structure and of those in it, as one text.
    pub(super) fn contents(self, part: usize) -> &'a str {
        match self.items_in(part) {
            [first, .., last] => &self.values[first.start..last.end],
            [only] => &self.values[only.start..only.end],
            [] => "",
        }
    }

    /// The fields that tell a structure apart, or its place.
    fn id_of(self, part: &Part) -> String {
        let (id, other) = self.ids(part);
        let first = match self.item(part.id) {
            Some(_) if part.own.is_some() => format!(" {id}"),
            Some(item) => format!(", {} {id}", item.name),
            None => format!(" {}{id}", part.place),
        };
        let second = self.item(part.other_id).map(|item| format!(", {} {other}", item.name));
        first + &second.unwrap_or_default()
    }
}
