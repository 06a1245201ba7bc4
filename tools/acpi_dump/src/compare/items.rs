//! How the structures and items of a table are gathered.

use super::outline::{BYTES, Item, MALFORMED, Part, Side};
use crate::prelude::*;
use acpi_programs::walk::aml::Value;

/// The ends of the names of fields that tell structures of one type apart.
const IDS: [&str; 6] = ["ID", "Source", "MPIDR", "Segment Group Number", "Segment Number", "Proximity Domain"];

/// The ends of the names of those that several structures of one type have, and of the fields that tell these apart.
const SHARED: [&str; 2] = ["Segment Number", "Proximity Domain"];

const OTHERS: [&str; 2] = ["ID", "Base Address"];

/// The structures and items of a table in the order of its bytes, and their values as one text.
pub(crate) struct Items<'t> {
    table: &'t [u8],
    parts: Vec<Part>,
    items: Vec<Item>,
    /// The structure that began last and hasn't ended.
    open: usize,
    values: Out,
    /// Up to where AML is understood, if that isn't all.
    end: Option<u64>,
}

fn ends_with(name: &str, ends: &[&str]) -> bool {
    ends.iter().any(|end| name.ends_with(end))
}

impl Items<'_> {
    /// Adds an item of the structure that is open, whose value and meaning are what was printed from two places of the
    /// text on.
    fn add(&mut self, offset: u64, length: u64, name: &'static str, (start, middle): (usize, usize)) {
        let within = offset.saturating_sub(self.parts[self.open].offset);
        let end = self.values.length();
        self.items.push(Item { part: self.open, offset, within, length, name, number: None, start, middle, end });
    }

    fn part(&self, offset: u64, length: u64, name: &'static str) -> Part {
        // Its place among the ones of its name in that one.
        let mut before = self.parts.iter().skip(self.open).rev();
        let place = before.find(|part| part.parent == self.open && part.name == name).map_or(0, |part| part.place + 1);
        let (parent, first) = (self.open, self.items.len());
        Part { parent, offset, length, name, kind: None, place, first, last: 0, id: None, other_id: None, own: None }
    }

    /// Notes that the next item, of this name, tells the structure apart that is open, if it does.
    fn note_id(&mut self, name: &str) {
        let (item, part) = (self.items.len(), &mut self.parts[self.open]);
        match part.id {
            None if ends_with(name, &IDS) => part.id = Some(item),
            Some(first)
                if part.other_id.is_none()
                    && ends_with(name, &OTHERS)
                    && ends_with(self.items[first].name, &SHARED) =>
            {
                part.other_id = Some(item);
            }
            _ => {}
        }
    }

    fn enter(&mut self, part: Part) {
        self.open = self.parts.len();
        self.parts.push(part);
    }

    fn leave(&mut self, offset: u64) {
        while self.open > 0 {
            let part = &self.parts[self.open];
            if part.own.is_none() || part.offset.saturating_add(part.length) > offset {
                break;
            }
            self.end();
        }
    }

    /// Ends the bytes of the object that is open where the first object in it begins.
    fn cut(&mut self, offset: u64) {
        if let Some(outer) = self.items.last_mut().filter(|outer| outer.part == self.open) {
            outer.length = outer.length.min(offset.saturating_sub(outer.offset));
        }
    }

    pub(crate) fn side(&self) -> Side<'_> {
        let values = text_of(&self.values);
        Side { table: self.table, parts: &self.parts, items: &self.items, values, end: self.end }
    }
}

impl Show for Items<'_> {
    fn field(&mut self, shown: &Field<'_>) {
        let start = self.values.length();
        print_value(shown, &mut self.values);
        let middle = self.values.length();
        print_meaning(shown, &mut self.values);
        self.note_id(shown.label.name);
        self.add(shown.offset, shown.bytes.len() as u64, shown.label.name, (start, middle));
        if let Some(item) = self.items.last_mut() {
            item.number = shown.number;
        }
    }

    fn bytes(&mut self, offset: u64, bytes: &[u8]) {
        for (line, offset) in bytes.chunks(16).zip((offset..).step_by(16)) {
            let start = self.values.length();
            print_hex(line, &mut self.values);
            self.add(offset, line.len() as u64, BYTES, (start, self.values.length()));
        }
    }

    fn begin(&mut self, group: &Group) {
        let name = if group.name.is_empty() { "unknown" } else { group.name };
        self.enter(Part { kind: group.kind, ..self.part(group.offset, group.length, name) });
    }

    fn end(&mut self) {
        let last = self.items.len();
        let part = &mut self.parts[self.open];
        part.last = last;
        self.open = part.parent;
    }

    fn malformed(&mut self, offset: u64, fault: Fault) {
        let start = self.values.length();
        fault.print(offset, &mut self.values);
        self.add(offset, 0, MALFORMED, (start, start));
    }
}

impl ShowObjects for Items<'_> {
    fn object(&mut self, object: &Object<'_>) {
        self.leave(object.offset);
        self.cut(object.offset);
        let start = self.values.length();
        let path = object.path.unwrap_or(&[]);
        if object.path.is_some() {
            print_path(path, &mut self.values);
        }
        let middle = self.values.length();
        if !matches!(object.value, Value::Hidden) {
            self.values.text("  ");
            object.value.print(path, "; ", &mut self.values);
        }
        let part = self.part(object.offset, object.length, object.kind);
        self.enter(Part { id: object.path.and(Some(part.first)), own: Some(object.own), ..part });
        self.add(object.offset, object.length, object.kind, (start, middle));
    }

    fn ends(&mut self, offset: u64, why: Ends) {
        self.leave(u64::MAX);
        self.end = Some(offset);
        let start = self.values.length();
        self.values.text("the list ends: ");
        why.print(&mut self.values);
        self.add(offset, 0, MALFORMED, (start, start));
        self.bytes(offset, self.table.get(size(offset)..).unwrap_or(&[]));
    }
}

pub(crate) fn items_of<'t>(entry: &Entry<'t>) -> Items<'t> {
    let (parts, items, values) = (Vec::new(), Vec::new(), Out::new(Global));
    let mut items = Items { table: entry.bytes, parts, items, open: 0, values, end: None };
    items.enter(items.part(0, 0, ""));
    if let Some(signature) = entry.signature() {
        walk_with_objects(Global, signature, entry.bytes, &mut items);
    }
    items.leave(u64::MAX);
    items.end();
    items
}
