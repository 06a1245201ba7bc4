//! Single values of tables.

use crate::document::{self, Document, Rows, Value};
use crate::dump::run::Run;
use crate::dump::wanted::{Finder, Wanted};
use crate::prelude::*;

/// A value as it is: a line.
struct Raw<'r> {
    out: &'r mut Out,
}

impl Show for Raw<'_> {
    fn field(&mut self, shown: &Field<'_>) {
        match shown.label.meaning {
            Meaning::Text => {
                let end = shown.bytes.iter().rposition(|byte| *byte != 0).map_or(0, |last| last + 1);
                print_text(&shown.bytes[..end], self.out);
            }
            // What it means, without what a GUID is called.
            kind @ (Meaning::Wide | Meaning::Guid) => {
                let meaning = printed(|out| print_meaning(shown, out));
                let text = meaning.trim_ascii_start();
                let is_guid = matches!(kind, Meaning::Guid);
                let digits = text.split_once("  ").filter(|_| is_guid).map(|(digits, _)| digits);
                self.out.text(digits.unwrap_or(text));
            }
            _ => print_value(shown, self.out),
        }
        self.out.text("\n");
    }
}

impl ShowObjects for Raw<'_> {
    fn object(&mut self, object: &Object<'_>) {
        object.value.print_raw(object.path.unwrap_or(&[]), self.out);
        self.out.text("\n");
    }

    fn ends(&mut self, _offset: u64, _why: Ends) {}
}

/// Shows a value of the first table that has it, and returns whether one has.
fn show_value<S: ShowObjects>(entries: &[Entry<'_>], wanted: Wanted<'_>, show: &mut S) -> bool {
    entries.iter().filter(|entry| entry.has(wanted.signature)).any(|entry| {
        let mut finder = Finder::new(wanted, &mut *show);
        if let Some(signature) = entry.signature() {
            walk_with_objects(Global, signature, entry.bytes, &mut finder);
        }
        finder.is_found
    })
}

impl Run<'_> {
    pub(super) fn print_values(&mut self, entries: &[Entry<'_>]) -> u8 {
        let mut values = Vec::new();
        for (get, wanted) in &self.request.wanted {
            let is_found = if self.is_json() {
                let mut rows = Rows::default();
                show_value(entries, *wanted, &mut rows);
                values.push(Value { found: rows.into_row(), get });
                values.last().is_some_and(|value| value.found.is_some())
            } else {
                show_value(entries, *wanted, &mut Raw { out: &mut *self.out })
            };
            if !is_found {
                self.fail(format_args!("no value {get}"));
            }
        }
        if self.is_json() {
            document::print(&Document::of_values(&self.request.inputs, values), self.out);
        }
        self.strict_status(entries)
    }
}
