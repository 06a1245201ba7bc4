//! The contents of chosen tables.

use super::getters::print_getters;
use super::paint::Paint;
use super::request::{Choice, Contents};
use crate::compare::code::names_in;
use crate::document::Part;
use crate::prelude::*;
use acpi_programs::code::text::CodeText;
use acpi_programs::code::{Paths, list_table};
use acpi_programs::input::dumped::print_dumped;
use acpi_programs::input::status::Status;
use acpi_programs::walk::hex::print_dump;
use acpi_programs::walk::text::Text;

/// Whether a choice has a table, of which some byte is there.
fn chooses(choice: &Choice, entry: &Entry<'_>) -> bool {
    choice.signature.is_none_or(|signature| entry.has(signature)) && !entry.bytes.is_empty()
}

/// The tables that choices have, choice by choice, each with its form: in one form it is there once.
fn shown_of<'e, 'i>(entries: &'e [Entry<'i>], choices: &[Choice]) -> Vec<(&'e Entry<'i>, Contents)> {
    let mut shown = Vec::new();
    for (number, choice) in choices.iter().enumerate() {
        let is_first = |entry: &&Entry<'_>| {
            !choices[..number].iter().any(|before| before.contents == choice.contents && chooses(before, entry))
        };
        let chosen = entries.iter().filter(|entry| chooses(choice, entry)).filter(is_first);
        shown.extend(chosen.map(|entry| (entry, choice.contents)));
    }
    shown
}

/// The tables that some choice has, or all if there is no choice.
pub(crate) fn chosen_of<'l>(entries: &[Entry<'l>], choices: &[Choice]) -> Vec<Entry<'l>> {
    let is_chosen = |entry: &&Entry<'_>| choices.is_empty() || choices.iter().any(|choice| chooses(choice, entry));
    entries.iter().filter(is_chosen).copied().collect()
}

/// The names that tables define, if the operations of some are listed, and else none.
pub(crate) fn names_for(entries: &[Entry<'_>], choices: &[Choice]) -> Paths {
    let lists_code = choices.iter().any(|choice| choice.contents == Contents::Code);
    names_in(if lists_code { entries } else { &[] })
}

/// The tables that are chosen, each with what a document contains of it.
pub(crate) fn parts_of<'p>(
    entries: &'p [Entry<'p>],
    choices: &[Choice],
    names: &'p Names<'p>,
) -> Vec<(&'p Entry<'p>, Part<'p>)> {
    let part = |(entry, contents): (&'p Entry<'p>, Contents)| match contents {
        Contents::Code if entry.has_aml() => (entry, Part::Code(names)),
        Contents::Code | Contents::Fields => (entry, Part::Fields),
        Contents::Bytes => (entry, Part::Bytes),
        Contents::Dumped => (entry, Part::Nothing),
    };
    shown_of(entries, choices).into_iter().map(part).collect()
}

pub(crate) fn print_tables(entries: &[Entry<'_>], choices: &[Choice], names: &Names<'_>, paint: Paint, out: &mut Out) {
    for (entry, contents) in shown_of(entries, choices) {
        print_table(entry, contents, names, paint, out);
    }
}

/// Prints of each signature that is chosen and has no table that it has none.
pub(crate) fn tell_missing(entries: &[Entry<'_>], choices: &[Choice], name: &str, log: &mut Log) {
    for choice in choices {
        if let Some(signature) = choice.signature
            && !entries.iter().any(|entry| chooses(choice, entry))
        {
            fail(log, name, &format_args!("no table {signature}"));
        }
    }
}

/// Prints the contents of a table, under where it is and, unless it is valid, what the checks say.
fn print_table(entry: &Entry<'_>, contents: Contents, names: &Names<'_>, paint: Paint, out: &mut Out) {
    if let Contents::Dumped = contents {
        return print_dumped(entry, out);
    }
    print_name(entry, out);
    out.text("\n");
    if !matches!(entry.status, Status::Valid) {
        out.text("  check: ");
        paint.status(entry.status, out);
        out.text("\n");
    }
    match contents {
        Contents::Bytes => print_dump(entry.bytes, out),
        Contents::Code if entry.has_aml() => granted(list_table(Global, names, entry.bytes, &mut CodeText { out })),
        _ => print_fields(entry, out),
    }
}

fn print_fields(entry: &Entry<'_>, out: &mut Out) {
    let signature = own_signature(entry.bytes);
    walk_with_objects(Global, signature, entry.bytes, &mut Text { out, depth: 0 });
    if signature == Signature::FADT {
        print_getters(entry.bytes, out);
    }
}
