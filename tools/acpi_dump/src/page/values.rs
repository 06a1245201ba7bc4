//! The names, values and meanings of fields.

use super::escape::Html;
use super::escape::Piece::{Hex, Id, Name, Text, Value, Words};
use super::escape::{Piece, word_if};
use super::ids;
use crate::compare::outline::{BYTES, Item, MALFORMED, Part, Side};
use crate::prelude::*;

/// From how many letters on a meaning is in a box of a few lines.
const LONG: usize = 240;

/// Whether a field of a table has the offset of a structure of it.
fn is_reference(signature: Signature, name: &str) -> bool {
    matches!(
        (&signature.to_bytes(), name),
        (b"IORT", "Output Reference" | "Node reference")
            | (b"PPTT", "Parent" | "Next Level of Cache" | "Private resource")
            | (b"RHCT", "Offset")
            | (b"VIOT", "Output node")
    )
}

/// The structure of a table whose offset a field is, if it is one's.
pub(super) fn structure_of<'p>(signature: Signature, side: Side<'p>, item: &Item) -> Option<&'p Part> {
    if !is_reference(signature, item.name) {
        return None;
    }
    let offset = number_at(side.table, size(item.offset), size(item.length));
    side.parts.iter().find(|part| part.offset == offset && offset > 0)
}

/// Prints the name and the value of a field, and the structure whose offset it is, which leads to that.
pub(super) fn print_reference<'p>(side: Side<'p>, item: &'p Item, part: &'p Part, link: Piece<'p>, out: &mut Html) {
    out.fill(
        "<th scope=\"row\">$<td>$<td><a href=\"#$\">$ at $</a>\n",
        &[Name(item), Value(side.digits(item)), link, Text(part.name), Hex(part.offset)],
    );
}

/// Prints the name, the value and the meaning of a field. The value leads to a table if it is the address of one.
pub(super) fn print_value(side: Side<'_>, item: &Item, target: Option<ids::Id>, out: &mut Html) {
    out.fill("<th scope=\"row\">$<td>", &[Name(item)]);
    let value = Value(side.digits(item));
    match target {
        Some(table) => out.fill("<a href=\"#$\">$</a>", &[Id(table, None), value]),
        None => out.fill("$", &[value]),
    }
    let meaning = side.meaning(item);
    out.fill(if meaning.len() > LONG { "<td><div>$</div>\n" } else { "<td>$\n" }, &[Text(meaning)]);
}

/// Prints the name, the value and the meaning of a field, each with what the first input has, if that differs.
pub(super) fn print_change(old: Side<'_>, was: &Item, side: Side<'_>, item: &Item, out: &mut Html) {
    let ((old_digits, digits), (meant, meaning)) =
        ((old.digits(was), side.digits(item)), (old.meaning(was), side.meaning(item)));
    out.fill("<th scope=\"row\">$<td>", &[Name(item)]);
    print_changed(Value(old_digits), Value(digits), old_digits == digits, out);
    out.markup("<td><div>");
    print_changed(Text(meant), Text(meaning), meant == meaning, out);
    let is_hidden = (old_digits, meant) == (digits, meaning);
    out.markup(if is_hidden { " other bytes</div>\n" } else { "</div>\n" });
}

/// Prints a text, after the one of the first input unless it is the same.
fn print_changed(was: Piece<'_>, is: Piece<'_>, is_same: bool, out: &mut Html) {
    if is_same { out.fill("$", &[is]) } else { out.fill("<del>$</del> <ins>$</ins>", &[was, is]) }
}

/// Prints the first fields that tell of a folded structure what it is, or the path of an object.
pub(super) fn print_digest(side: Side<'_>, number: usize, part: &Part, out: &mut Html) {
    let told = side.items_in(number).iter().filter(|item| item.part == number && tells(item));
    for (count, item) in told.take(4).enumerate() {
        let meaning = side.meaning(item);
        let is_value = meaning.is_empty() || part.own.is_some();
        let value = if is_value { Value(side.digits(item)) } else { Words(meaning, 48) };
        let name = if part.own.is_some() { "" } else { item.name };
        out.fill("$$ $", &[word_if(count > 0, ", "), Text(name), value]);
    }
}

/// Whether a field tells of a structure what it is.
fn tells(item: &Item) -> bool {
    let is_front = item.within < 5 && matches!(item.name, "Type" | "Length" | "Revision");
    !is_front && item.name != BYTES && item.name != MALFORMED && !item.name.starts_with("Reserved")
}
