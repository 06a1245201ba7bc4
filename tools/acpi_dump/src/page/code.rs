//! The operations of a method, in a fold.

use super::escape::Html;
use super::sheet::Sheet;
use crate::compare::code::segments_of;
use crate::compare::outline::Item;
use crate::prelude::*;
use acpi_programs::code::text::CodeText;
use acpi_programs::code::{Extent, list_code};

/// What is before the operations.
const BEGIN: &str = "<tr class=\"code\"><td><td colspan=\"3\"><details><summary>operations</summary><pre>\n";

/// Prints the operations of the object that an item is, if that is a method.
pub(super) fn print_code(sheet: &Sheet<'_>, item: &Item, out: &mut Html) {
    let part = &sheet.side.parts[item.part];
    let Some((start, end)) = part.own.filter(|_| part.name == "Method") else {
        return;
    };
    let scope = segments_of(sheet.side.digits(item));
    let extent = Extent::of(sheet.side.table, size(start), size(end));
    let lines = printed(|out| granted(list_code(Global, sheet.names, extent, &scope, &mut CodeText { out })));
    out.markup(BEGIN);
    for line in lines.lines().filter(|line| !line.is_empty()) {
        out.escaped(line.as_bytes());
        out.markup("\n");
    }
    out.markup("</pre></details>\n");
}
