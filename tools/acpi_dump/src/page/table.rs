//! A table on a page: its fields beside its bytes.

use super::bytes::print_bytes;
use super::escape::Html;
use super::escape::Piece::{Decimal, Id, Letters, Markup, Text};
use super::list::{badges_of, place_of};
use super::rows::print_rows;
use super::sheet::{Sheet, Standing};
use acpi_programs::input::entries::header_of;
use acpi_programs::walk::layouts::title_of;

/// From how many bytes on a table is folded.
const LONG: usize = 4096;

pub(super) fn print_table<'p>(sheet: &Sheet<'p>, sheets: &[Sheet<'p>], out: &mut Html) {
    print_beginning(sheet, out);
    print_rows(sheet, sheets, out);
    out.fill(
        "</div><div class=\"bs\"><p class=\"o\"><output></output></p>\
         <pre tabindex=\"0\" role=\"region\" aria-label=\"Bytes of $\">",
        &[Letters(sheet.signature)],
    );
    print_bytes(sheet.entry.bytes, Some(sheet), out);
    out.markup("</pre>");
    if let Standing::Beside(old) = sheet.standing {
        out.markup("<details class=\"old\"><summary>bytes in the first input</summary><pre>");
        print_bytes(old.table, None, out);
        out.markup("</pre></details>");
    }
    out.markup("</div></div></details></section>\n");
}

/// Prints what a table's section begins with: what it is called, and what there is to say of it. It begins unfolded
/// unless it is a table of AML, long, or the same in both inputs.
fn print_beginning(sheet: &Sheet<'_>, out: &mut Html) {
    let (class, is_same) = match sheet.standing {
        Standing::Alone | Standing::Beside(_) => ("t", false),
        Standing::Same => ("t same", true),
        Standing::Only => ("t only", false),
    };
    let is_long = sheet.entry.bytes.len() >= LONG || sheet.is(b"DSDT") || sheet.is(b"SSDT");
    let open = if is_long || is_same { "" } else { " open" };
    let [badge, status, standing] = badges_of(sheet);
    out.fill(
        "<section class=\"$\" id=\"$\"><details$><summary class=\"th\"><h2>$</h2> <span class=\"ti\">$</span> \
         <span class=\"$\">$</span>$",
        &[
            Text(class),
            Id(sheet.id, None),
            Text(open),
            Letters(sheet.signature),
            Markup(title_of(sheet.signature)),
            badge,
            status,
            standing,
        ],
    );
    let count: usize = sheet.marks.fields.iter().map(|mark| mark.findings.len()).sum();
    if count > 0 {
        out.words(" <span class=\"warn\">findings: %</span>", &[count as u64]);
    }
    let length = Decimal(sheet.entry.bytes.len() as u64);
    out.fill("<small>$ · $ bytes", &[place_of(sheet), length]);
    if let Some(header) = &header_of(sheet.entry) {
        out.words(" · revision %", &[header.revision as u64]);
    }
    out.markup("</small></summary>\n<div class=\"two\"><div class=\"fs\">");
}
