//! The list of the tables.

use super::escape::Html;
use super::escape::Piece;
use super::escape::Piece::{Bytes, Decimal, Hex, Id, Letters, Markup, Text};
use super::sheet::{Sheet, Standing};
use crate::prelude::*;
use acpi_programs::input::entries::header_of;
use acpi_programs::input::status::Status;
use acpi_programs::walk::layouts::title_of;

pub(super) fn print_list(sheets: &[Sheet<'_>], out: &mut Html) {
    out.markup(
        "<section id=\"tables\"><h2>The tables <span class=\"tools\" hidden><button data-all=\"1\">Unfold all</button> \
         <button data-all=\"0\">Fold all</button></span></h2>\n\
         <div class=\"scroll\" tabindex=\"0\" role=\"region\" aria-label=\"List of the tables\"><table class=\"list\">\
         <thead><tr><th scope=\"col\">Table<th scope=\"col\" class=\"w\">Title<th scope=\"col\">Status\
         <th scope=\"col\">Place<th scope=\"col\" class=\"num\">Length<th scope=\"col\" class=\"num\">Revision\
         <th scope=\"col\" class=\"w\">OEM id<th scope=\"col\" class=\"w\">OEM table id\
         <th scope=\"col\" class=\"w num\">OEM revision<th scope=\"col\" class=\"w\">Creator<tbody>\n",
    );
    for sheet in sheets {
        print_row(sheet, out);
    }
    out.markup("</table></div></section>\n");
}

fn print_row(sheet: &Sheet<'_>, out: &mut Html) {
    let class = if sheet.id.is_first { " class=\"del\"" } else { "" };
    let [badge, status, standing] = badges_of(sheet);
    out.fill(
        "<tr$><th scope=\"row\"><a href=\"#$\">$</a><td class=\"w\">$<td><span class=\"$\">$</span>$\
         <td><code>$</code><td class=\"num\">$<td class=\"num\">",
        &[
            Markup(class),
            Id(sheet.id, None),
            Letters(sheet.signature),
            Markup(title_of(sheet.signature)),
            badge,
            status,
            standing,
            place_of(sheet),
            Decimal(sheet.entry.bytes.len() as u64),
        ],
    );
    match header_of(sheet.entry) {
        Some(header) => out.fill(
            "$<td class=\"w\"><code>$</code><td class=\"w\"><code>$</code><td class=\"w num\">$\
             <td class=\"w\"><code>$</code>\n",
            &[
                Decimal(header.revision as u64),
                Bytes(&header.oem_id),
                Bytes(&header.oem_table_id),
                Hex(header.oem_revision as u64),
                Bytes(&header.creator_id.to_le_bytes()),
            ],
        ),
        None => out.markup("<td class=\"w\"><td class=\"w\"><td class=\"w\"><td class=\"w\">\n"),
    }
}

pub(super) fn place_of<'p>(sheet: &Sheet<'p>) -> Piece<'p> {
    match sheet.entry.place {
        Place::Address(address) => Hex(address),
        Place::File(name) => Text(name),
        Place::Nowhere => Text(""),
    }
}

/// The class and the words of the result of a table's checks, and how it differs from the other input.
pub(super) fn badges_of<'p>(sheet: &Sheet<'p>) -> [Piece<'p>; 3] {
    let status = sheet.entry.status;
    let class = match status {
        Status::Valid => "ok",
        _ if status.is_invalid() => "bad",
        _ => "warn",
    };
    let standing = match sheet.standing {
        Standing::Alone => "",
        Standing::Only if sheet.id.is_first => " <span class=\"diff\">only in the first</span>",
        Standing::Only => " <span class=\"diff\">only in the second</span>",
        Standing::Same => " <span class=\"same\">same bytes</span>",
        Standing::Beside(_) => " <span class=\"diff\">differs</span>",
    };
    [Text(class), Piece::Status(status), Markup(standing)]
}
