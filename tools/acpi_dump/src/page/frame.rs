//! What is around the parts of a page: its head, its links at the top, and its end.

use super::Source;
use super::escape::Html;
use super::escape::Piece::{Id, Letters, Markup, Names};
use super::script::{SCRIPT, SCRIPT_HASH};
use super::sheet::{Sheet, Standing};
use super::style::{STYLE, STYLE_HASH};

/// The head up to the title. The policy lets nothing but the two texts work, and no script that a table brings.
const HEAD: &str = "<!doctype html>\n<html lang=\"en\"><head><meta charset=\"utf-8\">\n\
    <meta http-equiv=\"Content-Security-Policy\" content=\"default-src 'none'; style-src 'sha256-$'; \
    script-src 'sha256-$'; base-uri 'none'; form-action 'none'\">\n\
    <meta name=\"viewport\" content=\"width=device-width, initial-scale=1\">\
    <meta name=\"color-scheme\" content=\"light dark\">\n<title>ACPI tables: ";

/// What comes from the title to the links to the tables, with the style and the link to the drawing.
const BODY: &str = "</title>\n<style>$</style></head>\n\
    <body><a class=\"skip\" href=\"#tables\">Skip to the tables</a>\n\
    <nav aria-label=\"Tables\"><a href=\"#top\" class=\"home\">ACPI</a>$<a href=\"#findings\">findings</a>";

/// The rest of the heading of a page that compares two inputs.
const COMPARED: &str = " compared</h1><p class=\"cmp\">from <b>$</b> to <b>$</b></p></header>\n\
    <input type=\"checkbox\" id=\"changed\"> <label for=\"changed\">only what differs</label>\n";

/// What comes after the parts of a page, with the script.
const END: &str = "<footer><p>Written by <code>acpi_dump --html</code>. A field has an address, such as \
    <code>#APIC-0x2c</code>. With the pointer or the focus on a field its bytes are marked, and the other way round; \
    the arrow keys go from field to field.</footer>\n</main>\n<script>$</script></body></html>\n";

/// Prints the front of a page: its head, the links to the drawing, if it is there, the findings and each table, and the
/// heading.
pub(super) fn print_front(source: Source<'_>, sheets: &[Sheet<'_>], has_drawing: bool, out: &mut Html) {
    let input = source.input.names;
    let (title, heading, first) = match source.first {
        Some(first) => ("$ to $", COMPARED, first.names),
        None => ("$", ": $</h1></header>\n", input),
    };
    let names = [Names(first), Names(input)];
    let drawing = if has_drawing { "<a href=\"#machine\">machine</a>" } else { "" };
    out.fill(HEAD, &[Markup(STYLE_HASH), Markup(SCRIPT_HASH)]);
    out.fill(title, &names);
    out.fill(BODY, &[Markup(STYLE), Markup(drawing)]);
    for sheet in sheets {
        print_link(sheet, out);
    }
    out.markup("</nav>\n<main id=\"top\"><header><h1>ACPI tables");
    out.fill(heading, &names);
}

fn print_link(sheet: &Sheet<'_>, out: &mut Html) {
    let class = match sheet.standing {
        _ if sheet.entry.status.is_invalid() => " class=\"bad\"",
        _ if sheet.fold(0).has_findings => " class=\"warn\"",
        Standing::Alone | Standing::Same => "",
        _ => " class=\"dif\"",
    };
    let pieces = [Id(sheet.id, None), Markup(class), Letters(sheet.signature)];
    out.fill("<a href=\"#$\"$>$</a>", &pieces);
}

pub(super) fn print_end(out: &mut Html) {
    out.fill(END, &[Markup(SCRIPT)]);
}
