//! One line a table.

use crate::dump::paint::Paint;
use crate::prelude::*;
use acpi_programs::input::entries::header_of;

fn last_part(path: &str) -> &str {
    match path.rsplit_once('/') {
        Some((_, name)) if !name.is_empty() => name,
        _ => path,
    }
}

/// The heading of the column of places, and how wide that is: as an address, or as the longest name of a file.
fn place_column(entries: &[Entry<'_>]) -> (&'static str, usize) {
    let (mut heading, mut width) = ("ADDRESS", 16usize);
    for entry in entries {
        if let Place::File(path) = entry.place {
            heading = "FILE";
            width = width.max(last_part(path).len());
        }
    }
    (heading, width)
}

pub(crate) fn print_lines(entries: &[Entry<'_>], paint: Paint, out: &mut Out) {
    let (place, width) = place_column(entries);
    let columns = "LENGTH   REV OEM ID TABLE ID OEM REV  CRTR CRTR REV STATUS";
    paint.heading(&format_args!("SIG  {place:<width$} {columns}"), out);
    out.text("\n");
    for entry in entries {
        print_line(entry, width, paint, out);
    }
}

fn print_line(entry: &Entry<'_>, width: usize, paint: Paint, out: &mut Out) {
    let bytes = entry.bytes;
    let is_cut = bytes.len() < SdtHeader::MIN_LENGTH;
    print_text(if is_cut { b"-   " } else { &bytes[..4] }, out);
    print_place(entry.place, width, out);
    match &header_of(entry) {
        Some(header) if entry.sought != Some(Signature::FACS) => print_columns(header, out),
        _ => {
            // A FACS or an RSDP has the length alone.
            if is_cut {
                out.text("-       ");
            } else if bytes.starts_with(b"RSD PTR ") {
                write!(out, "{:08x}", bytes.len());
            } else {
                write!(out, "{:08x}", field(bytes, 4, 4));
            }
            out.text(" -   -      -        -        -    -       ");
        }
    }
    out.text(" ");
    paint.status(entry.status, out);
    out.text("\n");
}

fn print_place(place: Place<'_>, width: usize, out: &mut Out) {
    out.text(" ");
    let start = out.length();
    match place {
        Place::Address(address) => write!(out, "{address:016x}"),
        Place::File(path) => out.escaped(last_part(path).as_bytes()),
        Place::Nowhere => out.text("-"),
    }
    for _ in out.length().saturating_sub(start)..width {
        out.text(" ");
    }
    out.text(" ");
}

fn print_columns(header: &SdtHeader, out: &mut Out) {
    write!(out, "{:08x} {:02x}  ", header.length, header.revision);
    print_text(&header.oem_id, out);
    out.text(" ");
    print_text(&header.oem_table_id, out);
    write!(out, " {:08x} ", header.oem_revision);
    print_text(&header.creator_id.to_le_bytes(), out);
    write!(out, " {:08x}", header.creator_revision);
}
