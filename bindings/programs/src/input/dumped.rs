// Made by scripts/erase of crates/acpi_dump_input/src/dumped.rt, where it is proved.
//! A table in the text of acpidump, which acpixtract and this program read back.

use crate::input::entries::Entry;
use crate::input::machine::letters_of;
use crate::walk::fields::print_text;
use crate::walk::out::Out;

/// Prints the letters by which a table is named, which are its signature, an RSDP's without its blanks. A byte that is
/// none of a file's name, or would be read as more than one, is two hexadecimal digits.
pub(crate) fn print_letters(table: &[u8], out: &mut Out) {
    let letters = if table.starts_with(b"RSD PTR ") { b"RSDP" } else { letters_of(table) };
    for byte in letters {
        if byte.is_ascii_alphanumeric() || matches!(*byte, b'_' | b'!' | b'#' | b'$') {
            out.bytes(&[*byte]);
        } else {
            write!(out, "{byte:02x}");
        }
    }
}

/// Prints a table: a heading with its address, or 0 if that isn't known, rows of its bytes, and a blank line.
pub fn print_dumped(entry: &Entry<'_>, out: &mut Out) {
    let address = entry.place.address().unwrap_or(0);
    print_letters(entry.bytes, out);
    writeln!(out, " @ 0x{address:016X}");
    let mut offset: u64 = 0;
    for row in entry.bytes.chunks(16) {
        print_row(offset, row, out);
        offset = offset.saturating_add(16);
    }
    out.text("\n")
}

/// Prints up to 16 bytes: their offset, the bytes, and their characters.
fn print_row(offset: u64, row: &[u8], out: &mut Out) {
    if offset < 0x10000 {
        write!(out, "    {offset:04X}: ");
    } else {
        write!(out, "{offset:8X}: ");
    }
    for place in 0..16 {
        match row.get(place) {
            Some(byte) => write!(out, "{byte:02X} "),
            None => out.text("   "),
        }
    }
    out.text(" ");
    print_text(row, out);
    out.text("\n")
}
