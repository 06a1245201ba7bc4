// Made by scripts/erase of crates/acpi_dump_walk/src/hex.rt, where it is proved.
//! Bytes as `hexdump -C` lays them out.

use crate::walk::fields::print_text;
use crate::walk::out::Out;

/// Prints bytes in lines of 16: the offset, the bytes in hexadecimal, and their characters. Lines
/// that are the same as the one before are one `*`. At last comes the number of bytes.
pub fn print_dump(bytes: &[u8], out: &mut Out) {
    let mut before: &[u8] = &[];
    let mut starred = false;
    let mut offset: u64 = 0;
    for line in bytes.chunks(16) {
        if line != before {
            print_line(offset, line, out);
            starred = false;
        } else if !starred {
            out.text("*\n");
            starred = true;
        }
        before = line;
        offset = offset.saturating_add(line.len() as u64);
    }
    writeln!(out, "{offset:08x}")
}

/// Prints a line of up to 16 bytes.
fn print_line(offset: u64, line: &[u8], out: &mut Out) {
    write!(out, "{offset:08x}  ");
    for place in 0..16 {
        if place == 8 {
            out.text(" ");
        }
        match line.get(place) {
            Some(byte) => write!(out, "{byte:02x} "),
            None => out.text("   "),
        }
    }
    out.text(" |");
    print_text(line, out);
    out.text("|\n")
}
