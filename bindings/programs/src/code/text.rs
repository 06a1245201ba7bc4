// Made by scripts/erase of crates/acpi_dump_code/src/text.rt, where it is proved.
//! A listing as lines of text.

use crate::code::listing::ShowCode;
use crate::walk::out::Out;

/// How many levels are shown by blanks at most, so that lines stay short.
const MOST: usize = 40;

/// The lines of a listing: where they are written to.
pub struct CodeText<'a> {
    pub out: &'a mut Out,
}

/// Prints an offset, and two blanks for each level.
fn print_offset(offset: u64, depth: usize, out: &mut Out) {
    write!(out, "  {offset:04x}  ");
    for _ in 0..depth.min(MOST) {
        out.text("  ");
    }
}

/// Prints why a block isn't listed up to an offset.
pub fn print_end(end: u64, why: &str, out: &mut Out) {
    out.words("not listed up to #: ", &[end]);
    out.text(why)
}

impl ShowCode for CodeText<'_> {
    fn line(&mut self, offset: u64, depth: usize, text: &str) {
        print_offset(offset, depth, self.out);
        self.out.fill("$\n", &[text])
    }

    fn ends(&mut self, offset: u64, end: u64, depth: usize, why: &str) {
        print_offset(offset, depth, self.out);
        print_end(end, why, self.out);
        self.out.text("\n")
    }
}
