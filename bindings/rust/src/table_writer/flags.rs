// Made by scripts/erase of crates/acpi_table_writer/src/flags.rt, where it is proved.
//! Numbers of flags.

use crate::table_writer::numbers::bit_of;

/// The number whose bits these flags are, bit 0 first.
pub fn flag_number(flags: &[bool]) -> u32 {
    let mut number = 0;
    let mut i = flags.len();
    while i > 0 {
        i -= 1;
        number = 2 * number + bit_of(flags[i]) as u32;
    }
    number
}
