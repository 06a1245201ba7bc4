// Made by scripts/erase of crates/acpi_table_writer/src/numbers.rt, where it is proved.
//! The bytes of numbers, the lowest first, and of yes and no.

/// The two bytes of a number, the lowest first.
pub(crate) fn word(number: u16) -> [u8; 2] {
    number.to_le_bytes()
}

/// The four bytes of a number, the lowest first.
pub fn dword(number: u32) -> [u8; 4] {
    number.to_le_bytes()
}

/// The eight bytes of a number, the lowest first.
pub fn qword(number: u64) -> [u8; 8] {
    number.to_le_bytes()
}

/// 1 for yes, 0 for no.
pub fn bit_of(b: bool) -> u8 {
    if b { 1 } else { 0 }
}
