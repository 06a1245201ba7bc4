// Made by scripts/erase of crates/acpi_table_writer/src/made/generic.rt, where it is proved.
//! Made by scripts/written of specs/Generic.antt.

use crate::base::address::GenericAddress;
use crate::table_writer::fields::Field;

/// The fields of a register.
pub(crate) fn address_fields(g: &GenericAddress) -> [Field; 5] {
    [
        // 0: Address Space ID
        Field::U8(g.address_space.code()),
        // 1: Register Bit Width, 2: Register Bit Offset
        Field::U8(g.bit_width),
        Field::U8(g.bit_offset),
        // 3: Access Size, 4: Address
        Field::U8(g.access_size.code()),
        Field::U64(g.address),
    ]
}
