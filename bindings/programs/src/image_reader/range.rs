// Made by scripts/erase of crates/acpi_image_reader/src/range.rt, where it is proved.
//! Whether two ranges of addresses share a byte.

use zacpi::base::AddressRange;

/// Whether some byte is in both of two ranges of addresses. One without bytes shares none.
pub fn shares_byte(one: AddressRange, other: AddressRange) -> bool {
    one.length > 0 && other.length > 0 && (one.holds(other.address) || other.holds(one.address))
}
