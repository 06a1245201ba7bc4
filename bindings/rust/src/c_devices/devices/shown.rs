// Made by scripts/erase of crates/acpi_c_devices/src/devices/shown.rt, where it is proved.
//! Made by scripts/shown: records for C, and what is written of C's, as definitions in specs/ have them.

use crate::c_devices::records::GenericAddress;

pub(crate) fn generic_record(a: &crate::base::address::GenericAddress) -> GenericAddress {
    GenericAddress {
        address: a.address,
        space: a.address_space.code(),
        bit_width: a.bit_width,
        bit_offset: a.bit_offset,
        access_size: a.access_size.code(),
        reserved: [0; 4],
    }
}
