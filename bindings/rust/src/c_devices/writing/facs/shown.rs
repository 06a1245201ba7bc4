// Made by scripts/erase of crates/acpi_c_devices/src/writing/facs/shown.rt, where it is proved.
//! Made by scripts/shown: records for C, and what is written of C's, as definitions in specs/ have them.

use crate::c_devices::written_records::FacsContents;

pub fn facs_contents(c: &FacsContents) -> crate::write::FacsContents {
    crate::write::FacsContents {
        hardware_signature: c.hardware_signature,
        waking_vector: c.waking_vector,
        x_waking_vector: c.waking_vector_64,
        supports_s4bios: c.supports_s4bios != 0,
        supports_64_bit_wake: c.supports_64_bit_wake != 0,
    }
}
