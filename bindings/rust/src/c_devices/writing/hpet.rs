// Made by scripts/erase of crates/acpi_c_devices/src/writing/hpet.rt, where it is proved.
//! The HPET that is written for C, from the record as which C reads it.

mod shown;

pub use shown::hpet_info_of;
