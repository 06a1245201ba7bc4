// Made by scripts/erase of crates/acpi_c_devices/src/writing.rt, where it is proved.
//! The tables of devices and domains that are written for C: what each is to contain, as `acpi_writer` has it.

pub mod bgrt;
pub mod facs;
pub mod fadt;
pub mod hpet;
pub mod mcfg;
pub mod spcr;
pub mod srat;
