// Made by scripts/erase of crates/acpi_c_devices/src/writing/facs.rt, where it is proved.
//! The FACS that is written for C (section 5.2.10).

mod shown;

pub use shown::facs_contents;
