// Made by scripts/erase of crates/acpi_writer/src/made.rt, where it is proved.
//! Made by scripts/written: what is written field by field, of the lists in specs/.

pub(crate) mod bgrt;
pub(crate) mod fadt;
pub(crate) mod spcr;
