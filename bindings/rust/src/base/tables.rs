// Made by scripts/erase of crates/acpi_base/src/tables.rt, where it is proved.
//! The tables MADT (section 5.2.12), MCFG and SPCR (section 5.2.6 reserves their signatures), whose mappings
//! have functions of their own.

pub mod madt;
pub mod mcfg;
pub mod spcr;
