// Made by scripts/erase of crates/acpi_c_interrupts/src/writing.rt, where it is proved.
//! The tables of interrupts and timers that are written for C: what each is to contain, as `acpi_table_writer` has it.

pub mod gic;
pub mod gtdt;
pub mod madt;
