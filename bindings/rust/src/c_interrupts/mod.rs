// Made by scripts/erase of crates/acpi_c_interrupts/src/lib.rt, where it is proved.
//! The calls of the library for C about processors, interrupts and timers, by the MADT and the GTDT (sections 5.2.12
//! and 5.2.24), and what these tables are to contain. `acpi_c_lib` has the rules that all calls share.

#![forbid(unsafe_code)]
// What contracts alone use.
#![allow(dead_code, unused_imports, unused_labels, unused_variables)]
// It is written as it is proved.
#![allow(clippy::style, clippy::complexity, clippy::perf, clippy::manual_unwrap_or_default)]

pub mod apics;
pub mod arm;
mod known;
pub mod madt_faults;
pub mod riscv;
pub mod routes;
pub mod writing;
pub mod written_records;
