// Made by scripts/erase of crates/acpi_c_machine/src/lib.rt, where it is proved.
//! The calls of the library for C that write tables, and all tables of a machine. `acpi_c_lib` has the rules that all
//! calls share.

#![forbid(unsafe_code)]
// What contracts alone use.
#![allow(dead_code, unused_imports, unused_labels, unused_variables)]
// It is written as it is proved.
#![allow(clippy::style, clippy::complexity, clippy::perf, clippy::manual_unwrap_or_default)]

pub mod machine;
pub mod writing;
pub mod written_records;
