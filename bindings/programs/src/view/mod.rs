// Made by scripts/erase of crates/acpi_view_lib/src/lib.rt, where it is proved.
//! The ACPI tables in a file of memory as lines, and the command that requests them.

#![forbid(unsafe_code)]
// What contracts alone use.
#![allow(dead_code, unused_imports, unused_labels, unused_variables)]
// It is written as it is proved.
#![allow(clippy::style, clippy::complexity, clippy::perf, clippy::manual_unwrap_or_default)]

pub mod arguments;
pub mod lines;
pub mod run;
