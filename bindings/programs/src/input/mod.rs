// Made by scripts/erase of crates/acpi_dump_input/src/lib.rt, where it is proved.
//! Inputs: what the program is pointed at, as memory or as tables, the tables that it has with what their checks say,
//! and how these are saved as files.
//!
//! Every function returns for every input, without fault. The tables of acpidump's and acpiview's text are exact by
//! a definition, and so are those of a memory, each with the error of the library's own lookup. What is saved is the
//! bytes that are given, in the folder or under the name that is given.

#![forbid(unsafe_code)]
// What contracts alone use.
#![allow(dead_code, unused_imports, unused_labels, unused_variables)]
// It is written as it is proved.
#![allow(clippy::style, clippy::complexity, clippy::perf, clippy::manual_unwrap_or_default)]

pub mod candidates;
mod checks;
pub mod dumped;
pub mod entries;
pub mod errors;
pub mod extract;
mod flaws;
mod folder;
pub mod gather;
pub mod kind;
pub mod machine;
mod memory;
mod order;
pub mod read;
mod row;
pub mod sources;
pub mod status;
pub mod tables;
mod text;
mod wide;
