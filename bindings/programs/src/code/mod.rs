// Made by scripts/erase of crates/acpi_dump_code/src/lib.rt, where it is proved.
//! AML as a listing: one operation a line, by the opcodes of ACPI 6.5, section 20. AML is not run.
//!
//! Every function returns for every input, without fault. What is listed is tested, and not proved.

#![forbid(unsafe_code)]
// What contracts alone use.
#![allow(dead_code, unused_imports, unused_labels, unused_variables)]
// It is written as it is proved.
#![allow(clippy::style, clippy::complexity, clippy::perf, clippy::manual_unwrap_or_default)]

mod begun;
pub mod changes;
mod known;
mod lines;
mod listing;
mod names;
mod operations;
mod parts;
mod terms;
pub mod text;
mod why;

pub use known::{Known, Paths, paths_of};
pub use listing::{Extent, ShowCode, list_code, list_table};
