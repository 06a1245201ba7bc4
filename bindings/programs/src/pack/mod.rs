// Made by scripts/erase of crates/acpi_pack_lib/src/lib.rt, where it is proved.
//! Images of memory from files: the command that the arguments are, the places of the files, and the file
//! that is made.

#![forbid(unsafe_code)]
// What contracts alone use.
#![allow(dead_code, unused_imports, unused_labels, unused_variables)]
// It is written as it is proved.
#![allow(clippy::style, clippy::complexity, clippy::perf, clippy::manual_unwrap_or_default)]

pub mod arguments;
mod error;
pub mod files;
mod help;
pub mod listing;
pub mod outcome;
mod pack;
mod place;
mod plain;
pub mod program;
mod reading;
mod sources;
mod sums;

pub use error::{FileError, Refusal};
pub use pack::{pack_files, pack_tables};
pub use sources::FileBytes;
