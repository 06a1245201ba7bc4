// Made by scripts/erase of crates/acpi_image/src/lib.rt, where it is proved.
//! Physical memory from a file of bytes, as a handler that maps it, and files of memory that are written
//! with given tables.

#![forbid(unsafe_code)]
// What contracts alone use.
#![allow(dead_code, unused_imports, unused_labels, unused_variables)]
// It is written as it is proved.
#![allow(clippy::style, clippy::complexity, clippy::perf, clippy::manual_unwrap_or_default)]

mod error;
pub mod sums;
pub mod write;

pub use crate::image_reader::{ImageError, MemoryImage, Record, image, reader};
pub use write::{PlacedTable, WriteError, write_image};
