// Made by scripts/erase of crates/acpi_image_reader/src/lib.rt, where it is proved.
//! Physical memory from a file of bytes, as a handler that maps it.

#![forbid(unsafe_code)]
// What contracts alone use.
#![allow(dead_code, unused_imports, unused_labels, unused_variables)]
// It is written as it is proved.
#![allow(clippy::style, clippy::complexity, clippy::perf, clippy::manual_unwrap_or_default)]

mod error;
pub mod image;
pub mod range;
pub mod reader;
mod record;
mod record_list;
pub mod start_index;

pub use image::{ImageError, MemoryImage};
pub use record::Record;
