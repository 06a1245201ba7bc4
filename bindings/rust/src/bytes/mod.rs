// Made by scripts/erase of crates/acpi_bytes/src/lib.rt, where it is proved.
//! What bytes of static ACPI tables mean before any memory is mapped: fields, sums and texts of bytes, entries by a
//! grammar, generic addresses, the header that every table begins with, and its checks.
//!
//! Also here: errors, ranges, owned slices, and the traits of handlers, which map memory, and of records, which are
//! read from bytes.
//!
//! Section numbers are those of the ACPI Specification, version 6.4.

#![forbid(unsafe_code)]
// What contracts alone use.
#![allow(dead_code, unused_imports, unused_labels, unused_variables)]
// It is written as it is proved.
#![allow(clippy::style, clippy::complexity, clippy::perf, clippy::manual_unwrap_or_default)]

pub mod address;
pub mod bytes;
mod codes;
pub mod entries;
pub mod error;
pub mod extended;
pub mod handler;
pub mod header;
pub mod managed_slice;
pub mod range;
pub mod signature;
mod sum;
