// Made by scripts/erase of crates/acpi_c_lib/src/lib.rt, where it is proved.
//! The calls of the library for C. The crate `acpi_c` exports each of them, and `include/zacpi.h` has the order of
//! their errors. Sections are of ACPI 6.4 unless another document is named.
//!
//! Each call can be called with any numbers. One that is passed a source checks the regions, opens the tables anew, and
//! returns what it found, or an error. No call allocates memory or keeps a state. A list writes the items that fit into
//! its capacity, and returns the number of all items.

#![forbid(unsafe_code)]
// What contracts alone use.
#![allow(dead_code, unused_imports, unused_labels, unused_variables)]
// It is written as it is proved.
#![allow(clippy::style, clippy::complexity, clippy::perf, clippy::manual_unwrap_or_default)]

pub mod answer;
mod candidates;
pub mod clip;
pub mod copied;
pub mod entries;
pub mod entry_faults;
pub mod facs;
pub mod faults;
pub mod lists;
pub mod members;
pub mod missing;
pub mod opening;
mod order;
pub mod records;
pub mod redistributors;
pub mod refusal;
pub mod regions;
pub mod rsdp;
pub mod tables;
pub mod walks;
