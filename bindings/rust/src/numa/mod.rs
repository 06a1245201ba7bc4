// Made by scripts/erase of crates/acpi_numa/src/lib.rt, where it is proved.
//! Proximity domains: those that the SRAT puts processors and memory into (section 5.2.16), and how far
//! localities are from each other by the SLIT (section 5.2.17).
//!
//! Section numbers are the ACPI Specification's, version 6.4.

#![forbid(unsafe_code)]
// What contracts alone use.
#![allow(dead_code, unused_imports, unused_labels, unused_variables)]
// It is written as it is proved.
#![allow(clippy::style, clippy::complexity, clippy::perf, clippy::manual_unwrap_or_default)]

pub mod error;
pub mod slit;
pub mod srat;

pub use error::{NumaError, NumaResult};
pub use slit::{Distances, Slit};
pub use srat::{Domains, MemoryAffinities, MemoryRange, Srat, SratEntry, SratEntryIter};
