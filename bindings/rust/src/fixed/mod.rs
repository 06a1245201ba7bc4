// Made by scripts/erase of crates/acpi_fixed/src/lib.rt, where it is proved.
//! Tables of one fixed layout: the Fixed ACPI Description Table (FADT, section 5.2.9), and the Boot Graphics
//! Resource Table (BGRT, section 5.2.22).
//!
//! Section numbers are the ACPI Specification's, version 6.4.

#![forbid(unsafe_code)]
// What contracts alone use.
#![allow(dead_code, unused_imports, unused_labels, unused_variables)]
// It is written as it is proved.
#![allow(clippy::style, clippy::complexity, clippy::perf, clippy::manual_unwrap_or_default)]

pub mod bgrt;
pub mod fadt;
