// Made by scripts/erase of crates/acpi_riscv/src/lib.rt, where it is proved.
//! The interrupt controllers and harts of a RISC-V machine, by the entries of types 0x18 to 0x1b of its MADT.
//!
//! Section numbers are the ACPI Specification's, version 6.6.

#![forbid(unsafe_code)]
// What contracts alone use.
#![allow(dead_code, unused_imports, unused_labels, unused_variables)]
// It is written as it is proved.
#![allow(clippy::style, clippy::complexity, clippy::perf, clippy::manual_unwrap_or_default)]

mod entry;
mod walk;

pub use entry::{Aplic, Imsic, Plic, Rintc, RiscvEntry};
pub use walk::RiscvEntryIter;
