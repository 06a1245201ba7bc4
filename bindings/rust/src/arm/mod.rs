// Made by scripts/erase of crates/acpi_arm/src/lib.rt, where it is proved.
//! An Arm machine as its tables describe it: the Generic Interrupt Controller (GIC), by the MADT (section
//! 5.2.12), and the generic timers, by the GTDT (section 5.2.24).
//!
//! Section numbers are the ACPI Specification's, version 6.4.

#![forbid(unsafe_code)]
// What contracts alone use.
#![allow(dead_code, unused_imports, unused_labels, unused_variables)]
// It is written as it is proved.
#![allow(clippy::style, clippy::complexity, clippy::perf, clippy::manual_unwrap_or_default)]

mod frames;
pub mod gic;
pub mod gtdt;
mod interrupt;
mod structures;
mod timers;
