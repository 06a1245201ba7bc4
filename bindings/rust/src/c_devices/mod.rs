// Made by scripts/erase of crates/acpi_c_devices/src/lib.rt, where it is proved.
//! The calls of the library for C about devices, power, domains and IOMMUs, each by the table that describes it, and
//! what these tables are to contain. `acpi_c_lib` has the rules that all calls share.

#![forbid(unsafe_code)]
// What contracts alone use.
#![allow(dead_code, unused_imports, unused_labels, unused_variables)]
// It is written as it is proved.
#![allow(clippy::style, clippy::complexity, clippy::perf, clippy::manual_unwrap_or_default)]

pub mod console;
pub mod devices;
pub mod fixed;
pub mod iommu;
mod known;
pub mod numa;
pub mod pci;
pub mod power;
pub mod records;
pub mod writing;
pub mod written_records;
