// Made by scripts/erase of crates/acpi_table_writer/src/lib.rt, where it is proved.
//! Static ACPI tables from what they contain of processors, interrupt controllers, timers, memory and PCI, written into
//! a slice of the caller's; and what lays out the fields of any table.
//!
//! Section numbers refer to the ACPI Specification, version 6.4.

#![forbid(unsafe_code)]
// What contracts alone use.
#![allow(dead_code, unused_imports, unused_labels, unused_variables)]
// It is written as it is proved.
#![allow(clippy::style, clippy::complexity, clippy::perf, clippy::manual_unwrap_or_default)]

mod arm;
pub mod checked;
pub mod contents;
pub mod error;
pub mod fields;
pub mod flags;
pub mod generic;
pub mod gtdt;
pub mod hpet;
pub mod ids;
pub mod listed;
mod made;
pub mod madt;
pub mod mcfg;
pub mod numbers;
pub mod rhct;
pub mod slit;
pub mod spelled;
pub mod srat;
pub mod table;

pub use checked::{Checked, require};
pub use contents::SlitContents;
pub use error::WriterError;
pub use gtdt::{GtBlockContents, GtdtContents, PlatformTimerContents, write_gtdt};
pub use hpet::write_hpet;
pub use ids::TableIds;
pub use listed::Listed;
pub use madt::gic::{GicContents, write_gic_madt};
pub use madt::riscv::{RiscvContents, write_riscv_madt};
pub use madt::{MadtContents, MadtNmiLine, MadtProcessor, write_madt};
pub use mcfg::write_mcfg;
pub use rhct::{RhctContents, write_rhct};
pub use slit::write_slit;
pub use srat::{ApicDomain, GiccDomain, SratContents, write_srat};
pub use table::write_table;
