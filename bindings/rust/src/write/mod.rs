// Made by scripts/erase of crates/acpi_writer/src/lib.rt, where it is proved.
//! Static ACPI tables, written from their contents, into a slice of the caller's. No heap is needed. The tables of the
//! crate below are here too.
//!
//! Section numbers refer to the ACPI Specification, version 6.4.

#![forbid(unsafe_code)]
// What contracts alone use.
#![allow(dead_code, unused_imports, unused_labels, unused_variables)]
// It is written as it is proved.
#![allow(clippy::style, clippy::complexity, clippy::perf, clippy::manual_unwrap_or_default)]

pub mod aml;
pub mod bgrt;
pub mod contents;
pub mod facs;
pub mod fadt;
pub mod machine;
mod made;
mod placed;
pub mod root;
pub mod rsdp;
pub mod spcr;

pub use crate::table_writer::{
    ApicDomain, Checked, GicContents, GiccDomain, GtBlockContents, GtdtContents, Listed, MadtContents, MadtNmiLine,
    MadtProcessor, PlatformTimerContents, RhctContents, RiscvContents, SratContents, TableIds, WriterError, error,
    fields, generic, gtdt, hpet, ids, listed, madt, mcfg, require, rhct, slit, spelled, srat, write_gic_madt,
    write_gtdt, write_hpet, write_madt, write_mcfg, write_rhct, write_riscv_madt, write_slit, write_srat, write_table,
};
pub use aml::{write_dsdt, write_ssdt};
pub use bgrt::{BgrtContents, BgrtOrientation, write_bgrt};
pub use contents::{AmlContents, SlitContents, TableContents};
pub use facs::{FacsContents, write_facs};
pub use fadt::{FadtContents, FadtHardware, write_fadt};
pub use machine::{Machine, dsdt_address, facs_address, tables_size, write_tables, write_tables_without_rsdp};
pub use root::{write_rsdt, write_xsdt};
pub use rsdp::write_rsdp;
pub use spcr::{SpcrContents, SpcrPciDevice, write_spcr};
