// Made by scripts/erase of crates/acpi_base/src/lib.rt, where it is proved.
//! Mappings of records in memory that a handler maps, and the table at an address. The modules of the crate below, by
//! which bytes are read, are here too.
//!
//! The MADT, the MCFG and the SPCR are here too, and the interrupt model that a MADT leads to:
//! some of their functions are methods of a table's mapping, since they read entries or a text of the
//! mapped bytes after the record, and a mapping gets methods in its own crate alone. The records of
//! the FADT and of the BGRT have all that their functions return, so they are in `acpi_fixed`.
//!
//! Section numbers are those of the ACPI Specification, version 6.4.

#![forbid(unsafe_code)]
// What contracts alone use.
#![allow(dead_code, unused_imports, unused_labels, unused_variables)]
// It is written as it is proved.
#![allow(clippy::style, clippy::complexity, clippy::perf, clippy::manual_unwrap_or_default)]

mod codes;
pub mod memory;
pub mod model;
pub mod table;
pub mod tables;

pub use crate::bytes::{address, bytes, entries, error, extended, managed_slice, range};
pub use error::{AcpiError, AcpiResult, MadtError};
pub use memory::guarded::Guarded;
pub use memory::handler::{AcpiHandler, Lender, PhysicalRecord};
pub use memory::mapping::PhysicalMapping;
pub use memory::{guarded, handler, mapping};
pub use range::AddressRange;
pub use table::signature::Signature;
pub use table::{AcpiTable, SdtTable, header as sdt, signature};
pub use tables::{madt, mcfg, spcr};
