// Made by scripts/erase of crates/acpi/src/lib.rt, where it is proved.
//! Static ACPI tables, read from memory that a handler lends: the root table and the tables that
//! it leads to.
//!
//! Section numbers are those of the ACPI Specification, version 6.4.

#![forbid(unsafe_code)]
// What contracts alone use.
#![allow(dead_code, unused_imports, unused_labels, unused_variables)]
// It is written as it is proved.
#![allow(clippy::style, clippy::complexity, clippy::perf, clippy::manual_unwrap_or_default)]

mod faults;
pub mod handler;
mod headers;
pub mod hpet;
mod matches;
pub mod mcfg;
mod members;
pub mod platform;
mod pointers;
mod policy;
mod ranges;
mod records;
pub mod root;
pub mod rsdp;
mod ssdts;
mod tables;
mod walk;

pub use crate::base::managed_slice::ManagedSlice;
pub use crate::base::{
    AcpiError, AcpiHandler, AcpiResult, AcpiTable, AddressRange, Guarded, Lender, MadtError, PhysicalMapping,
    PhysicalRecord, SdtTable, address, madt, sdt, spcr,
};
pub use crate::fixed::fadt::PowerProfile;
pub use crate::fixed::{bgrt, fadt};
pub use faults::TableFaults;
pub use headers::SdtHeaderIterator;
pub use hpet::HpetInfo;
pub use matches::FoundTables;
pub use mcfg::PciConfigRegions;
pub use members::{TableMember, TableMembers};
pub use platform::PlatformInfo;
pub use platform::interrupt::InterruptModel;
pub use pointers::Pointers;
pub use policy::{Accept, Policy, Valid};
pub use ranges::{TableRanges, facs_length};
pub use records::{AmlTable, Sdt, TableFault};
pub use ssdts::SsdtIterator;
pub use tables::AcpiTables;
