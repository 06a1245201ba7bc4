// Made by scripts/erase of crates/acpi_base/src/memory.rt, where it is proved.
//! Physical memory: handlers that map it, claims of mapped bytes until their notice, and records in it.

pub(crate) mod claim;
pub mod guarded;
pub mod mapping;

pub use crate::bytes::handler;
