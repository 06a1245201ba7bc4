// Made by scripts/erase of crates/acpi/src/handler.rt, where it is proved.
//! Handlers, which map physical memory, and records mapped in it.

mod region;
mod regions;

pub use crate::base::guarded::Guarded;
pub use crate::base::handler::{AcpiHandler, Lender, PhysicalRecord};
pub use crate::base::mapping::PhysicalMapping;
pub use region::{MappedRegion, RegionError};
pub use regions::MappedRegions;
