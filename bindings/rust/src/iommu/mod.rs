// Made by scripts/erase of crates/acpi_iommu/src/lib.rt, where it is proved.
//! The units that remap devices' requests of memory (IOMMUs): the DMAR's (Intel Virtualization Technology for
//! Directed I/O 4.0, chapter 8), and the IVRS's (AMD I/O Virtualization Technology (IOMMU) Specification
//! 3.08, section 5.2).

#![forbid(unsafe_code)]
// What contracts alone use.
#![allow(dead_code, unused_imports, unused_labels, unused_variables)]
// It is written as it is proved.
#![allow(clippy::style, clippy::complexity, clippy::perf, clippy::manual_unwrap_or_default)]

pub mod dmar;
pub mod error;
pub mod ivrs;
mod pieces;
mod texts;

pub use dmar::{
    Andd, Atsr, DeviceScope, DeviceScopeIter, Dmar, DmarFields, DmarStructure, DmarStructureIter, DmarUnits, Drhd, Hop,
    HopIter, ReservedIter, Rhsa, Rmrr, Satc, Sidp, UnitSource,
};
pub use error::{IommuError, IommuResult};
pub use ivrs::{
    BestBlockIter, DeviceEntry, DeviceEntryIter, DeviceUnit, Ivhd, Ivmd, Ivrs, IvrsBlock, IvrsBlockIter, IvrsBlocks,
    IvrsFields, MemoryIter, SpecialDevice,
};
pub use pieces::{PieceIter, PieceKind};
