// Made by scripts/erase of crates/acpi_numa/src/srat.rt, where it is proved.
//! The System Resource Affinity Table (SRAT): the proximity domains of processors and memory (section
//! 5.2.16).

mod affinities;
mod domains;
mod entry;
mod kinds;
mod readings;
mod walk;

use crate::base::sdt::SdtHeader;
pub use affinities::{MemoryAffinities, MemoryRange, counted as affinities_count};
pub use domains::Domains;
pub use entry::{SRAT_GRAMMAR, SratEntry};
pub use kinds::{
    GenericAffinity, GicItsAffinity, GiccAffinity, LocalApicAffinity, LocalX2ApicAffinity, MemoryAffinity,
};
pub use walk::SratEntryIter;

/// The System Resource Affinity Table (SRAT, section 5.2.16). Its entries are after 48 fixed bytes;
/// `Domains` reads them.
#[derive(Debug)]
#[non_exhaustive]
pub struct Srat {
    /// The header that every table begins with.
    pub header: SdtHeader,
}
