// Made by scripts/erase of crates/acpi_numa/src/srat/affinities.rt, where it is proved.
//! The proximity domain of each range of memory (section 5.2.16.2).

use super::Srat;
use super::domains::Domains;
use crate::acpi::AcpiTables;
use crate::alloc::Vec;
use crate::alloc::{AllocError, Allocator, Global};
use crate::base::managed_slice::ManagedSlice;
use crate::base::{AddressRange, Lender};
use crate::numa::error::{NumaError, NumaResult};

/// A range of memory, and the proximity domain that it is in: an enabled Memory Affinity Structure that has
/// bytes (section 5.2.16.2).
#[derive(Clone, Copy, Debug)]
pub struct MemoryRange {
    /// Proximity Domain: the domain of the range.
    pub domain: u32,
    /// Base Address: the physical address of the range's first byte.
    pub base: u64,
    /// Length: how many bytes the range has, at least one in the ranges of `MemoryAffinities`.
    pub length: u64,
    /// Hot Pluggable (bit 1 of the flags): whether the memory can be plugged in while the machine runs.
    pub is_hot_pluggable: bool,
    /// NonVolatile (bit 2 of the flags): whether the memory is non-volatile.
    pub is_non_volatile: bool,
}

impl MemoryRange {
    /// Whether a physical address is in the range: at its base or above, and below base + length as a
    /// whole number.
    pub fn holds(&self, address: u64) -> bool {
        AddressRange::new(self.base, self.length).holds(address)
    }

    /// Whether the range ends below 2^64.
    pub fn ends_below(&self) -> bool {
        AddressRange::new(self.base, self.length).fits()
    }
}

/// The ranges of memory that a SRAT puts into proximity domains (section 5.2.16.2).
#[derive(Debug)]
pub struct MemoryAffinities<A: Allocator> {
    ranges: ManagedSlice<MemoryRange, A>,
}

impl MemoryAffinities<Global> {
    /// The ranges of the first valid SRAT, in the order of the table, in memory of the global allocator:
    /// the ranges of its enabled Memory Affinity Structures that have at least one byte (section 5.2.16.2).
    ///
    /// Fails, in this order, with `Acpi(TableMissing)` if no valid SRAT is listed; with
    /// `InvalidEntryLength` if the entries end before the table does, since half a map is no map; with
    /// `InvalidMemoryRange` if the base and the length of one add up to more than 2^64 - 1; and with
    /// `Acpi(AllocError)` if memory runs out, which it can only if there is a range.
    #[cfg(feature = "alloc")]
    pub fn new<H: Lender>(tables: &AcpiTables<'_, H>) -> NumaResult<Self> {
        MemoryAffinities::new_in(tables, Global)
    }
}

impl<A: Allocator> MemoryAffinities<A> {
    /// The ranges of the first valid SRAT, in the order of the table, in memory of an allocator: the ranges of
    /// its enabled Memory Affinity Structures that have at least one byte (section 5.2.16.2).
    ///
    /// Fails, in this order, with `Acpi(TableMissing)` if no valid SRAT is listed; with
    /// `InvalidEntryLength` if the entries end before the table does, since half a map is no map; with
    /// `InvalidMemoryRange` if the base and the length of one add up to more than 2^64 - 1; and with
    /// `Acpi(AllocError)` if memory runs out, which it can only if there is a range.
    pub fn new_in<H: Lender>(tables: &AcpiTables<'_, H>, allocator: A) -> NumaResult<Self> {
        let srat = tables.find_table::<Srat>()?;
        MemoryAffinities::over(srat.bytes(), allocator)
    }

    /// The ranges in a SRAT's bytes, from the table's first byte on, in memory of an allocator: the ranges of
    /// its enabled Memory Affinity Structures that have at least one byte (section 5.2.16.2). It needs no
    /// handler.
    ///
    /// Fails, in this order, with `InvalidEntryLength` if the entries end before the table does; with
    /// `InvalidMemoryRange` if the base and the length of one add up to more than 2^64 - 1; and with
    /// `Acpi(AllocError)` if memory runs out, which it can only if there is a range.
    pub fn over(table: &[u8], allocator: A) -> NumaResult<Self> {
        let count = counted(table)?;
        let ranges = gathered(table, count, allocator)?;
        Ok(MemoryAffinities { ranges: ManagedSlice::from_vec(ranges) })
    }

    /// The ranges (section 5.2.16.2), in the order of the table. They may overlap.
    pub fn ranges(&self) -> &[MemoryRange] {
        self.ranges.as_slice()
    }

    /// Proximity Domain of the memory at a physical address (section 5.2.16.2): that of the first range in
    /// which the address is, or `None` if it is in none.
    pub fn domain_of(&self, address: u64) -> Option<u32> {
        first_domain(self.ranges(), address)
    }
}

/// The domain of the first range in which an address is.
fn first_domain(ranges: &[MemoryRange], address: u64) -> Option<u32> {
    ranges.iter().find(|range| range.holds(address)).map(|range| range.domain)
}

/// How many ranges of memory a SRAT's bytes put into domains, from the table's first byte on.
///
/// Fails, in this order, with `InvalidEntryLength` if the entries end before the table does, and with
/// `InvalidMemoryRange` if one of these ranges ends above 2^64 - 1.
pub fn counted(table: &[u8]) -> NumaResult<usize> {
    let mut count = 0;
    let mut all_end = true;
    let mut entries = Domains::over(table).entries();
    while let Some(entry) = entries.next() {
        if let Some(range) = entry.memory_range() {
            count += 1;
            all_end = all_end && range.ends_below();
        }
    }
    if entries.ended_malformed() {
        return Err(NumaError::InvalidEntryLength);
    }
    if !all_end {
        return Err(NumaError::InvalidMemoryRange);
    }
    Ok(count)
}

/// The ranges in a table's bytes, in memory that is requested once.
fn gathered<A: Allocator>(table: &[u8], count: usize, allocator: A) -> Result<Vec<MemoryRange, A>, AllocError> {
    let mut ranges = Vec::with_capacity(allocator, count)?;
    let mut entries = Domains::over(table).entries();
    while let Some(entry) = entries.next() {
        if let Some(range) = entry.memory_range() {
            ranges.push_reserved(range);
        }
    }
    Ok(ranges)
}
