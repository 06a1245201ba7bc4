// Made by scripts/erase of crates/acpi_bytes/src/handler.rt, where it is proved.
//! Handlers and lenders of physical memory, and records that are read from it.

use crate::bytes::bytes::field;
use crate::bytes::error::{AcpiError, AcpiResult};

/// Maps physical memory, in the kernel or the boot loader that implements this.
///
/// `memory` is what there is: regions of bytes of which no two share an address, each ending below
/// 2^64. Two regions that adjoin are still two: a range across their border is not mapped.
///
/// Bytes must not change while they are mapped: a hypervisor that reads the tables of a running guest
/// copies the guest's memory first. What is mapped bounds the time of the calls too: a table's length
/// and a candidate RSDP's length are believed as far as that many bytes are mapped.
pub trait AcpiHandler {
    /// Maps the bytes from a physical address on, at least `size` of them, all from one region.
    ///
    /// Fails with `MapFailed` exactly if the `size` bytes from that address on aren't all inside one
    /// region.
    fn map_physical_region(&self, address: u64, size: usize) -> AcpiResult<&[u8]>;

    /// A notice: the `mapped_length` bytes that were mapped from `address` on, of which a mapping showed the
    /// first `region_length`, are no longer read.
    fn unmap_physical_region(&self, address: u64, region_length: usize, mapped_length: usize);
}

/// Maps physical memory, as `AcpiHandler` does, if by `may` the range may be requested.
/// Each `AcpiHandler` is a lender of which any range may be requested.
pub trait Lender {
    /// Maps the bytes from a physical address on, at least `size` of them, all from one region, as
    /// `AcpiHandler::map_physical_region` does. Only ranges that `may` allows may be requested.
    ///
    /// Fails with `MapFailed` exactly if the `size` bytes from that address on aren't all inside one
    /// region.
    fn lend(&self, address: u64, size: usize) -> AcpiResult<&[u8]>;

    /// A notice, as `AcpiHandler::unmap_physical_region`: the `mapped_length` bytes that were mapped from
    /// `address` on, of which a mapping showed the first `region_length`, are no longer read.
    fn end_loan(&self, address: u64, region_length: usize, mapped_length: usize);
}

impl<H: AcpiHandler> Lender for H {
    fn lend(&self, address: u64, size: usize) -> AcpiResult<&[u8]> {
        let lent = self.map_physical_region(address, size)?;
        // No handler that is proved maps fewer.
        if lent.len() < size {
            return Err(AcpiError::MapFailed);
        }
        Ok(lent)
    }

    fn end_loan(&self, address: u64, region_length: usize, mapped_length: usize) {
        self.unmap_physical_region(address, region_length, mapped_length);
    }
}

/// A record that is read from bytes of a table: a table, an entry, or a number.
pub trait PhysicalRecord: Sized {
    /// The least number of bytes that the record is read from.
    const MIN_LENGTH: usize;

    /// The record that bytes mean, of which there are at least `MIN_LENGTH`.
    ///
    /// # Panics
    ///
    /// May panic if there are fewer than `MIN_LENGTH` bytes.
    fn read(bytes: &[u8]) -> Self;
}

impl PhysicalRecord for u16 {
    const MIN_LENGTH: usize = 2;

    #[inline(always)]
    fn read(bytes: &[u8]) -> u16 {
        field(bytes, 0, 2) as u16
    }
}

impl PhysicalRecord for u64 {
    const MIN_LENGTH: usize = 8;

    #[inline(always)]
    fn read(bytes: &[u8]) -> u64 {
        field(bytes, 0, 8)
    }
}
