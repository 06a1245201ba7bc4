// Made by scripts/erase of crates/acpi_image/src/write.rt, where it is proved.
//! Files of memory that are written with given tables.

mod checks;
mod places;
mod records;

pub use crate::image::error::WriteError;
use crate::rattle::Vec;
use crate::rattle::alloc::{Allocator, Global};
use checks::check_plan;
pub use places::range_of;
use records::put_records;
pub use records::{put_region, put_root_table, put_rsdp};

/// A table that is to be written, and its place.
#[derive(Clone, Copy)]
pub struct PlacedTable<'a> {
    /// The physical address that the table is to be at.
    pub address: u64,
    /// The bytes of the table. Whatever byte 9, Checksum, is here, it is written so that all sum to 0 modulo
    /// 256.
    pub bytes: &'a [u8],
}

/// The file of memory that `write_image` returns, in memory of an allocator.
///
/// Fails as `write_image` does.
pub fn write_in<A: Allocator + Copy>(
    alloc: A,
    rsdp_address: u64,
    root_address: u64,
    revision: u8,
    tables: &[PlacedTable<'_>],
) -> Result<Vec<u8, A>, WriteError> {
    check_plan(alloc, rsdp_address, root_address, revision, tables)?;
    let mut file = Vec::new(alloc);
    put_records(&mut file, rsdp_address, root_address, revision, tables)?;
    Ok(file)
}

/// A file of memory, as `MemoryImage` reads it, that has an RSDP of this revision (section 5.2.5.3), the root
/// table that it leads to, an RSDT for revision 0 and otherwise an XSDT (sections 5.2.7 and 5.2.8), and these
/// tables, which the root table lists in order. Addresses are physical. Byte 9 of each table is set so that
/// the table sums to 0 modulo 256.
///
/// Fails, in this order, with `ZeroRoot` if the root table's address is 0, `BadTable` for the
/// first table that has under 36 bytes, or whose length field is not the number of its bytes, or
/// whose signature or ids are not valid UTF-8, `TooMany` if the root table's length is 2^32 or above,
/// `PointerTooLarge` if for revision 0 the root table's address or a table's is 2^32 or above,
/// `EndTooLarge` if a record's start and length add up to more than 2^64 - 1, `Overlap` if two
/// records share a byte, and `OutOfMemory` if memory runs out.
pub fn write_image(
    alloc: Global,
    rsdp_address: u64,
    root_address: u64,
    revision: u8,
    tables: &[PlacedTable<'_>],
) -> Result<Vec<u8>, WriteError> {
    write_in(alloc, rsdp_address, root_address, revision, tables)
}
