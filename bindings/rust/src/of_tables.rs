//! Tables that no root table lists.

use crate::AcpiError;
use crate::base::bytes::field;
use crate::lists::records::{Range, Source};
use crate::lists::refusal::Refusal;
use crate::lists::regions::Region;
use crate::sums::set_sum;

/// A multiple of it is the address of a table that has none.
const PAGE: u64 = 4096;

/// The header of the root table, without Length and Checksum.
const HEADER: &[u8; 36] = b"XSDT\0\0\0\0\x01\0ZACPI TABLES  \x01\0\0\0ZFIR\x01\0\0\0";

/// The field Checksum of a header.
const CHECKSUM: usize = 9;

/// How a root table is opened: at an XSDT, as a `start` of a [`Source`].
const AT_XSDT: u32 = 2;

/// The tables in the first `count` regions, each of which is one, as if a root table listed them, in this order: of two
/// MADTs the first is read. That root table, of 36 bytes and 8 for each table, is written to the front of `xsdt`; its
/// region is the item after these, and then they are sorted by address.
///
/// A table whose address is 0, as a file has none, gets one: a DSDT and a FACS the FADT's, where they are looked for, and
/// others multiples of 4096, in ascending order. A DSDT and a FACS aren't listed (section 5.2.9).
///
/// Fails with `AllocError` if there is no item after them, `RegionTooHigh`, `RegionsNotAscending` if two tables share a
/// byte, `AllocError` if `xsdt` is too short, or `RegionTooHigh` if no address is left. Then an address of 0 may have
/// changed, and nothing else.
///
/// ```
/// use zacpi::lists::refusal::Refusal;
/// use zacpi::lists::regions::Region;
/// use zacpi::madt::Madt;
/// use zacpi::{AcpiTables, of_tables};
///
/// /// How many entries a MADT has, as Linux has it in `/sys/firmware/acpi/tables/APIC`.
/// fn entries_of(file: &[u8]) -> Result<usize, Refusal> {
///     let mut regions = [Region { address: 0, bytes: file }, Region::default()];
///     let mut xsdt = [0; 36 + 8];
///     let source = of_tables(&mut regions, 1, &mut xsdt)?;
///     let memory = source.memory()?;
///     let tables = AcpiTables::from_rsdt(&memory, 2, source.address)?;
///     Ok(tables.find_table::<Madt>()?.entries().count())
/// }
/// # let mut file = *b"APIC\x34\0\0\0\x01\0ABCDEFGHIJKLMN\0\0\0\0ABCD\0\0\0\0\0\0\0\0\0\0\0\0\0\x08\0\0\x01\0\0\0";
/// # file[9] = file.iter().fold(0u8, |sum, byte| sum.wrapping_sub(*byte));
/// # assert_eq!(entries_of(&file).ok(), Some(1));
/// ```
pub fn of_tables<'r, 'k: 'r>(
    regions: &'r mut [Region<'k>],
    count: usize,
    xsdt: &'k mut [u8],
) -> Result<Source<'r>, Refusal> {
    let no_room = Refusal::Acpi(AcpiError::AllocError);
    let regions = regions.get_mut(..=count).ok_or(no_room)?;
    let (tables, root) = regions.split_at_mut(count);
    check(tables)?;
    let length = HEADER.len() + 8 * tables.iter().filter(|table| is_listed(table)).count();
    let xsdt = xsdt.get_mut(..length).ok_or(no_room)?;
    place_by_fadt(tables);
    let mut free = PAGE;
    for index in 0..count {
        if tables[index].address == 0 {
            free = free_address(tables, free, tables[index].bytes.len())?;
            tables[index].address = free;
        }
    }
    let address = free_address(tables, free, length)?;
    write_root(tables, xsdt)?;
    root[0] = Region { address, bytes: xsdt };
    regions.sort_unstable_by_key(|region| (region.address, region.bytes.len()));
    Ok(Source { regions, address, start: AT_XSDT, accept: 0 })
}

/// Whether two of the tables that have an address share a byte, or one ends above 2^64 - 1.
fn check(tables: &[Region<'_>]) -> Result<(), Refusal> {
    for (index, table) in tables.iter().enumerate().filter(|(_, table)| table.address != 0) {
        let range = range_of(table);
        range.address.checked_add(range.length).ok_or(Refusal::RegionTooHigh)?;
        if end_of_shared(&tables[..index], range).is_some() {
            return Err(Refusal::RegionsNotAscending);
        }
    }
    Ok(())
}

fn range_of(table: &Region<'_>) -> Range {
    Range { address: table.address, length: table.bytes.len() as u64 }
}

fn begins_with(table: &Region<'_>, letters: &[u8; 4]) -> bool {
    table.bytes.starts_with(letters)
}

/// Whether a root table lists it: the FADT points to a DSDT and a FACS (section 5.2.9).
fn is_listed(table: &Region<'_>) -> bool {
    !begins_with(table, b"DSDT") && !begins_with(table, b"FACS")
}

/// The end of the first table that has an address and shares a byte with a range. One without bytes that is inside of
/// the other shares it too, as regions with one don't ascend. Both end at 2^64 - 1 or below.
fn end_of_shared(tables: &[Region<'_>], range: Range) -> Option<u64> {
    let placed = tables.iter().filter(|table| table.address != 0).map(range_of);
    let ends = placed.map(|table| (table.address, table.address + table.length));
    let mut shared = ends.filter(|(address, end)| *address < range.address + range.length && range.address < *end);
    shared.next().map(|(_, end)| end)
}

/// The first multiple of 4096, from an address on, at which so many bytes are in none of the tables and beside none.
fn free_address(tables: &[Region<'_>], from: u64, length: usize) -> Result<u64, Refusal> {
    let mut address = from;
    while (length as u64) < u64::MAX - address {
        let Some(end) = end_of_shared(tables, Range { address: address - 1, length: length as u64 + 2 }) else {
            return Ok(address);
        };
        address = (end / PAGE + 1).checked_mul(PAGE).ok_or(Refusal::RegionTooHigh)?;
    }
    Err(Refusal::RegionTooHigh)
}

/// The bytes that Length of a FADT counts, if they are there and at least 116.
fn whole_fadt<'k>(table: &Region<'k>) -> Option<&'k [u8]> {
    let bytes = Some(table.bytes).filter(|_| begins_with(table, b"FACP"))?;
    bytes.get(..field(bytes, 4, 4) as usize).filter(|fadt| fadt.len() >= 116)
}

/// Puts a DSDT and a FACS that have no address where the first whole FADT points to, if no other table is there.
fn place_by_fadt(tables: &mut [Region<'_>]) {
    let Some(fadt) = tables.iter().find_map(whole_fadt) else { return };
    for index in 0..tables.len() {
        let table = tables[index];
        let address = match table.bytes.get(..4) {
            Some(b"DSDT") => pointer_of(fadt, 140, 40),
            Some(b"FACS") => pointer_of(fadt, 132, 36),
            _ => continue,
        };
        let range = Range { address, length: table.bytes.len() as u64 };
        let ends = address.checked_add(range.length).is_some();
        if table.address == 0 && ends && end_of_shared(tables, range).is_none() {
            tables[index].address = address;
        }
    }
}

/// What a FADT points to: the field of 64 bits, if it has that one and it isn't 0, else the field of 32 bits (section
/// 5.2.9).
fn pointer_of(fadt: &[u8], wide: usize, narrow: usize) -> u64 {
    let has_wide = field(fadt, 8, 1) >= 2 && fadt.len() >= wide + 8;
    match field(fadt, wide, 8) {
        address if has_wide && address != 0 => address,
        _ => field(fadt, narrow, 4),
    }
}

/// Writes an XSDT of the tables, in this order (section 5.2.8), to as many bytes as it has.
fn write_root(tables: &[Region<'_>], xsdt: &mut [u8]) -> Result<(), Refusal> {
    let length = u32::try_from(xsdt.len()).map_err(|_| Refusal::Acpi(AcpiError::AllocError))?;
    let (header, pointers) = xsdt.split_at_mut(HEADER.len());
    header.copy_from_slice(HEADER);
    header[4..8].copy_from_slice(&length.to_le_bytes());
    let listed = tables.iter().filter(|table| is_listed(table));
    for (pointer, table) in pointers.chunks_exact_mut(8).zip(listed) {
        pointer.copy_from_slice(&table.address.to_le_bytes());
    }
    set_sum(xsdt, CHECKSUM);
    Ok(())
}
