// Made by scripts/erase of crates/acpi_writer/src/machine.rt, where it is proved.
//! A whole machine, laid out in one region of a guest's memory.

use crate::base::Signature;
use crate::sums::set_sum;
use crate::table_writer::checked::require;
use crate::table_writer::error::WriterError;
use crate::table_writer::ids::TableIds;
use crate::table_writer::listed::Listed;
use crate::table_writer::numbers::qword;
use crate::table_writer::table::table_head;
use crate::write::aml::Aml;
use crate::write::contents::{AmlContents, TableContents};
use crate::write::facs::{FacsContents, facs_bytes};
use crate::write::placed::{self, rounded};
use crate::write::rsdp::{put_front, rsdp_bytes};

/// A machine, as its tables describe it.
#[derive(Clone, Copy, Debug)]
pub struct Machine<'a, T = TableContents<'a>> {
    /// Who made the tables. Each table has them, and the RSDP has OEMID.
    pub ids: TableIds,
    /// The DSDT, if there is one.
    pub dsdt: Option<AmlContents<'a>>,
    /// The FACS, if there is one.
    pub facs: Option<FacsContents>,
    /// The tables that the XSDT lists, in this order. Of two tables of one signature a reader finds the first.
    pub tables: &'a [T],
}

/// The physical address at which `write_tables` lays the DSDT of a machine that lists this number of tables, if it is
/// passed this address itself, or `None` if there can't be that many or the sum is 2^64 or above. A FADT among the
/// tables is to have it.
pub fn dsdt_address(address: u64, tables: usize) -> Option<u64> {
    if tables > 0x1ffffffb {
        return None;
    }
    address.checked_add(48 + rounded(36 + 8 * tables) as u64)
}

/// How many bytes there are up to the next multiple of 64.
fn facs_gap(address: u64) -> usize {
    ((64 - address % 64) % 64) as usize
}

/// The physical address at which `write_tables` lays the FACS of a machine that lists this number of tables after this
/// DSDT, a multiple of 64 (section 5.2.10), if it is passed this address itself, or `None` as `dsdt_address` has it, or
/// if the DSDT can't be so long. A FADT among the tables is to have it.
pub fn facs_address(address: u64, tables: usize, dsdt: Option<AmlContents<'_>>) -> Option<u64> {
    let size = match dsdt {
        Some(dsdt) => dsdt.bytes.len().saturating_add(36),
        None => 0,
    };
    if tables > 0x1ffffffb || size > 0xffffffff {
        return None;
    }
    match address.checked_add((48 + rounded(36 + 8 * tables) + rounded(size)) as u64) {
        Some(end) => end.checked_add(facs_gap(end) as u64),
        None => None,
    }
}

/// How many bytes the tables that the XSDT lists take, or the first error.
fn listed_size<T: Listed>(ids: &TableIds, tables: &[T]) -> Result<usize, WriterError> {
    let mut size = 0;
    for table in tables {
        match table.size(ids) {
            Ok(more) => size += rounded(more),
            Err(error) => return Err(error),
        }
    }
    Ok(size)
}

/// How many bytes the DSDT takes, or its first error.
fn dsdt_size<T>(machine: &Machine<'_, T>) -> Result<usize, WriterError> {
    match machine.dsdt {
        Some(dsdt) => Ok(rounded(Aml(Signature::DSDT, dsdt).size(&machine.ids)?)),
        None => Ok(0),
    }
}

/// How many bytes the DSDT takes. One that can't be written takes none.
fn dsdt_place<T>(machine: &Machine<'_, T>) -> usize {
    match machine.dsdt {
        Some(dsdt) => placed::place(&Aml(Signature::DSDT, dsdt), &machine.ids),
        None => 0,
    }
}

/// How many bytes the FACS takes.
fn facs_room(facs: Option<FacsContents>) -> usize {
    match facs {
        Some(_contents) => 128,
        None => 0,
    }
}

/// How many bytes there are without the RSDP, or the first error.
fn tree_size<T: Listed>(machine: &Machine<'_, T>) -> Result<usize, WriterError> {
    require(machine.ids.are_texts(), WriterError::BadName)?;
    let count = machine.tables.len();
    require(count <= 0x1ffffffb, WriterError::TooLong)?;
    let dsdt = dsdt_size(machine)?;
    let listed = listed_size(&machine.ids, machine.tables)?;
    let facs = facs_room(machine.facs);
    Ok(rounded(36 + 8 * count) + dsdt + facs + listed)
}

/// How many bytes `write_tables` writes, or the first error but for room and place. `write_tables_without_rsdp` writes
/// 48 fewer.
pub fn tables_size<T: Listed>(machine: &Machine<'_, T>) -> Result<usize, WriterError> {
    Ok(48 + tree_size(machine)?)
}

/// Puts the addresses of tables, of which the first is at this one.
fn put_addresses<T: Listed>(out: &mut [u8], start: u64, ids: &TableIds, tables: &[T]) {
    let mut place = start;
    let mut at = 0;
    for table in tables {
        out[at..at + 8].copy_from_slice(&qword(place));
        place += placed::place(table, ids) as u64;
        at += 8;
    }
}

/// Puts the tables that the XSDT lists, one after the other.
fn put_listed<T: Listed>(out: &mut [u8], ids: &TableIds, tables: &[T]) {
    let mut at = 0;
    for table in tables {
        at += placed::put(table, &mut out[at..], ids);
    }
}

/// Puts the DSDT, if there is one.
fn put_dsdt<T>(out: &mut [u8], machine: &Machine<'_, T>) {
    if let Some(dsdt) = machine.dsdt {
        placed::put(&Aml(Signature::DSDT, dsdt), out, &machine.ids);
    }
}

/// Puts the FACS, if there is one, where these bytes begin at this address.
fn put_facs(out: &mut [u8], address: u64, facs: &Option<FacsContents>) {
    if let Some(contents) = facs {
        let at = facs_gap(address);
        out.fill(0);
        out[at..at + 64].copy_from_slice(&facs_bytes(contents));
    }
}

/// Puts the header of an XSDT, and the addresses of tables of which the first is at this one.
fn put_pointers<T: Listed>(out: &mut [u8], head: &[u8], start: u64, machine: &Machine<'_, T>) {
    out[..head.len()].copy_from_slice(head);
    put_addresses(&mut out[head.len()..], start, &machine.ids, machine.tables);
}

/// Fills a slice with the XSDT of tables of which the first is at this address.
fn fill_xsdt<T: Listed>(out: &mut [u8], start: u64, machine: &Machine<'_, T>) {
    let head = table_head(Signature::XSDT, 1, &machine.ids, out.len() as u32);
    put_pointers(out, &head, start, machine);
    set_sum(out, 9); // Checksum
}

/// Puts the XSDT of tables of which the first is at this address.
fn put_xsdt<T: Listed>(out: &mut [u8], start: u64, machine: &Machine<'_, T>) {
    let size = 36 + 8 * machine.tables.len();
    out.fill(0);
    fill_xsdt(&mut out[..size], start, machine);
}

/// Puts the FACS, from this address on, and the listed tables.
fn put_after_dsdt<T: Listed>(out: &mut [u8], address: u64, machine: &Machine<'_, T>) {
    let facs = facs_room(machine.facs);
    put_facs(&mut out[..facs], address, &machine.facs);
    put_listed(&mut out[facs..], &machine.ids, machine.tables);
}

/// Puts the DSDT, from this address on, the FACS and the listed tables.
fn put_rest<T: Listed>(out: &mut [u8], address: u64, machine: &Machine<'_, T>) {
    let dsdt = dsdt_place(machine);
    put_dsdt(&mut out[..dsdt], machine);
    put_after_dsdt(&mut out[dsdt..], address + dsdt as u64, machine);
}

/// Puts all but the RSDP, from this address on.
fn put_tree<T: Listed>(out: &mut [u8], address: u64, machine: &Machine<'_, T>) {
    let xsdt = rounded(36 + 8 * machine.tables.len());
    let dsdt = address + xsdt as u64;
    let start = dsdt + dsdt_place(machine) as u64 + facs_room(machine.facs) as u64;
    put_xsdt(&mut out[..xsdt], start, machine);
    put_rest(&mut out[xsdt..], dsdt, machine);
}

/// Whether this number of bytes has room, and can be at this address.
fn check_place(room: usize, address: u64, size: usize) -> Result<(), WriterError> {
    if size > room {
        return Err(WriterError::NoRoom);
    }
    if address == 0 || address % 16 != 0 || address > u64::MAX - size as u64 {
        return Err(WriterError::NoAddress);
    }
    Ok(())
}

/// Writes all tables of a machine but the RSDP to the front of a slice, which is to be at this physical address: the
/// XSDT, the DSDT, 128 bytes that have the FACS at a multiple of 64, and the tables that the XSDT lists, in order, each
/// table at a multiple of 16 and filled up with zeros to the next. Returns how many bytes these are. `write_rsdp` with
/// this address writes an RSDP for them.
///
/// Returns, in this order, `BadName` if a name of the ids is not valid UTF-8, `TooLong` if the XSDT would have 2^32
/// bytes or more, the first error of the DSDT or of a table in order, as its own function has it, `NoRoom` if the slice
/// is shorter than all tables, and `NoAddress` if the address is 0 or no multiple of 16, or the last byte is at
/// 2^64 - 1 or above.
pub fn write_tables_without_rsdp<T: Listed>(
    out: &mut [u8],
    address: u64,
    machine: &Machine<'_, T>,
) -> Result<usize, WriterError> {
    let size = tree_size(machine)?;
    check_place(out.len(), address, size)?;
    put_tree(&mut out[..size], address, machine);
    Ok(size)
}

/// Puts the RSDP of an XSDT at this address.
fn put_rsdp(out: &mut [u8], xsdt: u64, ids: &TableIds) {
    out.fill(0);
    put_front(out, &rsdp_bytes(ids, xsdt));
}

/// Puts the RSDP, and all that it leads to, from this address on.
fn put_machine<T: Listed>(out: &mut [u8], address: u64, machine: &Machine<'_, T>) {
    let rsdp = rounded(36);
    put_rsdp(&mut out[..rsdp], address + 48, &machine.ids);
    put_tree(&mut out[rsdp..], address + 48, machine);
}

/// Writes all tables of a machine to the front of a slice, which is to be at this physical address: the RSDP, which so
/// is at this address itself, and after its 48 bytes all that `write_tables_without_rsdp` writes. Returns how many
/// bytes these are, the number that `tables_size` returns.
///
/// Returns the errors of `write_tables_without_rsdp`, in their order.
pub fn write_tables<T: Listed>(out: &mut [u8], address: u64, machine: &Machine<'_, T>) -> Result<usize, WriterError> {
    let size = 48 + tree_size(machine)?;
    check_place(out.len(), address, size)?;
    put_machine(&mut out[..size], address, machine);
    Ok(size)
}
