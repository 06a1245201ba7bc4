// Made by scripts/erase of crates/acpi_writer/src/rsdp.rt, where it is proved.
//! The Root System Description Pointer (RSDP, section 5.2.5.3), from the address of an XSDT.

use crate::sums::rsdp_to;
use crate::table_writer::error::WriterError;
use crate::table_writer::ids::TableIds;

/// An RSDP of revision 2.
pub(crate) fn rsdp_bytes(ids: &TableIds, xsdt: u64) -> [u8; 36] {
    rsdp_to(ids.oem_id, 2, xsdt)
}

/// Writes an RSDP of revision 2 that leads to an XSDT at a physical address to the front of a slice, and returns how
/// many bytes it has, 36. Of the ids it has OEMID alone. No RSDP that leads to an RSDT is written yet.
///
/// Returns, in this order, `NoAddress` if the address is 0, `BadName` if a name of the ids, even one that the RSDP
/// hasn't, is not valid UTF-8, and `NoRoom` if the slice is shorter than the RSDP.
pub fn write_rsdp(out: &mut [u8], ids: &TableIds, xsdt: u64) -> Result<usize, WriterError> {
    if xsdt == 0 {
        return Err(WriterError::NoAddress);
    }
    if !ids.are_texts() {
        return Err(WriterError::BadName);
    }
    write_front(out, &rsdp_bytes(ids, xsdt))
}

/// Puts bytes to the front of a slice.
pub(crate) fn put_front(out: &mut [u8], bytes: &[u8]) {
    out[..bytes.len()].copy_from_slice(bytes);
}

/// Writes bytes to the front of a slice, and returns how many there are.
///
/// Returns `NoRoom` if the slice is shorter.
pub(crate) fn write_front(out: &mut [u8], bytes: &[u8]) -> Result<usize, WriterError> {
    if out.len() < bytes.len() {
        return Err(WriterError::NoRoom);
    }
    put_front(out, bytes);
    Ok(bytes.len())
}
