// Made by scripts/erase of crates/acpi_writer/src/root.rt, where it is proved.
//! The root tables: the RSDT (section 5.2.7) and the XSDT (section 5.2.8), from the addresses of the tables.

use crate::base::Signature;
use crate::table_writer::error::WriterError;
use crate::table_writer::ids::TableIds;
use crate::table_writer::spelled::Each;
use crate::table_writer::table::write_table;

/// Writes an RSDT of revision 1 to the front of a slice, and returns how many bytes it has: 36, and 4 for each address.
/// No address, and one of 0, are written as they are.
///
/// Returns, in this order, `BadName` if a name of the ids is not valid UTF-8, `NoRoom` if the slice is shorter than
/// the table, and `TooLong` if the table has 2^32 bytes or more.
pub fn write_rsdt(out: &mut [u8], ids: &TableIds, addresses: &[u32]) -> Result<usize, WriterError> {
    write_table(out, Signature::RSDT, 1, ids, &Each(addresses))
}

/// Writes an XSDT of revision 1 to the front of a slice, and returns how many bytes it has: 36, and 8 for each address.
/// No address, and one of 0, are written as they are.
///
/// Returns, in this order, `BadName` if a name of the ids is not valid UTF-8, `NoRoom` if the slice is shorter than
/// the table, and `TooLong` if the table has 2^32 bytes or more.
pub fn write_xsdt(out: &mut [u8], ids: &TableIds, addresses: &[u64]) -> Result<usize, WriterError> {
    write_table(out, Signature::XSDT, 1, ids, &Each(addresses))
}
