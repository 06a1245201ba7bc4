// Made by scripts/erase of crates/acpi_table_writer/src/hpet.rt, where it is proved.
//! The High Precision Event Timer table (HPET), from what it contains of its event timer block.

use crate::acpi::HpetInfo;
use crate::base::Signature;
use crate::table_writer::error::WriterError;
use crate::table_writer::ids::TableIds;
use crate::table_writer::table::{Table, write};

impl Table for HpetInfo {
    type Body = HpetInfo;

    fn head(&self) -> (Signature, u8) {
        (Signature::HPET, 1)
    }

    fn check(&self) -> Result<(), WriterError> {
        Ok(())
    }

    fn body(&self) -> HpetInfo {
        *self
    }
}

/// Writes an HPET of revision 1, 56 bytes, to the front of a slice, and returns how many bytes it has. A page
/// protection of `Other` is written as 3. OEM Attribute is 0, and so is all of BASE_ADDRESS but its address, which is
/// one in memory: Register Bit Width too.
///
/// Returns, in this order, `BadName` if a name of the ids is not valid UTF-8, and `NoRoom` if the slice is shorter
/// than the table.
pub fn write_hpet(out: &mut [u8], ids: &TableIds, info: &HpetInfo) -> Result<usize, WriterError> {
    write(out, ids, info)
}
