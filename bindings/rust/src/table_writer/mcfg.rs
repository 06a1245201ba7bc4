// Made by scripts/erase of crates/acpi_table_writer/src/mcfg.rt, where it is proved.
//! The PCI Express memory mapped configuration space table (MCFG), from its regions.

use crate::base::Signature;
use crate::base::mcfg::McfgEntry;
use crate::table_writer::error::WriterError;
use crate::table_writer::fields::Field;
use crate::table_writer::ids::TableIds;
use crate::table_writer::spelled::{EachItem, StandsFor, Then};
use crate::table_writer::table::{Table, write};
use core::marker::PhantomData;

/// The regions of an MCFG.
#[derive(Clone, Copy, Debug)]
pub(crate) struct Regions<'a, E>(pub &'a [E]);

impl<'a, E: StandsFor<McfgEntry>> Table for Regions<'a, E> {
    type Body = Then<Field, EachItem<'a, McfgEntry, E>>;

    fn head(&self) -> (Signature, u8) {
        (Signature::MCFG, 1)
    }

    fn check(&self) -> Result<(), WriterError> {
        Ok(())
    }

    fn body(&self) -> Then<Field, EachItem<'a, McfgEntry, E>> {
        Then(Field::Zeros(8), EachItem(self.0, PhantomData)) // Reserved
    }
}

/// Writes an MCFG of revision 1 to the front of a slice, and returns how many bytes it has: 44, and 16 for each region.
/// No region, and one whose last bus is below its first, are written as they are.
///
/// Returns, in this order, `BadName` if a name of the ids is not valid UTF-8, `NoRoom` if the slice is shorter than
/// the table, and `TooLong` if the table has 2^32 bytes or more.
pub fn write_mcfg<E: StandsFor<McfgEntry>>(
    out: &mut [u8],
    ids: &TableIds,
    regions: &[E],
) -> Result<usize, WriterError> {
    write(out, ids, &Regions(regions))
}
