// Made by scripts/erase of crates/acpi/src/members.rt, where it is proved.
//! The members of the root table, valid or not.

use crate::acpi::pointers::Pointers;
use crate::acpi::walk::{Asked, next_asked};
use crate::base::sdt::{SdtHeader, map_own_sdt};
use crate::base::{AcpiResult, Lender};

/// A member of the root table: a pointer, and the header of the table there or why that is refused.
#[derive(Clone, Copy, Debug)]
#[non_exhaustive]
pub struct TableMember {
    /// The pointer: the physical address that the root table lists.
    pub address: u64,
    /// The header of the table there (section 5.2.6), if that is valid under the signature that it has, or
    /// else the first error.
    pub header: AcpiResult<SdtHeader>,
}

impl Asked for TableMember {}

/// The members of the root table, one for each pointer, in order, as `AcpiTables::members` gives them. A
/// table that is listed twice comes twice.
#[derive(Debug)]
pub struct TableMembers<'t, 'h, H: Lender> {
    handler: &'h H,
    pointers: Pointers<'t>,
}

impl<'t, 'h, H: Lender> TableMembers<'t, 'h, H> {
    pub(crate) fn new(handler: &'h H, pointers: Pointers<'t>) -> Self {
        TableMembers { handler, pointers }
    }
}

impl<H: Lender> Iterator for TableMembers<'_, '_, H> {
    type Item = TableMember;

    fn next(&mut self) -> Option<TableMember> {
        let address = next_asked::<H, TableMember>(self.handler, &mut self.pointers, 0)?;
        let header = own_header(self.handler, address);
        Some(TableMember { address, header })
    }
}

/// The header of the table at an address, if that is valid under the signature that it has.
pub(crate) fn own_header<H: Lender>(handler: &H, address: u64) -> AcpiResult<SdtHeader> {
    Ok(*map_own_sdt(handler, address)?.get())
}
