// Made by scripts/erase of crates/acpi/src/faults.rt, where it is proved.
//! Why members were passed over in a lookup.

use crate::acpi::pointers::Pointers;
use crate::acpi::policy::map_accepted;
use crate::acpi::records::TableFault;
use crate::base::{AcpiError, AcpiTable, Lender};
use core::marker::PhantomData;

/// The faults of the members that a lookup of `T` passes over, as `AcpiTables::faults` gives them: the
/// members before the first one that is accepted for `T`, or all members if none is, in the order of the root
/// table. A member with another signature (`SdtInvalidSignature`) is not a fault.
#[derive(Debug)]
pub struct TableFaults<'t, 'h, H: Lender, T: AcpiTable> {
    handler: &'h H,
    pointers: Pointers<'t>,
    accept: u32,
    sought: PhantomData<T>,
}

impl<'t, 'h, H: Lender, T: AcpiTable> TableFaults<'t, 'h, H, T> {
    pub(crate) fn new(handler: &'h H, pointers: Pointers<'t>, accept: u32) -> Self {
        TableFaults { handler, pointers, accept, sought: PhantomData }
    }
}

impl<H: Lender, T: AcpiTable> Iterator for TableFaults<'_, '_, H, T> {
    type Item = TableFault;

    fn next(&mut self) -> Option<TableFault> {
        // A pointer is passed only once its table is looked at: of those after a valid one, none may
        // be asked for.
        while let Some(address) = self.pointers.peek() {
            match refusal_at::<H, T>(self.handler, address, self.accept) {
                None => {
                    self.pointers.end();
                    return None;
                }
                Some(AcpiError::SdtInvalidSignature(_)) => self.pointers.pass(),
                Some(error) => {
                    self.pointers.pass();
                    return Some(TableFault { address, error });
                }
            }
        }
        None
    }
}

/// Why the table at an address is refused, or `None` if it is accepted for `T`.
#[inline(always)]
fn refusal_at<H: Lender, T: AcpiTable>(handler: &H, address: u64, accept: u32) -> Option<AcpiError> {
    map_accepted::<H, T>(handler, address, accept).err()
}
