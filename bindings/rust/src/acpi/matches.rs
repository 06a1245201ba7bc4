// Made by scripts/erase of crates/acpi/src/matches.rt, where it is proved.
//! All accepted tables of a type.

use crate::acpi::pointers::Pointers;
use crate::acpi::policy::map_accepted;
use crate::acpi::walk::{Asked, next_asked};
use crate::base::{AcpiTable, Lender, PhysicalMapping};
use core::marker::PhantomData;

/// The members of the root table that are accepted for `T`, in its order, as `AcpiTables::find_tables` gives
/// them: each is a mapping of the table. A table that is listed twice comes twice.
#[derive(Debug)]
pub struct FoundTables<'t, 'h, H: Lender, T: AcpiTable> {
    handler: &'h H,
    pointers: Pointers<'t>,
    accept: u32,
    sought: PhantomData<T>,
}

impl<'t, 'h, H: Lender, T: AcpiTable> FoundTables<'t, 'h, H, T> {
    pub(crate) fn new(handler: &'h H, pointers: Pointers<'t>, accept: u32) -> Self {
        FoundTables { handler, pointers, accept, sought: PhantomData }
    }
}

impl<'h, H: Lender, T: AcpiTable> Iterator for FoundTables<'_, 'h, H, T> {
    type Item = PhysicalMapping<'h, H, T>;

    fn next(&mut self) -> Option<PhysicalMapping<'h, H, T>> {
        while let Some(address) =
            next_asked::<H, PhysicalMapping<'h, H, T>>(self.handler, &mut self.pointers, self.accept)
        {
            if let Ok(table) = map_accepted::<H, T>(self.handler, address, self.accept) {
                return Some(table);
            }
        }
        None
    }
}

/// A table that is accepted for `T`.
impl<H: Lender, T: AcpiTable> Asked for PhysicalMapping<'_, H, T> {}
