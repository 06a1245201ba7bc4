// Made by scripts/erase of crates/acpi/src/ssdts.rt, where it is proved.
//! The AML of all accepted SSDTs.

use crate::acpi::pointers::Pointers;
use crate::acpi::records::{AmlTable, stream_at};
use crate::acpi::walk::{Asked, Found, next_found};
use crate::base::Lender;
use crate::base::sdt::Signature;

/// The AML of all members that are accepted as SSDTs (section 5.2.11.2), in the order of the root table, as
/// `AcpiTables::ssdts` gives it. A table that is listed twice comes twice.
#[derive(Debug)]
pub struct SsdtIterator<'t, 'h, H: Lender> {
    handler: &'h H,
    pointers: Pointers<'t>,
    accept: u32,
}

impl<'t, 'h, H: Lender> SsdtIterator<'t, 'h, H> {
    pub(crate) fn new(handler: &'h H, pointers: Pointers<'t>, accept: u32) -> Self {
        SsdtIterator { handler, pointers, accept }
    }
}

impl<H: Lender> Iterator for SsdtIterator<'_, '_, H> {
    type Item = AmlTable;

    fn next(&mut self) -> Option<AmlTable> {
        next_found(self.handler, &mut self.pointers, self.accept)
    }
}

impl Asked for AmlTable {}

/// That of an SSDT.
impl Found for AmlTable {
    fn at<H: Lender>(handler: &H, address: u64, accept: u32) -> Option<AmlTable> {
        stream_at(handler, Signature::SSDT, address, accept).ok()
    }
}
