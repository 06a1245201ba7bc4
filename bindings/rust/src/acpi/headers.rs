// Made by scripts/erase of crates/acpi/src/headers.rt, where it is proved.
//! The headers of all valid tables.

use crate::acpi::members::own_header;
use crate::acpi::pointers::Pointers;
use crate::acpi::walk::{Asked, Found, next_found};
use crate::base::Lender;
use crate::base::sdt::SdtHeader;

/// The headers (section 5.2.6) of all members that are valid under the signatures that they have, in the
/// order of the root table, as `AcpiTables::headers` gives them. A table that is listed twice comes twice.
#[derive(Debug)]
pub struct SdtHeaderIterator<'t, 'h, H: Lender> {
    handler: &'h H,
    pointers: Pointers<'t>,
}

impl<'t, 'h, H: Lender> SdtHeaderIterator<'t, 'h, H> {
    pub(crate) fn new(handler: &'h H, pointers: Pointers<'t>) -> Self {
        SdtHeaderIterator { handler, pointers }
    }
}

impl<H: Lender> Iterator for SdtHeaderIterator<'_, '_, H> {
    type Item = SdtHeader;

    fn next(&mut self) -> Option<SdtHeader> {
        next_found(self.handler, &mut self.pointers, 0)
    }
}

impl Asked for SdtHeader {}

impl Found for SdtHeader {
    fn at<H: Lender>(handler: &H, address: u64, _accept: u32) -> Option<SdtHeader> {
        own_header(handler, address).ok()
    }
}
