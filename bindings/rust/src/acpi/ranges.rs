// Made by scripts/erase of crates/acpi/src/ranges.rt, where it is proved.
//! The ranges of physical memory in which the tables lie.

use crate::acpi::pointers::Pointers;
use crate::acpi::walk::{Asked, Found, next_found};
use crate::base::sdt::{SdtHeader, map_own_sdt};
use crate::base::{AcpiError, AcpiResult, AddressRange, Lender, PhysicalMapping, PhysicalRecord, Signature};

/// The ranges of physical memory in which the tables lie, as `AcpiTables::ranges` gives them: that of the
/// root table, then that of each valid member in the order of the root table, then those of the DSDT and
/// the FACS, if these are valid. A table that is listed twice comes twice.
#[derive(Debug)]
pub struct TableRanges<'t, 'h, H: Lender> {
    handler: &'h H,
    root: Option<AddressRange>,
    pointers: Pointers<'t>,
    dsdt: Option<AddressRange>,
    facs: Option<AddressRange>,
}

impl<'t, 'h, H: Lender> TableRanges<'t, 'h, H> {
    pub(crate) fn new(
        handler: &'h H,
        root: AddressRange,
        pointers: Pointers<'t>,
        dsdt: Option<AddressRange>,
        facs: Option<AddressRange>,
    ) -> Self {
        TableRanges { handler, root: Some(root), pointers, dsdt, facs }
    }
}

impl<H: Lender> Iterator for TableRanges<'_, '_, H> {
    type Item = AddressRange;

    fn next(&mut self) -> Option<AddressRange> {
        if let Some(root) = self.root.take() {
            return Some(root);
        }
        if let Some(place) = next_found(self.handler, &mut self.pointers, 0) {
            return Some(place);
        }
        if let Some(dsdt) = self.dsdt.take() {
            return Some(dsdt);
        }
        self.facs.take()
    }
}

impl Asked for AddressRange {}

/// Where a table lies that is valid under the signature that it has.
impl Found for AddressRange {
    fn at<H: Lender>(handler: &H, address: u64, _accept: u32) -> Option<AddressRange> {
        match map_own_sdt(handler, address) {
            Ok(table) => Some(AddressRange { address, length: table.region_length() as u64 }),
            Err(_) => None,
        }
    }
}

/// How many bytes a FACS has (section 5.2.10), by its Signature, bytes 0 to 3, and its Length, bytes 4 to 7. It has no
/// checksum.
///
/// Fails, in this order, with `SdtInvalidSignature` if the signature isn't `FACS`, and with `SdtInvalidLength` if the
/// length is under 64, both carrying the signature `FACS`.
pub fn facs_length(signature: Signature, length: u32) -> AcpiResult<u32> {
    if signature != Signature::FACS {
        return Err(AcpiError::SdtInvalidSignature(Signature::FACS));
    }
    if length < 64 {
        return Err(AcpiError::SdtInvalidLength(Signature::FACS));
    }
    Ok(length)
}

/// Where the FACS at an address lies: it has the signature, gives a length of at least 64, and so
/// many bytes are lent.
pub(crate) fn facs_at<H: Lender>(handler: &H, address: u64) -> AcpiResult<AddressRange> {
    let head = PhysicalMapping::<H, SdtHeader>::map(handler, address, SdtHeader::MIN_LENGTH)?;
    let length = facs_length(head.signature, head.length)?;
    drop(head);
    let whole = PhysicalMapping::<H, SdtHeader>::map(handler, address, length as usize)?;
    Ok(AddressRange { address, length: whole.region_length() as u64 })
}
