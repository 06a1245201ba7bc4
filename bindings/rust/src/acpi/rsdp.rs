// Made by scripts/erase of crates/acpi/src/rsdp.rt, where it is proved.
//! The Root System Description Pointer (RSDP), which leads to the root table (section 5.2.5).

mod areas;
mod bios;
mod readings;

use crate::acpi::root::{RootKind, RootPointer};
use crate::base::bytes::{byte_sum, has_bit, is_text, text_of};
use crate::base::{AcpiError, AcpiResult, Lender, PhysicalMapping, PhysicalRecord};
pub use areas::bios_areas;
pub(crate) use bios::{Area, second_area};

/// The Root System Description Pointer (RSDP), by its 36 bytes (section 5.2.5.3). Revision 0 has only the
/// first 20 of them: the fields after these mean nothing there.
#[derive(Clone, Copy, Debug)]
pub struct Rsdp {
    signature: [u8; 8],
    checksum: u8,
    /// OEMID: the bytes of the OEM's name. `oem_id()` is their text.
    pub oem_id: [u8; 6],
    revision: u8,
    rsdt_address: u32,
    length: u32,
    xsdt_address: u64,
    ext_checksum: u8,
}

impl Rsdp {
    /// Signature: `RSD PTR ` if the RSDP is valid (section 5.2.5.3).
    pub fn signature(&self) -> [u8; 8] {
        self.signature
    }

    /// Checksum: the byte by which the first 20 bytes of a valid RSDP sum to 0 modulo 256 (section
    /// 5.2.5.3).
    pub fn checksum(&self) -> u8 {
        self.checksum
    }

    /// OEMID: the OEM's name, or `None` if it is not valid UTF-8 (section 5.2.5.3).
    pub fn oem_id(&self) -> Option<&str> {
        text_of(&self.oem_id)
    }

    /// Revision: the revision of the RSDP, 0 in ACPI 1.0 and 2 since (section 5.2.5.3).
    pub fn revision(&self) -> u8 {
        self.revision
    }

    /// RsdtAddress: the physical address of the RSDT (section 5.2.5.3).
    pub fn rsdt_address(&self) -> u32 {
        self.rsdt_address
    }

    /// Length: how many bytes the whole RSDP has, or `None` for revision 0 (section 5.2.5.3).
    pub fn length(&self) -> Option<u32> {
        (self.revision != 0).then_some(self.length)
    }

    /// XsdtAddress: the physical address of the XSDT, or `None` for revision 0 (section 5.2.5.3).
    pub fn xsdt_address(&self) -> Option<u64> {
        (self.revision != 0).then_some(self.xsdt_address)
    }

    /// Extended Checksum: the byte by which all bytes of a valid RSDP sum to 0 modulo 256, or `None` for
    /// revision 0 (section 5.2.5.3).
    pub fn ext_checksum(&self) -> Option<u8> {
        (self.revision != 0).then_some(self.ext_checksum)
    }

    /// The root table that a valid RSDP leads to: the RSDT if the revision or the XSDT's address is 0,
    /// else the XSDT, however bad the table there is.
    pub fn root(&self) -> RootPointer {
        let (kind, address) = match self.xsdt_address() {
            None | Some(0) => (RootKind::Rsdt, self.rsdt_address as u64),
            Some(address) => (RootKind::Xsdt, address),
        };
        RootPointer { revision: self.revision, kind, address }
    }

    /// Checks an RSDP (section 5.2.5.3) by the bytes that it was read from, at least 36. Bytes after its length don't
    /// count.
    ///
    /// Fails, in this order, with `RsdpIncorrectSignature` if the signature is not `RSD PTR `,
    /// `RsdpInvalidOemId` if the OEM id is not valid UTF-8, and `RsdpInvalidChecksum` if the first
    /// 20 bytes do not sum to 0 modulo 256. For a revision above 0 it also fails with
    /// `RsdpInvalidChecksum` if the length is under 36 or above the number of bytes, or if that many
    /// bytes do not sum to 0 modulo 256.
    ///
    /// # Panics
    ///
    /// Panics if there are fewer than 20 bytes, and signature and OEM id are valid.
    pub fn validate(&self, bytes: &[u8]) -> AcpiResult<()> {
        match self.summed_length(bytes, 0)? {
            None => Ok(()),
            Some(length) if length > bytes.len() => Err(AcpiError::RsdpInvalidChecksum),
            Some(length) => check_sum(&bytes[..length]),
        }
    }

    /// How many bytes are to sum to 0 by an RSDP's length: `None` for revision 0.
    fn extended_length(&self) -> AcpiResult<Option<usize>> {
        match self.length() {
            None => Ok(None),
            Some(length) if length < 36 => Err(AcpiError::RsdpInvalidChecksum),
            Some(length) => Ok(Some(length as usize)),
        }
    }

    /// Whether by the bits of `accept` it is accepted by its first 20 bytes.
    fn is_first_enough(&self, accept: u32) -> bool {
        has_bit(accept as u64, 4) || (has_bit(accept as u64, 3) && self.revision == 1)
    }

    /// Checks the first 20 bytes, which every revision has, and returns how many bytes are to sum to 0 after
    /// that: `None` for revision 0 and if the bits of `accept` give their checks up, else the length.
    fn summed_length(&self, bytes: &[u8], accept: u32) -> AcpiResult<Option<usize>> {
        if self.signature != *b"RSD PTR " {
            return Err(AcpiError::RsdpIncorrectSignature);
        }
        if !has_bit(accept as u64, 2) && !is_text(&self.oem_id) {
            return Err(AcpiError::RsdpInvalidOemId);
        }
        check_sum(&bytes[..20])?;
        if self.is_first_enough(accept) {
            return Ok(None);
        }
        self.extended_length()
    }
}

/// A record that means nothing: a mapping of it shows the bytes, at least one, as they are.
#[derive(Clone, Copy, Debug)]
struct RawBytes;

impl PhysicalRecord for RawBytes {
    const MIN_LENGTH: usize = 1;

    #[inline(always)]
    fn read(_bytes: &[u8]) -> Self {
        RawBytes
    }
}

/// Checks that bytes of an RSDP sum to 0 modulo 256.
fn check_sum(bytes: &[u8]) -> AcpiResult<()> {
    if byte_sum(bytes) != 0 {
        return Err(AcpiError::RsdpInvalidChecksum);
    }
    Ok(())
}

/// Checks that the bytes of an RSDP at an address sum to 0, if it has a length.
fn check_whole<H: Lender>(handler: &H, address: u64, length: Option<usize>) -> AcpiResult<()> {
    let Some(length) = length else {
        return Ok(());
    };
    let whole = PhysicalMapping::<'_, H, RawBytes>::map(handler, address, length)?;
    check_sum(whole.bytes())
}

/// The checks that the bits of `accept` leave of an RSDP whose 36 bytes are mapped. For the sum of the whole, as many
/// bytes are mapped as its length.
fn check_mapped<H: Lender>(handler: &H, rsdp: &PhysicalMapping<'_, H, Rsdp>, accept: u32) -> AcpiResult<()> {
    let length = rsdp.get().summed_length(rsdp.bytes(), accept)?;
    check_whole(handler, rsdp.physical_start(), length)
}

/// The checks of an RSDP's whole bytes, of which the first 36 are mapped.
fn check_extended<H: Lender>(handler: &H, rsdp: &PhysicalMapping<'_, H, Rsdp>) -> AcpiResult<()> {
    let length = rsdp.get().extended_length()?;
    check_whole(handler, rsdp.physical_start(), length)
}

/// The RSDP whose 36 bytes are mapped, as it is read if the bits of `accept` accept it. It is read as one of revision
/// 0, of which only the first 20 bytes count, by bit 3 if its revision is 1, and by bit 4 if its whole fails its
/// checks: the length is under 36, or as many bytes aren't mapped or don't sum to 0 modulo 256.
pub fn read_accepted<H: Lender>(handler: &H, rsdp: &PhysicalMapping<'_, H, Rsdp>, accept: u32) -> Rsdp {
    let record = *rsdp.get();
    if (has_bit(accept as u64, 3) && record.revision == 1)
        || (has_bit(accept as u64, 4) && check_extended(handler, rsdp).is_err())
    {
        return Rsdp { revision: 0, ..record };
    }
    record
}

/// The RSDP at an address, if the bits of `accept` accept it: a mapping of its 36 bytes. `read_accepted` reads it. By
/// bit 2 its OEM id may be any. By bit 3 one of revision 1 is accepted by its first 20 bytes, and by bit 4 each.
///
/// Fails as `map_rsdp` does, but for the checks that are given up.
pub fn map_accepted_rsdp<'h, H: Lender>(
    handler: &'h H,
    address: u64,
    accept: u32,
) -> AcpiResult<PhysicalMapping<'h, H, Rsdp>> {
    let rsdp = PhysicalMapping::<'h, H, Rsdp>::map(handler, address, 36)?;
    check_mapped(handler, &rsdp, accept)?;
    Ok(rsdp)
}

/// The valid RSDP at an address: a mapping of its 36 bytes.
///
/// Fails, in this order, with `MapFailed` if 36 bytes aren't mapped, `RsdpIncorrectSignature`
/// if the signature is not `RSD PTR `, `RsdpInvalidOemId` if the OEM id is not valid UTF-8, and
/// `RsdpInvalidChecksum` if the first 20 bytes do not sum to 0 modulo 256. For a revision above
/// 0 it goes on with `RsdpInvalidChecksum` if the length is under 36, `MapFailed` if that
/// many bytes aren't mapped, and `RsdpInvalidChecksum` if they do not sum to 0 modulo 256.
pub fn map_rsdp<'h, H: Lender>(handler: &'h H, address: u64) -> AcpiResult<PhysicalMapping<'h, H, Rsdp>> {
    map_accepted_rsdp(handler, address, 0)
}
