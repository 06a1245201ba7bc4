// Made by scripts/erase of crates/acpi/src/records.rt, where it is proved.
//! Plain records that lookups and lists answer.

use crate::base::sdt::{SdtHeader, Signature};
use crate::base::table::valid_by;
use crate::base::{AcpiError, AcpiResult, Lender, PhysicalRecord};

/// A stream of AML: the bytes after the header of a DSDT (section 5.2.11.1) or an SSDT (section 5.2.11.2).
#[derive(Clone, Copy, Debug, PartialEq, Eq)]
pub struct AmlTable {
    /// The physical address of the stream's first byte.
    pub address: u64,
    /// How many bytes the stream has.
    pub length: u32,
}

/// A member of the root table that a lookup passes over as faulty.
#[derive(Clone, Copy, Debug, PartialEq, Eq)]
#[non_exhaustive]
pub struct TableFault {
    /// The physical address that the root table lists.
    pub address: u64,
    /// The error of the table there: that of the first check that fails.
    pub error: AcpiError,
}

/// A table by its address and length, and whether it was found valid. No function of this crate makes one.
#[derive(Clone, Copy, Debug, PartialEq, Eq)]
pub struct Sdt {
    /// The physical address of the table's first byte.
    pub physical_address: u64,
    /// How many bytes the table has, with its header.
    pub length: u32,
    /// Whether the table was found valid.
    pub validated: bool,
}

/// The AML of the table at an address, the bytes after its header, if the bits of `accept` accept it under a signature.
pub(crate) fn stream_at<H: Lender>(
    handler: &H,
    signature: Signature,
    address: u64,
    accept: u32,
) -> AcpiResult<AmlTable> {
    let found = valid_by(handler, address, signature, SdtHeader::MIN_LENGTH, accept)?;
    let table = found.mapping::<SdtHeader>();
    Ok(AmlTable {
        address: table.physical_start() + SdtHeader::MIN_LENGTH as u64,
        length: (table.bytes().len() - SdtHeader::MIN_LENGTH) as u32,
    })
}
