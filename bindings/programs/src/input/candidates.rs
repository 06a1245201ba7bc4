// Made by scripts/erase of crates/acpi_dump_input/src/candidates.rt, where it is proved.
//! The RSDPs in memory, valid or not (section 5.2.5.1): each is at a multiple of 16.

use crate::image_reader::MemoryImage;
use crate::rattle::Vec;
use crate::rattle::alloc::{AllocError, Global};
use crate::walk::language::number_at;
use zacpi::base::bytes::field;
use zacpi::rsdp::Rsdp;
use zacpi::{AcpiError, AcpiResult, AddressRange, PhysicalRecord};

const SIGNATURE: &[u8] = b"RSD PTR ";

/// An RSDP, by its signature: where it is, and its fields.
#[derive(Clone, Copy)]
pub struct Candidate {
    /// The physical address of its first byte.
    pub address: u64,
    /// The refusal of the first check that it fails.
    pub refusal: Option<AcpiError>,
    /// The fields of its 36 bytes, if all of them are in memory.
    pub fields: Option<Pointers>,
}

/// What an RSDP's fields say (section 5.2.5.3).
#[derive(Clone, Copy)]
pub struct Pointers {
    pub revision: u8,
    pub rsdt: u32,
    pub xsdt: Option<u64>,
}

/// The candidate that bytes begin with, which go on to the end of the memory's record.
fn candidate_of(address: u64, lent: &[u8]) -> Candidate {
    let (mut refusal, mut fields) = (Some(AcpiError::MapFailed), None);
    if lent.len() >= Rsdp::MIN_LENGTH {
        let rsdp = Rsdp::read(lent);
        refusal = rsdp.validate(lent).err();
        fields = Some(Pointers { revision: rsdp.revision(), rsdt: rsdp.rsdt_address(), xsdt: rsdp.xsdt_address() });
    }
    Candidate { address, refusal, fields }
}

/// The bytes of the RSDP that bytes begin with, as far as they are there: 20, or from revision 1 on 36.
pub(crate) fn rsdp_in(lent: &[u8]) -> &[u8] {
    let length = if number_at(lent, 15, 1) == 0 { 20 } else { 36 };
    lent.get(..length).unwrap_or(lent)
}

/// The refusal of an RSDP in a file of its own, which for revision 0 has 20 bytes.
pub(crate) fn check_file(bytes: &[u8]) -> AcpiResult<()> {
    if bytes.len() >= Rsdp::MIN_LENGTH {
        return Rsdp::read(bytes).validate(bytes);
    }
    let mut padded = [0u8; 36];
    padded[..bytes.len()].copy_from_slice(bytes);
    let padded: &[u8] = &padded;
    let rsdp = Rsdp::read(padded);
    if bytes.len() < 20 || rsdp.revision() != 0 {
        return Err(AcpiError::MapFailed);
    }
    rsdp.validate(padded)
}

/// Where the BIOS areas end.
const BIOS_END: u64 = 0x10_0000;

/// Whether an RSDP may be at an address: in the BIOS areas at a multiple of 16 (section 5.2.5.1). A pointer of UEFI
/// leads to any other, and EDK2 puts it at a multiple of 8.
fn is_place(address: u64) -> bool {
    address % 16 == 0 || (address % 8 == 0 && address >= BIOS_END)
}

/// Whether bytes have a valid RSDP at a multiple of 8.
pub(crate) fn has_valid_rsdp(bytes: &[u8]) -> bool {
    for offset in (0..bytes.len()).step_by(8) {
        let rest = bytes.get(offset..).unwrap_or(&[]);
        if rest.starts_with(SIGNATURE) && candidate_of(0, rest).refusal.is_none() {
            return true;
        }
    }
    false
}

/// The candidates that a memory has, in ascending order.
///
/// Fails if memory runs out.
pub fn candidates(alloc: Global, image: &MemoryImage<'_>) -> Result<Vec<Candidate>, AllocError> {
    let mut found = Vec::new(alloc);
    for record in image.records() {
        let (start, bytes) = (record.start, record.bytes);
        let first = ((8 - start % 8) % 8) as usize;
        for offset in (first..bytes.len()).step_by(8) {
            let address = start.saturating_add(offset as u64);
            let rest = bytes.get(offset..).unwrap_or(&[]);
            if rest.starts_with(SIGNATURE) && is_place(address) {
                found.push(candidate_of(address, rest))?;
            }
        }
    }
    found.sort_by_key(|candidate| candidate.address)?;
    Ok(found)
}

/// Where the extended BIOS data area begins: 16 times the word at 0x40e, if the memory has it.
pub fn ebda_of(lent: &[u8]) -> Option<u64> {
    if lent.len() < 2 {
        return None;
    }
    Some(field(lent, 0, 2).saturating_mul(16))
}

/// The addresses of the valid candidates that the BIOS areas have, those from 0xe0000 on first, or else
/// of all valid candidates.
///
/// Fails if memory runs out.
pub fn starts(alloc: Global, found: &[Candidate], ebda: Option<u64>) -> Result<Vec<u64>, AllocError> {
    let [first, second] = zacpi::rsdp::bios_areas(ebda);
    let mut addresses = Vec::new(alloc);
    push_valid(&mut addresses, found, second)?;
    push_valid(&mut addresses, found, first)?;
    if addresses.is_empty() {
        push_valid(&mut addresses, found, ANYWHERE)?;
    }
    Ok(addresses)
}

/// An area that has all addresses of an RSDP.
const ANYWHERE: AddressRange = AddressRange { address: 0, length: u64::MAX };

/// Adds the addresses of the valid candidates in an area.
fn push_valid(addresses: &mut Vec<u64>, found: &[Candidate], area: AddressRange) -> Result<(), AllocError> {
    for candidate in found {
        let is_inside = candidate.address >= area.address && candidate.address - area.address < area.length;
        if is_inside && candidate.refusal.is_none() {
            addresses.push(candidate.address)?;
        }
    }
    Ok(())
}
