// Made by scripts/erase of crates/acpi_base/src/table/lookup.rt, where it is proved.
//! The table at an address (section 5.2.6).

use super::AcpiTable;
use super::header::SdtHeader;
use super::signature::Signature;
use crate::base::bytes::{byte_sum, has_bit};
use crate::base::error::{AcpiError, AcpiResult};
use crate::base::memory::claim::Claim;
use crate::base::memory::handler::{Lender, PhysicalRecord};
use crate::base::memory::mapping::PhysicalMapping;

/// The header's bytes at an address, if they begin with this signature. Most members that a
/// lookup skips have another one: so that is compared before anything else is made of them.
#[inline(always)]
fn claim_header<'h, H: Lender>(handler: &'h H, address: u64, signature: Signature) -> AcpiResult<Claim<'h, H>> {
    let head = Claim::request(handler, address, SdtHeader::MIN_LENGTH)?;
    if !Signature::leading(head.shown()).is(signature) {
        head.end();
        return Err(AcpiError::SdtInvalidSignature(signature));
    }
    Ok(head)
}

/// The bytes of the table whose header is claimed and has this signature, as many as its Length, if it passes the
/// checks that the bits of `accept` leave and has the least length. The sum is still to be checked. If the bytes mapped
/// for the header contain the whole table, they are shown; else the header's claim ends before the request.
#[inline(always)]
fn claim_whole<'h, H: Lender>(
    head: Claim<'h, H>,
    signature: Signature,
    least: usize,
    accept: u32,
) -> AcpiResult<Claim<'h, H>> {
    match SdtHeader::read(head.shown()).table_length(signature, least, accept) {
        Ok(length) => head.widen(length),
        Err(error) => {
            head.end();
            Err(error)
        }
    }
}

/// The bytes of a table that is accepted for some type, as they are mapped: small, so that a walk along
/// many addresses makes nothing as big as a record of the ones that it skips.
#[derive(Debug)]
pub struct ValidTable<'h, H: Lender> {
    claim: Claim<'h, H>,
}

impl<'h, H: Lender> ValidTable<'h, H> {
    /// The mapping of these bytes: the table's record, and its bytes.
    ///
    /// # Panics
    ///
    /// May panic, as `T::read`, if the table is shorter than `T::MIN_LENGTH`.
    #[inline(always)]
    pub fn mapping<T: PhysicalRecord>(self) -> PhysicalMapping<'h, H, T> {
        let ValidTable { claim } = self;
        PhysicalMapping::of_claim(claim)
    }
}

/// What the checks of bytes return for a table of type `T` whose header has the names, and a length that is their
/// number.
#[inline(always)]
fn check_valid<T: AcpiTable>(bytes: &[u8]) -> AcpiResult<()> {
    T::validate_rest(bytes)?;
    T::check_own(bytes)
}

/// The bytes of the table whose header is claimed, if it is valid for `T`. No record is made of them here:
/// they are small to pass on, and the record is read where it is to be.
#[inline(never)]
fn claim_valid<'h, H: Lender, T: AcpiTable>(head: Claim<'h, H>) -> AcpiResult<ValidTable<'h, H>> {
    let claim = claim_whole(head, T::SIGNATURE, T::MIN_LENGTH, 0)?;
    match check_valid::<T>(claim.shown()) {
        Ok(()) => Ok(ValidTable { claim }),
        Err(error) => {
            claim.end();
            Err(error)
        }
    }
}

/// The bytes of the table at a physical address, if it is valid for `T` (section 5.2.6).
///
/// Fails as `map_table` does.
#[inline(always)]
pub fn valid_at<'h, H: Lender, T: AcpiTable>(handler: &'h H, address: u64) -> AcpiResult<ValidTable<'h, H>> {
    let head = claim_header(handler, address, T::SIGNATURE)?;
    claim_valid::<H, T>(head)
}

/// What is left of the result of a type's check of a table's bytes by the bits of `accept`: by bit 0 an error of
/// the sum doesn't count, by bit 1 one of an id, after which only the sum is left to check.
fn left_of(checked: AcpiResult<()>, signature: Signature, bytes: &[u8], accept: u32) -> AcpiResult<()> {
    match checked {
        Err(AcpiError::SdtInvalidChecksum(_)) if has_bit(accept as u64, 0) => Ok(()),
        Err(AcpiError::SdtInvalidOemId(_) | AcpiError::SdtInvalidTableId(_)) if has_bit(accept as u64, 1) => {
            if !has_bit(accept as u64, 0) && byte_sum(bytes) != 0 {
                return Err(AcpiError::SdtInvalidChecksum(signature));
            }
            Ok(())
        }
        other => other,
    }
}

/// What the checks of bytes return for `T` that are left by the bits of `accept`, of which some are set.
fn check_accepted<T: AcpiTable>(bytes: &[u8], accept: u32) -> AcpiResult<()> {
    let checked = T::read(bytes).validate(bytes);
    left_of(checked, T::SIGNATURE, bytes, accept)?;
    T::check_own(bytes)
}

/// The bytes of the table whose header is claimed, if by the bits of `accept`, of which some are set, it is accepted
/// for `T`.
#[inline(never)]
fn claim_accepted<'h, H: Lender, T: AcpiTable>(head: Claim<'h, H>, accept: u32) -> AcpiResult<ValidTable<'h, H>> {
    let claim = claim_whole(head, T::SIGNATURE, T::MIN_LENGTH, accept)?;
    match check_accepted::<T>(claim.shown(), accept) {
        Ok(()) => Ok(ValidTable { claim }),
        Err(error) => {
            claim.end();
            Err(error)
        }
    }
}

/// The bytes of the table at a physical address, if it is accepted for `T` (section 5.2.6): if it is valid, or only
/// checks fail that are given up. By bit 0 of `accept` its sum may be any, by bit 1 both of its ids, and by 0 it has to
/// be valid. Of the result of `T::validate` an error of the sum or of an id doesn't count that is given up, and after
/// one of an id only the sum is left to check. `T::check_own` stays.
///
/// Fails as `map_table` does, but for those errors.
#[inline(always)]
pub fn accepted_at<'h, H: Lender, T: AcpiTable>(
    handler: &'h H,
    address: u64,
    accept: u32,
) -> AcpiResult<ValidTable<'h, H>> {
    let head = claim_header(handler, address, T::SIGNATURE)?;
    if has_bit(accept as u64, 0) || has_bit(accept as u64, 1) {
        claim_accepted::<H, T>(head, accept)
    } else {
        return claim_valid::<H, T>(head);
    }
}

/// The table at a physical address, if it is valid for `T` (sections 5.2.5 and 5.2.6).
///
/// Fails, in this order, with `MapFailed` if 36 bytes aren't mapped, `SdtInvalidSignature` if the signature
/// is another or is not valid UTF-8, `SdtInvalidOemId` and `SdtInvalidTableId` if that id is not valid
/// UTF-8, `SdtInvalidLength` if the length in the header is under `T::MIN_LENGTH`, `MapFailed` if that many
/// bytes aren't mapped, and with the error of `T::validate` for these bytes.
#[inline(always)]
pub fn map_table<'h, H: Lender, T: AcpiTable>(handler: &'h H, address: u64) -> AcpiResult<PhysicalMapping<'h, H, T>> {
    let valid = valid_at::<H, T>(handler, address)?;
    Ok(valid.mapping())
}

/// The bytes of the table whose header is claimed and has this signature, if by the bits of `accept` it is accepted as
/// one of a least length of which only the header and the sum matter.
#[inline(never)]
fn claim_by<'h, H: Lender>(
    head: Claim<'h, H>,
    signature: Signature,
    least: usize,
    accept: u32,
) -> AcpiResult<ValidTable<'h, H>> {
    let claim = claim_whole(head, signature, least, accept)?;
    if !has_bit(accept as u64, 0) && byte_sum(claim.shown()) != 0 {
        claim.end();
        return Err(AcpiError::SdtInvalidChecksum(signature));
    }
    Ok(ValidTable { claim })
}

/// The bytes of the table at a physical address, if it is accepted under a signature that is known only at run time, as
/// one of a least length, of at least 36, of which only the header and the sum matter (section 5.2.6). By bit 0 of
/// `accept` its sum may be any, by bit 1 both of its ids, and by 0 it has to be valid.
///
/// Fails as `map_table` does for a type with that signature and least length, but for the checks that are skipped.
///
/// # Panics
///
/// Doesn't, but if `least` is below 36 it may return a table that is shorter than a header, for which `mapping`
/// panics.
#[inline(always)]
pub fn valid_by<'h, H: Lender>(
    handler: &'h H,
    address: u64,
    signature: Signature,
    least: usize,
    accept: u32,
) -> AcpiResult<ValidTable<'h, H>> {
    let head = claim_header(handler, address, signature)?;
    claim_by(head, signature, least, accept)
}

/// The bytes of the table at a physical address, if it is accepted in this way under the signature that it has itself,
/// whatever that is, with the least length 36 (section 5.2.6).
///
/// Fails as `valid_by` does for that signature.
#[inline(always)]
pub fn own_valid_by<'h, H: Lender>(handler: &'h H, address: u64, accept: u32) -> AcpiResult<ValidTable<'h, H>> {
    let head = Claim::request(handler, address, SdtHeader::MIN_LENGTH)?;
    let signature = Signature::leading(head.shown());
    claim_by(head, signature, SdtHeader::MIN_LENGTH, accept)
}

/// The table at a physical address under a signature that is known only at run time, mapped as its header
/// (section 5.2.6): of least length 36, and with only the checks of `SdtHeader::validate`.
///
/// Fails as `map_table` does for a type with that signature, the least length 36 and these checks.
#[inline(always)]
pub fn map_sdt<'h, H: Lender>(
    handler: &'h H,
    address: u64,
    signature: Signature,
) -> AcpiResult<PhysicalMapping<'h, H, SdtHeader>> {
    let valid = valid_by(handler, address, signature, SdtHeader::MIN_LENGTH, 0)?;
    Ok(valid.mapping())
}

/// The table at a physical address under the signature that it has itself, whatever that is, mapped as
/// its header (section 5.2.6).
///
/// Fails as `map_sdt` does for that signature.
#[inline(always)]
pub fn map_own_sdt<'h, H: Lender>(handler: &'h H, address: u64) -> AcpiResult<PhysicalMapping<'h, H, SdtHeader>> {
    let valid = own_valid_by(handler, address, 0)?;
    Ok(valid.mapping())
}
