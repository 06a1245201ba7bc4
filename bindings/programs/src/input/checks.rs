// Made by scripts/erase of crates/acpi_dump_input/src/checks.rt, where it is proved.
//! What the checks of a table return, as its status.

use crate::image_reader::MemoryImage;
use crate::input::candidates::check_file;
use crate::input::entries::{own_signature, signature_of};
use crate::input::flaws::is_malformed;
use crate::input::status::Status;
use crate::rattle::alloc::Global;
use zacpi::base::bytes::byte_sum;
use zacpi::bgrt::Bgrt;
use zacpi::fadt::Fadt;
use zacpi::hpet::HpetTable;
use zacpi::madt::Madt;
use zacpi::mcfg::Mcfg;
use zacpi::sdt::{SdtHeader, Signature, field, map_own_sdt, map_sdt};
use zacpi::spcr::Spcr;
use zacpi::{AcpiError, AcpiResult, AcpiTable, PhysicalRecord, facs_length};

/// The bytes up to the length in the field at offset 4, and at least a header, as far as they are there.
pub(crate) fn cut_to_length(lent: &[u8]) -> &[u8] {
    let length = field(lent, 4, 4).max(36) as usize;
    if length < lent.len() { &lent[..length] } else { lent }
}

/// The refusal of a table's bytes by the lookup of its type.
fn check_typed<T: AcpiTable>(bytes: &[u8]) -> AcpiResult<()> {
    if bytes.len() < T::MIN_LENGTH {
        return Err(AcpiError::SdtInvalidLength(T::SIGNATURE));
    }
    T::read(bytes).validate(bytes)
}

/// The refusal of a table by the lookup of its signature, if there is one.
fn check_lookup(signature: Signature, bytes: &[u8]) -> AcpiResult<()> {
    match signature.as_str().unwrap_or("") {
        "FACP" => check_typed::<Fadt>(bytes),
        "APIC" => check_typed::<Madt>(bytes),
        "HPET" => check_typed::<HpetTable>(bytes),
        "MCFG" => check_typed::<Mcfg>(bytes),
        "BGRT" => check_typed::<Bgrt>(bytes),
        "SPCR" => check_typed::<Spcr>(bytes),
        _ => Ok(()),
    }
}

/// The status of a table by what the checks of section 5.2.6 return of it, over the bytes that there are from its first
/// one on.
fn status_of(checked: AcpiResult<()>, lent: &[u8]) -> Status {
    let length = field(lent, 4, 4) as u32;
    let is_cut = lent.len() >= SdtHeader::MIN_LENGTH && length as usize > lent.len();
    match checked {
        Ok(()) => match check_lookup(own_signature(lent), cut_to_length(lent)) {
            Ok(()) => Status::Valid,
            Err(refusal) => Status::NoLookup(refusal),
        },
        Err(refusal @ (AcpiError::MapFailed | AcpiError::SdtInvalidLength(_))) if is_cut => {
            Status::Cut { refusal, has: lent.len(), length }
        }
        Err(AcpiError::SdtInvalidChecksum(signature)) => {
            let is = lent.get(9).copied().unwrap_or(0);
            let should = is.wrapping_sub(byte_sum(cut_to_length(lent)));
            Status::WrongSum { signature, is, should }
        }
        Err(refusal) => Status::Refused(refusal),
    }
}

/// The status of a FACS (section 5.2.10) by the bytes that there are of it. The error of one that is cut is `cut`.
fn facs_status(lent: &[u8], cut: AcpiError) -> Status {
    let Some(signature) = signature_of(lent) else {
        return Status::Refused(cut);
    };
    if lent.len() < 8 {
        return Status::Refused(cut);
    }
    match facs_length(signature, field(lent, 4, 4) as u32) {
        Ok(length) if length as usize > lent.len() => Status::Cut { refusal: cut, has: lent.len(), length },
        Ok(_) => Status::Valid,
        Err(refusal) => Status::Refused(refusal),
    }
}

/// What the lookup of a table at an address returns, under a signature or under the one that it has.
fn look_up(image: &MemoryImage<'_>, address: u64, sought: Option<Signature>) -> AcpiResult<()> {
    match sought {
        Some(signature) => map_sdt(image, address, signature)?,
        None => map_own_sdt(image, address)?,
    };
    Ok(())
}

/// The status of the table at an address, checked under the signature that it should have, or under its own, over the
/// bytes that there are from its first one on.
pub(crate) fn check_at(image: &MemoryImage<'_>, address: u64, sought: Option<Signature>, lent: &[u8]) -> Status {
    match sought {
        Some(_) if lent.is_empty() => Status::NotHere,
        Some(signature) if signature == Signature::FACS => facs_status(lent, AcpiError::MapFailed),
        _ => status_of(look_up(image, address, sought), lent),
    }
}

/// The status of a table by its bytes, checked under the signature that it has.
pub(crate) fn check_bytes(lent: &[u8]) -> Status {
    let signature = own_signature(lent);
    let cut = AcpiError::SdtInvalidLength(signature);
    if signature == Signature::FACS {
        facs_status(lent, cut)
    } else if lent.len() < SdtHeader::MIN_LENGTH {
        Status::Refused(cut)
    } else {
        status_of(SdtHeader::read(lent).validate(signature, lent), lent)
    }
}

/// The status of an RSDP by the checks of section 5.2.5.3.
pub(crate) fn check_rsdp(bytes: &[u8]) -> Status {
    match check_file(bytes) {
        Ok(()) => Status::Valid,
        Err(refusal) => Status::Refused(refusal),
    }
}

/// The status of a table over all bytes that are shown of it, after the one by its checks.
pub(crate) fn looked_over(alloc: Global, status: Status, bytes: &[u8]) -> Status {
    if !matches!(status, Status::Valid) {
        return status;
    }
    let over = bytes.len().saturating_sub(field(bytes, 4, 4) as usize);
    if over > 0 && !bytes.starts_with(b"RSD PTR ") {
        Status::Longer(over)
    } else if is_malformed(alloc, bytes) {
        Status::Malformed
    } else {
        status
    }
}
