// Made by scripts/erase of crates/acpi_c_lib/src/faults.rt, where it is proved.
//! The tables that lookups skip, or take though they aren't valid.

use crate::acpi::bgrt::Bgrt;
use crate::acpi::fadt::Fadt;
use crate::acpi::hpet::HpetTable;
use crate::acpi::madt::Madt;
use crate::acpi::mcfg::Mcfg;
use crate::acpi::sdt::{SdtHeader, Signature};
use crate::acpi::spcr::Spcr;
use crate::acpi::{AcpiError, AcpiHandler, AcpiResult, PhysicalRecord, Pointers};
use crate::arm::gtdt::Gtdt;
use crate::base::table::valid_by;
use crate::c_lib::lists::put;
use crate::c_lib::opening::open;
use crate::c_lib::records::{self, Fault, Source};
use crate::c_lib::refusal::{Refusal, acpi_code};
use crate::c_lib::regions::Mapped;
use crate::c_lib::tables::signature_named;
use crate::iommu::{Dmar, Ivrs};
use crate::numa::{Slit, Srat};

/// Lists the tables that a lookup of a signature skips, and the one that it takes if that isn't valid, and why.
pub fn faults(source: &Source<'_>, name: records::Signature, out: &mut [Fault]) -> Result<usize, Refusal> {
    let memory = Mapped::new(source.regions)?;
    let tables = open(&memory, source)?;
    let signature = signature_named(name);
    Ok(fill_faults(&memory, source.accept, tables.addresses(), signature, out))
}

/// The faults of a lookup of a signature.
fn fill_faults<H: AcpiHandler>(
    handler: &H,
    accept: u32,
    addresses: Pointers<'_>,
    signature: Signature,
    out: &mut [Fault],
) -> usize {
    let mut count = 0;
    for address in addresses {
        let (fault, ends) = match looked_at(handler, accept, address, signature) {
            Ok(()) => (accepted_fault(handler, address, signature), true),
            Err(AcpiError::SdtInvalidSignature(_)) => (None, false),
            Err(error) => (Some(fault_record(0, address, error)), false),
        };
        if let Some(fault) = fault {
            put(out, count, fault);
            count += 1;
        }
        if ends {
            break;
        }
    }
    count
}

/// Why the table at an address that is accepted isn't valid.
fn accepted_fault<H: AcpiHandler>(handler: &H, address: u64, signature: Signature) -> Option<Fault> {
    match looked_at(handler, 0, address, signature) {
        Ok(()) => None,
        Err(error) => Some(fault_record(1, address, error)),
    }
}

/// That the table at an address isn't valid, or isn't accepted.
fn fault_record(accepted: u8, address: u64, error: AcpiError) -> Fault {
    Fault { address, status: acpi_code(error), accepted, reserved: [0; 3] }
}

/// Whether a lookup of a signature takes the table at an address, or why it passes it over.
fn looked_at<H: AcpiHandler>(handler: &H, accept: u32, address: u64, signature: Signature) -> AcpiResult<()> {
    let table = valid_by(handler, address, signature, least_named(signature), accept)?;
    table.mapping::<SdtHeader>();
    Ok(())
}

/// The least length of a table that a lookup of a signature takes.
fn least_named(signature: Signature) -> usize {
    if signature == Signature::FADT {
        Fadt::MIN_LENGTH
    } else if signature == Signature::MADT {
        Madt::MIN_LENGTH
    } else if signature == Signature::MCFG {
        Mcfg::MIN_LENGTH
    } else if signature == Signature::HPET {
        HpetTable::MIN_LENGTH
    } else if signature == Signature::BGRT {
        Bgrt::MIN_LENGTH
    } else if signature == Signature::SPCR {
        Spcr::MIN_LENGTH
    } else if signature == Signature::GTDT {
        Gtdt::MIN_LENGTH
    } else if signature == Signature::SRAT {
        Srat::MIN_LENGTH
    } else if signature == Signature::SLIT {
        Slit::MIN_LENGTH
    } else if signature == Signature::DMAR {
        Dmar::MIN_LENGTH
    } else if signature == Signature::IVRS {
        Ivrs::MIN_LENGTH
    } else {
        SdtHeader::MIN_LENGTH
    }
}
