// Made by scripts/erase of crates/acpi_c_devices/src/iommu/faults.rt, where it is proved.
//! The structures of a DMAR and the blocks of an IVRS at fault, and the bytes in which none begins.

use crate::base::bytes::field;
use crate::c_lib::entry_faults::{EntryFault, entry_fault};
use crate::c_lib::lists::put;
use crate::c_lib::opening::first;
use crate::c_lib::records::Source;
use crate::c_lib::refusal::Refusal;
use crate::c_lib::regions::Mapped;
use crate::iommu::{Dmar, DmarUnits, IommuError, Ivrs, IvrsBlocks};

/// Lists the structures of the first valid DMAR at fault and, last, the bytes in which none begins.
pub fn dmar_faults(source: &Source<'_>, out: &mut [EntryFault]) -> Result<usize, Refusal> {
    let memory = Mapped::new(source.regions);
    let dmar = first::<Dmar>(&memory, source)?;
    Ok(fill_dmar_faults(dmar.bytes(), dmar.physical_start(), out))
}

/// Lists the blocks of the first valid IVRS at fault and, last, the bytes in which none begins.
pub fn ivrs_faults(source: &Source<'_>, out: &mut [EntryFault]) -> Result<usize, Refusal> {
    let memory = Mapped::new(source.regions);
    let ivrs = first::<Ivrs>(&memory, source)?;
    Ok(fill_ivrs_faults(ivrs.bytes(), ivrs.physical_start(), out))
}

/// Writes the faults of a DMAR's bytes at an address.
fn fill_dmar_faults(table: &[u8], address: u64, out: &mut [EntryFault]) -> usize {
    let mut structures = DmarUnits::over(table).structures();
    let mut at = address + 48;
    let mut count = 0;
    while let Some(structure) = structures.next() {
        if let Some(error) = structure.fault() {
            put(out, count, fault(at, structure.kind(), error));
            count += 1;
        }
        at += structure.length() as u64;
    }
    let rest = structures.rest();
    if !rest.is_empty() {
        let structure_type = field(rest, 0, 2) as u16; // Type
        put(out, count, fault(at, structure_type, IommuError::InvalidStructureLength));
        count += 1;
    }
    count
}

/// Writes the faults of an IVRS' bytes at an address.
fn fill_ivrs_faults(table: &[u8], address: u64, out: &mut [EntryFault]) -> usize {
    let mut blocks = IvrsBlocks::over(table).blocks();
    let mut at = address + 48;
    let mut count = 0;
    while let Some(block) = blocks.next() {
        if let Some(error) = block.fault() {
            put(out, count, fault(at, block.kind() as u16, error));
            count += 1;
        }
        at += block.length() as u64;
    }
    let rest = blocks.rest();
    if !rest.is_empty() {
        let block_type = field(rest, 0, 1) as u16; // Type
        put(out, count, fault(at, block_type, IommuError::InvalidStructureLength));
        count += 1;
    }
    count
}

/// One of a type, at an address, with its error.
fn fault(address: u64, entry_type: u16, error: IommuError) -> EntryFault {
    entry_fault(address, entry_type, Refusal::from(error))
}
