// Made by scripts/erase of crates/acpi_c_devices/src/iommu/regions.rt, where it is proved.
//! The lists of a DMAR's structures and of an IVRS' blocks of one type: units, memory that is reserved or has its own
//! rules, root ports, and the domains of units, each as it is.

use crate::c_devices::iommu::records::{DmarAffinity, DmarReserved, DmarRootPorts, DmarUnit, IvrsMemory, IvrsUnit};
use crate::c_devices::iommu::shown::{block_record, memory_record, reserved_record, unit_record};
use crate::c_devices::known::Nothing;
use crate::c_lib::lists::{Listing, fill};
use crate::c_lib::opening::first;
use crate::c_lib::records::Source;
use crate::c_lib::refusal::Refusal;
use crate::c_lib::regions::Mapped;
use crate::iommu::{
    Dmar, DmarFields, DmarStructure, DmarStructureIter, DmarUnits, Ivrs, IvrsBlock, IvrsBlockIter, IvrsBlocks,
    IvrsFields,
};

// ---- the DMAR

/// What a structure of one type contains.
pub trait DmarRecord: Copy {
    /// The record of a structure, if it is of this type.
    fn of(structure: &DmarStructure<'_>) -> Option<Self>;
}

impl<R: DmarRecord> Listing<Nothing, R> for DmarStructureIter<'_> {
    fn record(_known: &Nothing, structure: DmarStructure<'_>) -> Option<R> {
        R::of(&structure)
    }
}

/// Lists the structures of one type of the first valid DMAR.
pub fn dmar_structures<R: DmarRecord>(source: &Source<'_>, out: &mut [R]) -> Result<usize, Refusal> {
    let memory = Mapped::new(source.regions);
    let dmar = first::<Dmar>(&memory, source)?;
    Ok(fill_structures(dmar.bytes(), out))
}

fn fill_structures<R: DmarRecord>(table: &[u8], out: &mut [R]) -> usize {
    fill(DmarUnits::over(table).structures(), &Nothing, out)
}

// A DRHD is a unit (section 8.3).
impl DmarRecord for DmarUnit {
    fn of(structure: &DmarStructure<'_>) -> Option<DmarUnit> {
        Some(unit_record(&structure.drhd()?))
    }
}

// An RMRR reserves memory (section 8.4).
impl DmarRecord for DmarReserved {
    fn of(structure: &DmarStructure<'_>) -> Option<DmarReserved> {
        match structure.fields()? {
            DmarFields::Rmrr(range) => Some(reserved_record(&range)),
            _ => None,
        }
    }
}

// An ATSR has root ports (section 8.5).
impl DmarRecord for DmarRootPorts {
    fn of(structure: &DmarStructure<'_>) -> Option<DmarRootPorts> {
        match structure.fields()? {
            DmarFields::Atsr(ports) => Some(DmarRootPorts {
                segment: ports.segment,
                includes_all: ports.has_all_ports() as u8,
                flags: ports.flags,
            }),
            _ => None,
        }
    }
}

// An RHSA puts a unit into a domain (section 8.6).
impl DmarRecord for DmarAffinity {
    fn of(structure: &DmarStructure<'_>) -> Option<DmarAffinity> {
        match structure.fields()? {
            DmarFields::Rhsa(unit) => {
                Some(DmarAffinity { register_base: unit.register_base, domain: unit.domain, reserved: [0; 4] })
            }
            _ => None,
        }
    }
}

// ---- the IVRS

/// What a block of one type contains.
pub trait IvrsRecord: Copy {
    /// The record of a block, if it is of this type.
    fn of(block: &IvrsBlock<'_>) -> Option<Self>;
}

impl<R: IvrsRecord> Listing<Nothing, R> for IvrsBlockIter<'_> {
    fn record(_known: &Nothing, block: IvrsBlock<'_>) -> Option<R> {
        R::of(&block)
    }
}

/// Lists the blocks of one type of the first valid IVRS.
pub fn ivrs_blocks<R: IvrsRecord>(source: &Source<'_>, out: &mut [R]) -> Result<usize, Refusal> {
    let memory = Mapped::new(source.regions);
    let ivrs = first::<Ivrs>(&memory, source)?;
    Ok(fill_blocks(ivrs.bytes(), out))
}

fn fill_blocks<R: IvrsRecord>(table: &[u8], out: &mut [R]) -> usize {
    fill(IvrsBlocks::over(table).blocks(), &Nothing, out)
}

// An IVHD, of each of its types, is a unit (section 5.2).
impl IvrsRecord for IvrsUnit {
    fn of(block: &IvrsBlock<'_>) -> Option<IvrsUnit> {
        Some(block_record(&block.ivhd()?))
    }
}

// An IVMD is memory that has its own rules (section 5.2).
impl IvrsRecord for IvrsMemory {
    fn of(block: &IvrsBlock<'_>) -> Option<IvrsMemory> {
        match block.fields()? {
            IvrsFields::Ivmd(range) => Some(memory_record(&range)),
            IvrsFields::Ivhd(_) => None,
        }
    }
}
