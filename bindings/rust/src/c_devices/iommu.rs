// Made by scripts/erase of crates/acpi_c_devices/src/iommu.rt, where it is proved.
//! The units that remap devices' accesses to memory (IOMMUs), by the DMAR (Intel Virtualization Technology for Directed
//! I/O 4.0, chapter 8) and by the IVRS (AMD I/O Virtualization Technology (IOMMU) Specification 3.08, section 5.2).

pub mod faults;
pub mod lists;
pub mod records;
pub mod regions;
pub(crate) mod shown;

use crate::c_devices::iommu::records::{DmarFlags, DmarReserved, DmarSource, DmarUnit, Hop, IvrsDevice, IvrsMemory};
use crate::c_lib::lists::{Listing, fill};
use crate::c_lib::opening::first;
use crate::c_lib::records::Source;
use crate::c_lib::refusal::Refusal;
use crate::c_lib::regions::Mapped;
use crate::iommu::{Dmar, DmarUnits, Ivmd, Ivrs, IvrsBlocks, MemoryIter, ReservedIter, Rmrr};
use shown::{block_record, device_record, memory_record, reserved_record, source_record, unit_record};

// ---- the DMAR

/// The unit that remaps a device, by the first valid DMAR (section 8.3): the device that hops reach from a bus of a
/// segment.
pub fn dmar_unit(source: &Source<'_>, segment: u16, bus: u8, hops: &[Hop]) -> Result<DmarUnit, Refusal> {
    let memory = Mapped::new(source.regions);
    let dmar = first::<Dmar>(&memory, source)?;
    let units = DmarUnits::over(dmar.bytes());
    let unit = units.find_unit(segment, bus, hops)?.ok_or(Refusal::NoIommu)?;
    Ok(unit_record(&unit))
}

/// The unit that remaps the interrupts of an I/O APIC, by the first valid DMAR (section 8.3.1).
pub fn dmar_io_apic(source: &Source<'_>, id: u8) -> Result<DmarSource, Refusal> {
    let memory = Mapped::new(source.regions);
    let dmar = first::<Dmar>(&memory, source)?;
    let units = DmarUnits::over(dmar.bytes());
    let found = units.find_source(3, id)?.ok_or(Refusal::NoIommu)?;
    Ok(source_record(&found))
}

/// The unit that remaps the interrupts of an HPET, by the first valid DMAR (section 8.3.1).
pub fn dmar_hpet(source: &Source<'_>, number: u8) -> Result<DmarSource, Refusal> {
    let memory = Mapped::new(source.regions);
    let dmar = first::<Dmar>(&memory, source)?;
    let units = DmarUnits::over(dmar.bytes());
    let found = units.find_source(4, number)?.ok_or(Refusal::NoIommu)?;
    Ok(source_record(&found))
}

/// What the first valid DMAR contains about all units (section 8.1).
pub fn dmar_flags(source: &Source<'_>) -> Result<DmarFlags, Refusal> {
    let memory = Mapped::new(source.regions);
    let dmar = first::<Dmar>(&memory, source)?;
    Ok(dmar_flags_record(&dmar))
}

fn dmar_flags_record(dmar: &Dmar) -> DmarFlags {
    DmarFlags { address_bits: dmar.address_bits(), flags: dmar.flags, reserved: 0 }
}

/// Lists the memory that the first valid DMAR reserves for a device (section 8.4), which is named as for `dmar_unit`.
pub fn dmar_reserved(
    source: &Source<'_>,
    segment: u16,
    bus: u8,
    hops: &[Hop],
    out: &mut [DmarReserved],
) -> Result<usize, Refusal> {
    let memory = Mapped::new(source.regions);
    let dmar = first::<Dmar>(&memory, source)?;
    Ok(fill_reserved(dmar.bytes(), segment, bus, hops, out))
}

/// Writes the memory that a DMAR reserves for a device.
fn fill_reserved(table: &[u8], segment: u16, bus: u8, hops: &[Hop], out: &mut [DmarReserved]) -> usize {
    let ranges = DmarUnits::over(table).each_reserved(segment, bus, hops);
    fill(ranges, &(), out)
}

impl Listing<(), DmarReserved> for ReservedIter<'_, '_> {
    fn record(_known: &(), range: Rmrr) -> Option<DmarReserved> {
        Some(reserved_record(&range))
    }
}

// ---- the IVRS

/// The unit that remaps the device of an id, by the first valid IVRS (section 5.2), and how it treats the device.
pub fn ivrs_unit(source: &Source<'_>, segment: u16, device_id: u16) -> Result<IvrsDevice, Refusal> {
    let memory = Mapped::new(source.regions);
    let ivrs = first::<Ivrs>(&memory, source)?;
    let blocks = IvrsBlocks::over(ivrs.bytes());
    let found = blocks.find_block(segment, device_id)?.ok_or(Refusal::NoIommu)?;
    Ok(device_record(&found))
}

/// Lists the memory that has its own rules for the device of an id, by the first valid IVRS (section 5.2).
pub fn ivrs_memory(source: &Source<'_>, device_id: u16, out: &mut [IvrsMemory]) -> Result<usize, Refusal> {
    let memory = Mapped::new(source.regions);
    let ivrs = first::<Ivrs>(&memory, source)?;
    Ok(fill_memory(ivrs.bytes(), device_id, out))
}

/// Writes the memory of an IVRS that has its own rules for a device.
fn fill_memory(table: &[u8], device_id: u16, out: &mut [IvrsMemory]) -> usize {
    fill(IvrsBlocks::over(table).each_memory(device_id), &(), out)
}

impl Listing<(), IvrsMemory> for MemoryIter<'_> {
    fn record(_known: &(), range: Ivmd) -> Option<IvrsMemory> {
        Some(memory_record(&range))
    }
}
