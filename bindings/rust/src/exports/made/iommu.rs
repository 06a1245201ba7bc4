// Made by scripts/erase of crates/acpi_c/src/made/iommu.rt, where it is proved.
//! Made by scripts/exports of include/zacpi.h, which has what each call does.

use crate::c_devices::iommu::faults::{dmar_faults, ivrs_faults};
use crate::c_devices::iommu::lists::{dmar_scopes, dmar_structure_scopes, ivrs_entries};
use crate::c_devices::iommu::records::{
    DmarAffinity, DmarFlags, DmarReserved, DmarRootPorts, DmarScope, DmarSource, DmarUnit, Hop, IvrsDevice, IvrsEntry,
    IvrsMemory, IvrsUnit,
};
use crate::c_devices::iommu::regions::{dmar_structures, ivrs_blocks};
use crate::c_devices::iommu::{dmar_flags, dmar_hpet, dmar_io_apic, dmar_reserved, dmar_unit, ivrs_memory, ivrs_unit};
use crate::c_lib::answer::answer;
use crate::c_lib::entry_faults::EntryFault;
use crate::c_lib::records::{Signature, Source};

/// Returns what the DMAR states for all units (section 8.1).
#[unsafe(no_mangle)]
pub extern "C" fn zacpi_1_get_dmar_flags(source: &Source<'_>, out: &mut DmarFlags, named: &mut Signature) -> u32 {
    answer(dmar_flags(source), out, named)
}

/// Lists the DRHDs, up to the first byte at which no structure begins.
#[unsafe(no_mangle)]
pub extern "C" fn zacpi_1_list_dmar_units(
    source: &Source<'_>,
    out: *mut DmarUnit,
    out_length: usize,
    count: &mut usize,
    named: &mut Signature,
) -> u32 {
    let out = unsafe { core::slice::from_raw_parts_mut(out, out_length) };
    answer(dmar_structures(source, out), count, named)
}

/// Lists the device scopes of the `index`-th of these units, from 0 on, up to the first byte at which none begins.
#[unsafe(no_mangle)]
pub extern "C" fn zacpi_1_list_dmar_scopes(
    source: &Source<'_>,
    index: usize,
    out: *mut DmarScope,
    out_length: usize,
    count: &mut usize,
    named: &mut Signature,
) -> u32 {
    let out = unsafe { core::slice::from_raw_parts_mut(out, out_length) };
    answer(dmar_scopes(source, index, out), count, named)
}

/// Lists the memory that is reserved for devices: the RMRRs, up to the first byte at which no structure begins.
#[unsafe(no_mangle)]
pub extern "C" fn zacpi_1_list_dmar_regions(
    source: &Source<'_>,
    out: *mut DmarReserved,
    out_length: usize,
    count: &mut usize,
    named: &mut Signature,
) -> u32 {
    let out = unsafe { core::slice::from_raw_parts_mut(out, out_length) };
    answer(dmar_structures(source, out), count, named)
}

/// Lists the ATSRs, up to the first byte at which no structure begins.
#[unsafe(no_mangle)]
pub extern "C" fn zacpi_1_list_dmar_root_ports(
    source: &Source<'_>,
    out: *mut DmarRootPorts,
    out_length: usize,
    count: &mut usize,
    named: &mut Signature,
) -> u32 {
    let out = unsafe { core::slice::from_raw_parts_mut(out, out_length) };
    answer(dmar_structures(source, out), count, named)
}

/// Lists the RHSAs: the domains of units, up to the first byte at which no structure begins.
#[unsafe(no_mangle)]
pub extern "C" fn zacpi_1_list_dmar_affinities(
    source: &Source<'_>,
    out: *mut DmarAffinity,
    out_length: usize,
    count: &mut usize,
    named: &mut Signature,
) -> u32 {
    let out = unsafe { core::slice::from_raw_parts_mut(out, out_length) };
    answer(dmar_structures(source, out), count, named)
}

/// Lists the device scopes of the `index`-th structure of a Type (of enum zacpi_dmar_type), from 0 on, up to the first
/// byte at which none begins.
#[unsafe(no_mangle)]
pub extern "C" fn zacpi_1_list_dmar_structure_scopes(
    source: &Source<'_>,
    structure_type: u16,
    index: usize,
    out: *mut DmarScope,
    out_length: usize,
    count: &mut usize,
    named: &mut Signature,
) -> u32 {
    let out = unsafe { core::slice::from_raw_parts_mut(out, out_length) };
    answer(dmar_structure_scopes(source, structure_type, index, out), count, named)
}

/// Lists the structures with an error: device scopes that end early, else an RMRR that is no range; and last, if there
/// is one, the first byte at which none begins.
#[unsafe(no_mangle)]
pub extern "C" fn zacpi_1_list_dmar_faults(
    source: &Source<'_>,
    out: *mut EntryFault,
    out_length: usize,
    count: &mut usize,
    named: &mut Signature,
) -> u32 {
    let out = unsafe { core::slice::from_raw_parts_mut(out, out_length) };
    answer(dmar_faults(source, out), count, named)
}

/// Returns the unit that remaps the device that the hops reach from a bus of a segment: the first DRHD of the segment
/// with a device scope that names it, else the first with INCLUDE_PCI_ALL.
#[unsafe(no_mangle)]
pub extern "C" fn zacpi_1_get_dmar_unit(
    source: &Source<'_>,
    segment: u16,
    bus: u8,
    hops: *const Hop,
    hops_length: usize,
    out: &mut DmarUnit,
    named: &mut Signature,
) -> u32 {
    let hops = unsafe { core::slice::from_raw_parts(hops, hops_length) };
    answer(dmar_unit(source, segment, bus, hops), out, named)
}

/// Returns the unit that remaps the interrupts of an I/O APIC: the first DRHD with a device scope of Type 3 whose
/// Enumeration ID is `id`.
#[unsafe(no_mangle)]
pub extern "C" fn zacpi_1_get_dmar_io_apic(
    source: &Source<'_>,
    id: u8,
    out: &mut DmarSource,
    named: &mut Signature,
) -> u32 {
    answer(dmar_io_apic(source, id), out, named)
}

/// Returns the unit that remaps the interrupts of an HPET: the first DRHD with a device scope of Type 4 whose
/// Enumeration ID is `number`.
#[unsafe(no_mangle)]
pub extern "C" fn zacpi_1_get_dmar_hpet(
    source: &Source<'_>,
    number: u8,
    out: &mut DmarSource,
    named: &mut Signature,
) -> u32 {
    answer(dmar_hpet(source, number), out, named)
}

/// Lists the memory that is reserved for a device: each RMRR of the segment with a device scope that names it as for
/// zacpi_get_dmar_unit, also one that is no range.
#[unsafe(no_mangle)]
pub extern "C" fn zacpi_1_list_dmar_reserved(
    source: &Source<'_>,
    segment: u16,
    bus: u8,
    hops: *const Hop,
    hops_length: usize,
    out: *mut DmarReserved,
    out_length: usize,
    count: &mut usize,
    named: &mut Signature,
) -> u32 {
    let hops = unsafe { core::slice::from_raw_parts(hops, hops_length) };
    let out = unsafe { core::slice::from_raw_parts_mut(out, out_length) };
    answer(dmar_reserved(source, segment, bus, hops, out), count, named)
}

/// Lists the IVHDs of all Types, up to the first byte at which no block begins.
#[unsafe(no_mangle)]
pub extern "C" fn zacpi_1_list_ivrs_units(
    source: &Source<'_>,
    out: *mut IvrsUnit,
    out_length: usize,
    count: &mut usize,
    named: &mut Signature,
) -> u32 {
    let out = unsafe { core::slice::from_raw_parts_mut(out, out_length) };
    answer(ivrs_blocks(source, out), count, named)
}

/// Lists the device entries of the `index`-th of these units, from 0 on, up to the first byte at which none begins.
#[unsafe(no_mangle)]
pub extern "C" fn zacpi_1_list_ivrs_entries(
    source: &Source<'_>,
    index: usize,
    out: *mut IvrsEntry,
    out_length: usize,
    count: &mut usize,
    named: &mut Signature,
) -> u32 {
    let out = unsafe { core::slice::from_raw_parts_mut(out, out_length) };
    answer(ivrs_entries(source, index, out), count, named)
}

/// Lists the blocks with an error: device entries that end early, else an IVMD whose memory ends at 2^64 or above; and
/// last, if there is one, the first byte at which none begins.
#[unsafe(no_mangle)]
pub extern "C" fn zacpi_1_list_ivrs_faults(
    source: &Source<'_>,
    out: *mut EntryFault,
    out_length: usize,
    count: &mut usize,
    named: &mut Signature,
) -> u32 {
    let out = unsafe { core::slice::from_raw_parts_mut(out, out_length) };
    answer(ivrs_faults(source, out), count, named)
}

/// Returns the unit that remaps a device.
#[unsafe(no_mangle)]
pub extern "C" fn zacpi_1_get_ivrs_unit(
    source: &Source<'_>,
    segment: u16,
    device_id: u16,
    out: &mut IvrsDevice,
    named: &mut Signature,
) -> u32 {
    answer(ivrs_unit(source, segment, device_id), out, named)
}

/// Lists the memory that has its own rules: the IVMDs of all Types, whatever their length, up to the first byte at
/// which no block begins.
#[unsafe(no_mangle)]
pub extern "C" fn zacpi_1_list_ivrs_regions(
    source: &Source<'_>,
    out: *mut IvrsMemory,
    out_length: usize,
    count: &mut usize,
    named: &mut Signature,
) -> u32 {
    let out = unsafe { core::slice::from_raw_parts_mut(out, out_length) };
    answer(ivrs_blocks(source, out), count, named)
}

/// Lists the memory that has its own rules for a device: each IVMD for it, for all devices or for a range that contains
/// it, whatever its segment and length.
#[unsafe(no_mangle)]
pub extern "C" fn zacpi_1_list_ivrs_memory(
    source: &Source<'_>,
    device_id: u16,
    out: *mut IvrsMemory,
    out_length: usize,
    count: &mut usize,
    named: &mut Signature,
) -> u32 {
    let out = unsafe { core::slice::from_raw_parts_mut(out, out_length) };
    answer(ivrs_memory(source, device_id, out), count, named)
}
