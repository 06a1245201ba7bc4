// Made by scripts/erase of crates/acpi_c_devices/src/iommu/lists.rt, where it is proved.
//! The lists of what the units that remap devices' accesses to memory name.

use crate::base::bytes::filled;
use crate::c_devices::iommu::records::{DmarScope, Hop, IvrsEntry};
use crate::c_devices::known::Nothing;
use crate::c_lib::lists::{Listing, fill};
use crate::c_lib::opening::first;
use crate::c_lib::records::Source;
use crate::c_lib::refusal::Refusal;
use crate::c_lib::regions::Mapped;
use crate::iommu::{
    DeviceEntry, DeviceEntryIter, DeviceScope, DeviceScopeIter, Dmar, DmarStructure, DmarUnits, HopIter, Ivrs,
    IvrsBlock, IvrsBlocks, SpecialDevice,
};

// ---- the DMAR

/// Lists the device scopes of the `index`-th unit of the first valid DMAR, counted from 0 (section 8.3.1).
pub fn dmar_scopes(source: &Source<'_>, index: usize, out: &mut [DmarScope]) -> Result<usize, Refusal> {
    dmar_structure_scopes(source, 0, index, out) // Type 0, a DRHD
}

/// Lists the device scopes of the `index`-th structure of a type of the first valid DMAR, counted from 0 (section
/// 8.3.1).
pub fn dmar_structure_scopes(
    source: &Source<'_>,
    structure_type: u16,
    index: usize,
    out: &mut [DmarScope],
) -> Result<usize, Refusal> {
    let memory = Mapped::new(source.regions);
    let dmar = first::<Dmar>(&memory, source)?;
    let structure = nth_structure(dmar.bytes(), structure_type, index).ok_or(Refusal::NoIommu)?;
    Ok(fill_scopes(&structure, out))
}

/// The `index`-th structure of a type of a DMAR, counted from 0.
fn nth_structure(table: &[u8], kind: u16, index: usize) -> Option<DmarStructure<'_>> {
    let mut before = index;
    let mut structures = DmarUnits::over(table).structures();
    while let Some(structure) = structures.next() {
        if structure.kind() == kind {
            if before == 0 {
                return Some(structure);
            }
            before -= 1;
        }
    }
    None
}

/// Writes the scopes of a structure.
fn fill_scopes(structure: &DmarStructure<'_>, out: &mut [DmarScope]) -> usize {
    fill(structure.scopes(), &(), out)
}

impl Listing<(), DmarScope> for DeviceScopeIter<'_> {
    fn record(_known: &(), scope: DeviceScope<'_>) -> Option<DmarScope> {
        let none = Hop { device: 0, function: 0 };
        let mut path = [none; 16];
        let path_length = fill_path(&scope, &mut path);
        Some(DmarScope {
            path_length,
            scope_type: scope.kind(),
            flags: scope.flags(),
            enumeration_id: scope.enumeration_id(),
            bus: scope.start_bus(),
            path,
            reserved: [0; 4],
        })
    }
}

/// Writes the hops of a scope's path.
fn fill_path(scope: &DeviceScope<'_>, out: &mut [Hop]) -> usize {
    fill(scope.hops(), &Nothing, out)
}

impl Listing<Nothing, Hop> for HopIter<'_> {
    fn record(_known: &Nothing, hop: Hop) -> Option<Hop> {
        Some(hop)
    }
}

// ---- the IVRS

/// Lists the device entries of a unit of the first valid IVRS, by the unit's index (section 5.2).
pub fn ivrs_entries(source: &Source<'_>, index: usize, out: &mut [IvrsEntry]) -> Result<usize, Refusal> {
    let memory = Mapped::new(source.regions);
    let ivrs = first::<Ivrs>(&memory, source)?;
    let unit = nth_ivhd(ivrs.bytes(), index).ok_or(Refusal::NoIommu)?;
    Ok(fill_entries(&unit, out))
}

/// The unit of an IVRS at an index, counted from 0.
fn nth_ivhd(table: &[u8], index: usize) -> Option<IvrsBlock<'_>> {
    let mut before = index;
    let mut blocks = IvrsBlocks::over(table).blocks();
    while let Some(block) = blocks.next() {
        if block.ivhd().is_some() {
            if before == 0 {
                return Some(block);
            }
            before -= 1;
        }
    }
    None
}

/// Writes the device entries of a block.
fn fill_entries(block: &IvrsBlock<'_>, out: &mut [IvrsEntry]) -> usize {
    fill(block.entries(), &(), out)
}

impl Listing<(), IvrsEntry> for DeviceEntryIter<'_> {
    fn record(_known: &(), entry: DeviceEntry<'_>) -> Option<IvrsEntry> {
        let special = special_or(&entry);
        let unique_id = entry.unique_id();
        Some(IvrsEntry {
            unique_id_length: unique_id.len(),
            extended_settings: entry.extended_settings().unwrap_or(0),
            first: entry.first(),
            last: entry.last(),
            source_id: special.source,
            entry_type: entry.kind(),
            settings: entry.settings(),
            handle: special.handle,
            variety: special.variety,
            hardware_id: hid_part(&entry, 4),    // Hardware ID
            compatible_id: hid_part(&entry, 12), // Compatible ID
            unique_id_format: entry.unique_id_format().unwrap_or(0),
            unique_id: filled(unique_id, 0),
            reserved: 0,
        })
    }
}

/// A special device's fields, or of another entry zeros and the alias, if it has one.
fn special_or(entry: &DeviceEntry<'_>) -> SpecialDevice {
    let none = SpecialDevice { handle: 0, source: entry.alias().unwrap_or(0), variety: 0 };
    entry.special().unwrap_or(none)
}

/// Eight bytes of an ACPI HID device, type 0xf0; zeros of others.
fn hid_part(entry: &DeviceEntry<'_>, offset: usize) -> [u8; 8] {
    if entry.kind() == 0xf0 { filled(entry.bytes(), offset) } else { [0; 8] }
}
