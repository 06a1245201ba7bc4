// Made by scripts/erase of crates/acpi_c/src/made/pci.rt, where it is proved.
//! Made by scripts/exports of include/zacpi.h, which has what each call does.

use crate::c_devices::fixed::records::EcamRange;
use crate::c_devices::pci::{ecam_address, ecam_ranges, pci_regions};
use crate::c_devices::records::PciRegion;
use crate::c_lib::answer::answer;
use crate::c_lib::records::{Signature, Source};

/// Lists the regions of PCI configuration space of the MCFG: 16 bytes for each from byte 44 on; fewer at the end are
/// none.
#[unsafe(no_mangle)]
pub extern "C" fn zacpi_1_list_pci_regions(
    source: &Source<'_>,
    out: *mut PciRegion,
    out_length: usize,
    count: &mut usize,
    named: &mut Signature,
) -> u32 {
    let out = unsafe { core::slice::from_raw_parts_mut(out, out_length) };
    answer(pci_regions(source, out), count, named)
}

/// Lists the memory of each item of zacpi_list_pci_regions, with its base as bus 0's.
#[unsafe(no_mangle)]
pub extern "C" fn zacpi_1_list_ecam_ranges(
    source: &Source<'_>,
    out: *mut EcamRange,
    out_length: usize,
    count: &mut usize,
    named: &mut Signature,
) -> u32 {
    let out = unsafe { core::slice::from_raw_parts_mut(out, out_length) };
    answer(ecam_ranges(source, out), count, named)
}

/// Returns the address of a function's 4096 bytes of configuration space, by the first region of the MCFG that contains
/// the bus, with its base as bus 0's.
#[unsafe(no_mangle)]
pub extern "C" fn zacpi_1_pci_ecam_address(
    source: &Source<'_>,
    segment: u16,
    bus: u8,
    device: u8,
    function: u8,
    out: &mut u64,
    named: &mut Signature,
) -> u32 {
    answer(ecam_address(source, segment, bus, device, function), out, named)
}
