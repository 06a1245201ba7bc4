//! The MCFG (PCI Firmware Specification 3.3), the HPET (IA-PC HPET Specification 1.0a), the BGRT (ACPI 6.5, section
//! 5.2.23), the SPCR (Microsoft: Serial Port Console Redirection Table) and the DBG2 (Microsoft Debug Port Table 2).

use crate::check::findings::Findings;
use crate::check::machine::Machine;
use crate::check::pieces::Pieces;
use crate::check::rules::rules;
use crate::check::spans::{Span, overlaps};
use crate::prelude::*;
use zacpi::mcfg::McfgEntryIter;

rules! {
    MCFG_BUSES = Error "mcfg-buses", "PCI Firmware Specification 3.3, section 4.1.2",
        "The first bus of a region is above its last", "bus % is above the last one, %",
        "Correct Start Bus Number or End Bus Number. The region has both, and all between them.";
    MCFG_UNALIGNED = Error "mcfg-unaligned", "PCI Firmware Specification 3.3, section 4.1.2",
        "A region's base isn't at a multiple of 1 MiB", "# isn't a multiple of 0x100000",
        "Set Base Address to where bus 0 is or would be, even if the region begins with a later one. Each bus takes 1 \
         MiB.";
    MCFG_PAST_END = Error "mcfg-past-end", "PCI Firmware Specification 3.3, section 4.1.2",
        "A region ends above 2^64", "bus % is above 2^64, from # on",
        "Correct Base Address or End Bus Number. Bus N is N MiB above Base Address.";
    MCFG_SHARED_BUS = Error "mcfg-shared-bus", "PCI Firmware Specification 3.3, section 4.1.2",
        "Two regions of a segment have a bus", "bus % is in the region at # too",
        "List each bus of a segment in one region. An OS may take the one or the other, and reads another device's \
         registers.";
    MCFG_OVERLAP = Error "mcfg-overlap", "PCI Firmware Specification 3.3, section 4.1.2",
        "The memory of two regions overlaps", "# is memory of the region at # too",
        "Place the regions in memory of their own, 1 MiB for each bus. Otherwise two devices have the same registers.";
    HPET_SPACE = Error "hpet-space", "IA-PC HPET Specification 1.0a, section 3.2.4",
        "The registers aren't in memory", "has address space %, and memory's is 0",
        "Set Address Space ID to 0: the registers of an HPET are in memory.";
    HPET_ZERO = Error "hpet-zero", "IA-PC HPET Specification 1.0a, section 3.2.4",
        "The registers are at address 0", "is 0",
        "Write the address of the registers, on most PCs 0xFED00000, or remove the table if the HPET is off.";
    HPET_UNALIGNED = Error "hpet-unaligned", "IA-PC HPET Specification 1.0a, section 3.2.4",
        "The registers aren't at a multiple of 1 KiB", "# isn't a multiple of 0x400",
        "Write the address at which the block of registers begins, which is a multiple of 1 KiB.";
    BGRT_VERSION = Warning "bgrt-version", "ACPI 6.5, section 5.2.23",
        "The version isn't 1", "is %, and not 1",
        "Write 1, the only version that there is. Linux ignores the table otherwise.";
    BGRT_TYPE = Warning "bgrt-type", "ACPI 6.5, section 5.2.23",
        "The image is of a reserved type", "is %, and a bitmap's is 0",
        "Write 0, and have the image as a bitmap (BMP). No other type is defined.";
    BGRT_ZERO = Warning "bgrt-zero", "ACPI 6.5, section 5.2.23",
        "The image is at address 0", "is %",
        "Write the address of the bitmap, in memory of type EfiBootServicesData, or remove the table if no logo was \
         shown.";
    DBG2_CONSOLE = Note "dbg2-console", "Microsoft Debug Port Table 2",
        "No serial port has the registers of the SPCR", "no serial port of the DBG2 has # of address space %",
        "If the console is a debug port too, list it in the DBG2 by the same address. If they are two ports, nothing \
         is wrong.";
}

pub(crate) fn check_console(machine: &Machine<'_>, findings: &mut Findings) {
    if let Some((index, console)) = machine.first(Signature::SPCR)
        && let Some((space, address)) = register_at(console, 40)
        && let Some((_, debug)) = machine.first(Signature::DBG2)
        && has_other_ports(debug, (space, address))
    {
        findings.table = index;
        findings.add(&DBG2_CONSOLE, 40, &[address, space]);
    }
}

pub(crate) fn check_regions(mcfg: &[u8], findings: &mut Findings) {
    let mut buses = Vec::new();
    let mut memory = Vec::new();
    for (region, offset) in McfgEntryIter::over(mcfg).zip((44..).step_by(16)) {
        let (first, last) = (region.bus_number_start as u64, region.bus_number_end as u64);
        let (base, segment) = (region.base_address, region.pci_segment_group as u64);
        if last < first {
            findings.add(&MCFG_BUSES, offset + 10, &[first, last]);
        } else {
            check_base(offset, base, last, findings);
            let (more, owner) = (last - first, segment << 16 | first << 8 | last); // the segment and its buses
            let start = base.saturating_add(first << 20);
            buses.push(Span::of(segment << 8 | first, more, offset, owner));
            memory.push(Span::of(start, more << 20 | 0xfffff, offset, owner));
        }
    }
    for (before, region) in overlaps(&mut buses) {
        let numbers = &[region.first & 0xff, before.offset as u64];
        findings.add(&MCFG_SHARED_BUS, region.offset + 10, numbers);
    }
    for (before, region) in overlaps(&mut memory) {
        if !shares_bus(before.owner, region.owner) {
            let numbers = &[region.first, before.offset as u64];
            findings.add(&MCFG_OVERLAP, region.offset, numbers);
        }
    }
}

/// Judges where a region is, by its base and its last bus.
fn check_base(offset: usize, base: u64, last: u64, findings: &mut Findings) {
    if base & 0xfffff != 0 {
        findings.add(&MCFG_UNALIGNED, offset, &[base]);
    }
    if base.checked_add(last << 20 | 0xfffff).is_none() {
        findings.add(&MCFG_PAST_END, offset, &[last, base]);
    }
}

/// Whether two regions are of one segment, and both have a bus: each is its segment, its first bus and its last one.
fn shares_bus(one: u64, other: u64) -> bool {
    one >> 16 == other >> 16 && one >> 8 & 0xff <= other & 0xff && other >> 8 & 0xff <= one & 0xff
}

/// The address space and the address of the generic address at an offset, unless all its bytes are zeros or it isn't
/// there.
pub(crate) fn register_at(bytes: &[u8], offset: usize) -> Option<(u64, u64)> {
    let register = bytes.get(offset..)?.get(..12)?;
    if field(register, 0, 8) == 0 && field(register, 8, 4) == 0 {
        return None;
    }
    Some((field(register, 0, 1), field(register, 4, 8)))
}

/// Whether a DBG2 has registers of serial ports, and all are other ones.
fn has_other_ports(debug: &[u8], register: (u64, u64)) -> bool {
    let mut has_some = false;
    let start = field(debug, 36, 4) as usize; // OffsetDbgDeviceInfo
    for (_, device) in Pieces::of(debug, start, (1, 2)) {
        // Port Type.
        if field(device, 12, 2) != 0x8000 {
            continue;
        }
        let first = field(device, 18, 2) as usize; // BaseAddressRegisterOffset
        let count = field(device, 3, 1) as usize; // NumberofGenericAddressRegisters
        for number in 0..count {
            if let Some(found) = register_at(device, first + 12 * number) {
                if found == register {
                    return false;
                }
                has_some = true;
            }
        }
    }
    has_some
}
