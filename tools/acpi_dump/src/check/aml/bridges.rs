//! The memory of PCI's configuration space, and the windows of host bridges (PCI Firmware Specification 3.3, section
//! 4.1.2; ACPI 6.5, section 6.2.2).

use super::devices::{Id, has_id, integer_of};
use super::names::{Named, Names};
use super::resources::template_of;
use super::{AML_MCFG_RESERVED, AML_WINDOWS, path_text};
use crate::check::findings::Findings;
use crate::check::machine::Machine;
use crate::check::spans::{Span, overlaps};
use crate::prelude::*;
use acpi_programs::walk::aml::resources::{Descriptors, space_of};
use zacpi::mcfg::McfgEntryIter;

/// Host bridges of PCI and PCI Express (section 5.6.7).
const BRIDGES: [Id; 2] = [(0x030A_D041, b"PNP0A03"), (0x080A_D041, b"PNP0A08")];

/// Devices that reserve what belongs to none.
const BOARD: [Id; 2] = [(0x010C_D041, b"PNP0C01"), (0x020C_D041, b"PNP0C02")];

/// The spaces of descriptors.
const MEMORY: u64 = 0;

const BUSES: u64 = 2;

/// Adds to a list of spans, as those of an owner, what the descriptors of a space have that a name is set to.
fn add_spans(spans: &mut Vec<Span>, space: u64, names: &Names<'_>, it: &Named<'_>, owner: usize) {
    let Some((at, bytes)) = template_of(names, it) else {
        return;
    };
    let segment = integer_of(names, it.scope, b"_SEG").unwrap_or(0);
    for (offset, descriptor) in Descriptors::of(bytes) {
        let Some((of, mut first, count)) = range_of(descriptor) else {
            continue;
        };
        if of == BUSES {
            first = first.saturating_add(segment.saturating_mul(256));
        }
        if of == space && count > 0 {
            spans.push(Span::of(first, count - 1, at + offset, owner as u64));
        }
    }
}

/// The space of a descriptor, the first of its addresses as a processor has it, and how many there are.
fn range_of(descriptor: &[u8]) -> Option<(u64, u64, u64)> {
    match descriptor.first().copied() {
        Some(0x85) => Some((MEMORY, field(descriptor, 4, 4), field(descriptor, 16, 4))),
        Some(0x86) => Some((MEMORY, field(descriptor, 4, 4), field(descriptor, 8, 4))),
        Some(0x87 | 0x88 | 0x8A | 0x8B) => {
            let [first, _, added, count] = space_of(descriptor);
            Some((field(descriptor, 3, 1), first.wrapping_add(added), count))
        }
        _ => None,
    }
}

/// Finds regions of an MCFG that no _CRS of a device has, but for those of host bridges.
pub(super) fn check_regions(machine: &Machine<'_>, names: &Names<'_>, findings: &mut Findings) {
    let Some((index, mcfg)) = machine.first(Signature::MCFG) else {
        return;
    };
    if !names.are_all || !machine.is_whole() {
        return;
    }
    let mut spans = Vec::new();
    for it in &names.all {
        if !matches!(names.name(it), b"_CRS") {
            continue;
        }
        if it.kind != "Name" && has_id(names, it.scope, &BOARD) {
            return;
        }
        if !has_id(names, it.scope, &BRIDGES) {
            add_spans(&mut spans, MEMORY, names, it, 0);
        }
    }
    spans.sort_by_key(|it| (it.first, it.offset));
    let wholes = wholes_of(&spans);
    findings.table = index;
    for (region, offset) in McfgEntryIter::over(mcfg).zip((44..).step_by(16)) {
        let (first, last) = (region.bus_number_start as u64, region.bus_number_end as u64);
        let start = region.base_address.saturating_add(first << 20);
        let end = region.base_address.saturating_add(last << 20 | 0xfffff);
        if start <= end && !is_within(&wholes, start, end) {
            findings.add(&AML_MCFG_RESERVED, offset, &[start, end]);
        }
    }
}

/// What spans, the lowest first, are together: the first number and the last of each row of numbers without a gap.
fn wholes_of(spans: &[Span]) -> Vec<(u64, u64)> {
    let mut wholes: Vec<(u64, u64)> = Vec::new();
    for span in spans {
        match wholes.last_mut() {
            Some((_, last)) if span.first <= last.saturating_add(1) => *last = span.last.max(*last),
            _ => wholes.push((span.first, span.last)),
        }
    }
    wholes
}

/// Whether one of such rows has all numbers from one to another.
fn is_within(wholes: &[(u64, u64)], first: u64, last: u64) -> bool {
    let count = wholes.partition_point(|it| it.0 <= first);
    matches!(wholes.get(..count), Some([.., (_, end)]) if last <= *end)
}

/// Finds addresses and buses that two host bridges have.
pub(super) fn check_windows(names: &Names<'_>, findings: &mut Findings) {
    for (space, what) in [(0u64, "memory"), (1, "ports"), (BUSES, "buses")] {
        let mut spans = Vec::new();
        for (number, it) in names.all.iter().enumerate() {
            if matches!(names.name(it), b"_CRS") && has_id(names, it.scope, &BRIDGES) {
                add_spans(&mut spans, space, names, it, number);
            }
        }
        for (before, span) in overlaps(&mut spans) {
            if let Some(other) = names.all.get(size(before.owner))
                && let Some(it) = names.all.get(size(span.owner))
                && before.owner != span.owner
            {
                findings.table = it.table;
                let other = path_text(names.scope_path(other));
                let message = format!("{what} from {:#x} on are also those of {other}", span.first);
                findings.tell(&AML_WINDOWS, span.offset, message);
            }
        }
    }
}
