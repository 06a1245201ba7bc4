//! The DMAR (Intel Virtualization Technology for Directed I/O 4.0, chapter 8), the IVRS (AMD I/O Virtualization
//! Technology (IOMMU) Specification 3.08, section 5.2) and the IORT (Arm DEN0049).

use crate::check::findings::Findings;
use crate::check::pieces::Pieces;
use crate::check::rules::{Rule, rules};
use crate::check::spans::{Span, overlaps};
use crate::prelude::*;
use zacpi::base::bytes::skip;
use zacpi::iommu::dmar::{DmarFields, DmarStructure, DmarStructureIter, Rmrr};
use zacpi::iommu::ivrs::IvrsBlockIter;

rules! {
    RMRR_PAGES = Error "rmrr-pages", "Intel VT-d 4.0, section 8.4",
        "Reserved memory doesn't begin and end at a page", "# to # aren't pages of 0x1000",
        "Write a base that is a multiple of 4 KiB, and as the limit the last byte of a page, whose low 12 bits are \
         all 1.";
    RMRR_LIMIT = Error "rmrr-limit", "Intel VT-d 4.0, section 8.4",
        "The last byte of reserved memory is before its first", "# is before the base, #",
        "Write as the limit the address of the last byte, which is the base plus the size minus 1. No device may use \
         the memory otherwise.";
    DRHD_ALL = Error "drhd-all", "Intel VT-d 4.0, section 8.3",
        "A second unit of a segment has INCLUDE_PCI_ALL", "a unit of segment % before it has INCLUDE_PCI_ALL",
        "Keep INCLUDE_PCI_ALL in one unit of each segment, and list the devices of the others in device scopes.";
    DRHD_LAST = Warning "drhd-last", "Intel VT-d 4.0, section 8.3",
        "A unit comes after that of its segment with INCLUDE_PCI_ALL",
        "a unit of segment % before it has INCLUDE_PCI_ALL",
        "Move the unit with INCLUDE_PCI_ALL after all other units of its segment. An OS that reads in order gives it \
         their devices.";
    SCOPE_PATH = Error "scope-path", "Intel VT-d 4.0, section 8.3.1",
        "A device scope has no hop", "the scope of type % has no hop",
        "Write at least one device and function to Path, and a Length of 6 plus 2 for each of them.";
    IVHD_RANGE = Error "ivhd-range", "AMD IOMMU 3.08, section 5.2",
        "The start of a range of devices isn't followed by its end", "no end follows the start: device #",
        "Write the end of the range (type 4), with its last DeviceID, right after its start (type 3, 0x43 or 0x47).";
    IVHD_END = Error "ivhd-end", "AMD IOMMU 3.08, section 5.2",
        "The end of a range of devices follows no start", "it ends no range: device #",
        "Write the start of the range (type 3, 0x43 or 0x47) before its end, or remove the end. One device alone is a \
         select entry (type 2).";
    IORT_MAPPING_END = Error "iort-mapping-end", "Arm DEN0049, IORT",
        "IDs are mapped from or to some above 32 bits", "# IDs from # on go past 2^32",
        "Correct Input base, Output base or Number of IDs, which is how many IDs there are minus 1.";
    IORT_MAPPING_OVERLAP = Warning "iort-mapping-overlap", "Arm DEN0049, IORT",
        "Two ID mappings of a node have one ID", "ID # is also mapped at #",
        "Map each ID once. Number of IDs is how many there are minus 1: ranges that have one ID in common mostly lack \
         the minus.";
}

pub(crate) fn check_dmar(dmar: &[u8], findings: &mut Findings) {
    // A bit for each segment whose unit with INCLUDE_PCI_ALL has come.
    let mut segments = [0u64; 1024];
    let mut structures = DmarStructureIter::over(dmar);
    while let Some(structure) = structures.next() {
        let end = dmar.len() - structures.rest().len();
        let offset = end.saturating_sub(structure.length());
        match structure.fields() {
            Some(DmarFields::Drhd(unit)) => {
                let (place, bit) = ((unit.segment / 64) as usize, 1u64 << (unit.segment % 64));
                let (is_all, has_come) = (unit.includes_pci_all(), segments[place] & bit != 0);
                if is_all {
                    segments[place] |= bit;
                }
                if has_come {
                    let id = if is_all { &DRHD_ALL } else { &DRHD_LAST };
                    findings.add(id, offset + 4, &[unit.segment as u64]);
                }
            }
            Some(DmarFields::Rmrr(range)) => check_reserved(offset, range, findings),
            _ => {}
        }
        check_scopes(end, structure, findings);
    }
}

/// Judges reserved memory, whose structure is at an offset.
fn check_reserved(offset: usize, range: Rmrr, findings: &mut Findings) {
    let (base, limit) = (range.base, range.limit);
    if limit < base {
        findings.add(&RMRR_LIMIT, offset + 16, &[limit, base]);
    } else if base & 0xfff != 0 || limit & 0xfff != 0xfff {
        findings.add(&RMRR_PAGES, offset + 8, &[base, limit]);
    }
}

/// Judges the device scopes of a structure that ends at an offset.
fn check_scopes(end: usize, structure: DmarStructure<'_>, findings: &mut Findings) {
    let mut scopes = structure.scopes();
    let mut offset = end.saturating_sub(scopes.rest().len());
    while let Some(scope) = scopes.next() {
        if scope.hops().next().is_none() {
            findings.add(&SCOPE_PATH, offset + 1, &[scope.kind() as u64]);
        }
        offset = end.saturating_sub(scopes.rest().len());
    }
}

/// The types of entries that begin or end a range, with their lengths and rules: Start of Range, End of Range, Alias
/// Start of Range, Extended Start of Range.
const ENDS: [(u64, usize, &Rule); 4] =
    [(3, 4, &IVHD_RANGE), (4, 4, &IVHD_END), (0x43, 8, &IVHD_RANGE), (0x47, 8, &IVHD_RANGE)];

/// Judges the blocks of an IVRS: its entries end where a range has no end, or an end no start.
pub(crate) fn check_ivrs(ivrs: &[u8], findings: &mut Findings) {
    let mut blocks = IvrsBlockIter::over(ivrs);
    while let Some(block) = blocks.next() {
        let mut entries = block.entries();
        entries.by_ref().for_each(drop);
        let rest = entries.rest();
        let left = blocks.rest().len().saturating_add(rest.len());
        let offset = ivrs.len().saturating_sub(left);
        for (kind, length, rule) in ENDS {
            if field(rest, 0, 1) == kind && rest.len() >= length {
                findings.add(rule, offset, &[field(rest, 1, 2)]); // DeviceID
            }
        }
    }
}

pub(crate) fn check_iort(iort: &[u8], findings: &mut Findings) {
    let start = field(iort, 40, 4) as usize; // Offset to Array of IORT Nodes
    for (offset, node) in Pieces::of(iort, start, (1, 2)) {
        let mut mapped = Vec::new();
        let (count, first) = (field(node, 8, 4) as usize, field(node, 12, 4) as usize); // ID mappings
        let mappings = skip(node, first).chunks_exact(20).take(count);
        for (mapping, at) in mappings.zip((offset + first..).step_by(20)) {
            mapped.extend(ids_of(at, node, mapping, findings));
        }
        for (before, span) in overlaps(&mut mapped) {
            let numbers = &[span.first, before.offset as u64];
            findings.add(&IORT_MAPPING_OVERLAP, span.offset, numbers);
        }
    }
}

/// The IDs that the mapping at an offset has. A single mapping has none, and neither has one of a Reserved Memory
/// Range, whose input base doesn't count. It finds IDs above 32 bits.
fn ids_of(offset: usize, node: &[u8], mapping: &[u8], findings: &mut Findings) -> Option<Span> {
    let (first, more) = (field(mapping, 0, 4), field(mapping, 4, 4)); // Input base, Number of IDs less 1
    if field(mapping, 16, 4) & 1 != 0 {
        return None;
    }
    let output = field(mapping, 8, 4); // Output base
    check_ids(offset + 8, output, more, findings);
    if field(node, 0, 1) == 6 {
        return None;
    }
    check_ids(offset, first, more, findings);
    Some(Span::of(first, more, offset, 0))
}

/// Judges whether IDs have 32 bits, whose first one is at an offset, and of which this many follow.
fn check_ids(offset: usize, first: u64, more: u64, findings: &mut Findings) {
    if first.saturating_add(more) >> 32 != 0 {
        let count = more.saturating_add(1);
        findings.add(&IORT_MAPPING_END, offset, &[count, first]);
    }
}
