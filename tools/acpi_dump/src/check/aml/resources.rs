//! Resource templates (ACPI 6.5, section 6.4).

use super::names::{Named, Names};
use super::{AML_RESOURCE_END, AML_RESOURCE_LENGTH, AML_RESOURCE_SUM, AML_RESOURCE_TYPE};
use crate::check::findings::Findings;
use acpi_programs::walk::aml::constant::buffer_in;
use acpi_programs::walk::aml::resources::{Descriptors, END, tag_of};
use std::ops::RangeInclusive;
use zacpi::base::bytes::byte_sum;

/// The lengths that a descriptor has after its first byte, or after the two of the length if it is large, by its first
/// byte, without the length in it if that is small.
fn lengths_of(tag: u8) -> Option<RangeInclusive<u64>> {
    const MOST: u64 = 65535;
    Some(match tag {
        0x20 => 2..=3,
        0x28 => 2..=2,
        0x30 => 0..=1,
        0x38 => 0..=0,
        0x40 => 7..=7,
        0x48 => 3..=3,
        0x50 => 5..=5,
        0x70 => 1..=7,
        0x78 => 1..=1,
        0x81 => 9..=9,
        0x82 => 12..=12,
        0x84 => 0..=MOST,
        0x85 => 17..=17,
        0x86 => 9..=9,
        0x87 => 23..=MOST,
        0x88 => 13..=MOST,
        0x89 => 6..=MOST,
        0x8A => 43..=MOST,
        0x8B => 53..=MOST,
        0x8C => 20..=MOST,
        0x8D => 13..=MOST,
        0x8E => 9..=MOST,
        0x8F => 13..=MOST,
        0x90 => 9..=MOST,
        0x91 => 13..=MOST,
        0x92 => 13..=MOST,
        0x93 => 13..=MOST,
        _ => return None,
    })
}

/// The bytes of the resource template that a name is set to, and where they begin in its table.
pub(super) fn template_of<'a>(names: &Names<'a>, it: &Named<'a>) -> Option<(usize, &'a [u8])> {
    if it.kind != "Name" || !matches!(names.name(it), b"_CRS" | b"_PRS" | b"_DMA" | b"_AEI") {
        return None;
    }
    let (_, bytes) = buffer_in(it.data)?;
    let before = it.data.len().saturating_sub(bytes.len());
    Some((it.at.saturating_add(before), bytes))
}

/// Judges the resource template that a name is set to, if it is set to one.
pub(super) fn check_template(names: &Names<'_>, it: &Named<'_>, findings: &mut Findings) {
    let Some((at, bytes)) = template_of(names, it) else {
        return;
    };
    let mut end = 0usize;
    for (offset, descriptor) in Descriptors::of(bytes) {
        end = offset.saturating_add(descriptor.len());
        let place = at + offset;
        check_descriptor(place, descriptor, findings);
        if tag_of(descriptor.first().copied().unwrap_or(0)) == END {
            let sum = byte_sum(bytes.get(..end).unwrap_or(&[]));
            let checksum = descriptor.get(1).copied().unwrap_or(0);
            if checksum != 0 && sum != 0 {
                let numbers = [checksum as u64, checksum.wrapping_sub(sum) as u64];
                findings.add(&AML_RESOURCE_SUM, place + 1, &numbers);
            }
            return;
        }
    }
    let end = at + end;
    findings.add(&AML_RESOURCE_END, end, &[end as u64]);
}

/// Judges the type and the length of the descriptor at an offset of a table.
fn check_descriptor(offset: usize, descriptor: &[u8], findings: &mut Findings) {
    let tag = tag_of(descriptor.first().copied().unwrap_or(0));
    let head = if tag < 0x80 { 1 } else { 3 };
    let length = descriptor.len().saturating_sub(head) as u64;
    match lengths_of(tag) {
        Some(lengths) if lengths.contains(&length) => {}
        Some(_) => findings.add(&AML_RESOURCE_LENGTH, offset, &[tag.into(), length]),
        None => findings.add(&AML_RESOURCE_TYPE, offset, &[tag.into()]),
    }
}
