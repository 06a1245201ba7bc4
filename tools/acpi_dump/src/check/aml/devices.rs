//! Devices, processors and events (ACPI 6.5, sections 5.2.12, 5.6.4.1 and 6.1.12).

use super::names::{Named, Names, ROOT};
use super::values::text_in;
use super::{AML_GPE_NOWHERE, AML_GPE_TWICE, AML_NO_PROCESSOR, AML_UID_TWICE, elements_in, path_text};
use crate::check::findings::Findings;
use crate::check::machine::Machine;
use crate::check::numbers::{Kept, Numbers};
use crate::check::pieces::Pieces;
use crate::prelude::*;
use acpi_programs::walk::aml::constant::integer_in;

/// An id: as an integer, and as a text.
pub(super) type Id = (u64, &'static [u8]);

/// Whether a constant is one of ids, or a package that has one.
fn is_one(data: &[u8], ids: &[Id]) -> bool {
    let (number, text) = (integer_in(data), text_in(data).unwrap_or(&[]));
    ids.iter().any(|id| number == Some(id.0) || text == id.1)
}

/// Whether the device whose path has a number has one of ids.
pub(super) fn has_id(names: &Names<'_>, device: u64, ids: &[Id]) -> bool {
    let has = |id: Named<'_>| match elements_in(id.data) {
        Some(mut elements) => elements.any(|(element, _)| is_one(element, ids)),
        None => is_one(id.data, ids),
    };
    names.find_in(device, b"_HID").is_some_and(|id| is_one(id.data, ids))
        || names.find_in(device, b"_CID").is_some_and(has)
}

/// The integer that a name in the object whose path has a number is set to.
pub(super) fn integer_of(names: &Names<'_>, scope: u64, name: &[u8]) -> Option<u64> {
    integer_in(names.find_in(scope, name)?.data)
}

/// Finds devices that have the _HID and the _UID of another one before them. One that is never there doesn't count.
pub(super) fn check_ids(names: &Names<'_>, findings: &mut Findings) {
    // An integer by its value, and else its bytes.
    let value = |data| integer_in(data).map_or((None, data), |number| (Some(number), &[][..]));
    let mut found = Vec::new();
    for (number, it) in names.all.iter().enumerate() {
        if it.kind == "Name"
            && matches!(names.name(it), b"_UID")
            && let Some(id) = names.find_in(it.scope, b"_HID")
            && id.kind == "Name"
            && integer_of(names, it.scope, b"_STA").is_none_or(|status| status & 1 != 0)
        {
            found.push((value(id.data), value(it.data), number));
        }
    }
    found.sort_unstable();
    for pair in found.windows(2) {
        let (other, it) = (&names.all[pair[0].2], &names.all[pair[1].2]);
        if (pair[0].0, pair[0].1) == (pair[1].0, pair[1].1) && it.key != other.key {
            findings.table = it.table;
            let message = format!("{} has the same _HID and _UID", path_text(names.scope_path(other)));
            findings.tell(&AML_UID_TWICE, it.offset, message);
        }
    }
}

/// Whether the device whose path has a number is a processor (section 5.6.7).
fn is_processor(names: &Names<'_>, device: u64) -> bool {
    names.find_in(device, b"_HID").is_some_and(|id| text_in(id.data) == Some(b"ACPI0007"))
}

/// The list of the UIDs of the AML's processors, and the one of the MADT's that are enabled.
const DEFINED: u64 = 0;

const ENABLED: u64 = 1;

/// The enabled processors of a MADT.
const PROCESSORS: [Kept; 5] = [
    (0, ENABLED, (2, 1), 4),
    (9, ENABLED, (12, 4), 8),
    (0xb, ENABLED, (8, 4), 12),
    (0x11, ENABLED, (3, 4), 11),
    (0x18, ENABLED, (16, 4), 4),
];

/// Adds the UIDs of the processors of the AML. Returns whether they are all.
fn add_processors(names: &Names<'_>, numbers: &mut Numbers) -> bool {
    for it in &names.all {
        if it.kind == "Processor" {
            numbers.push(DEFINED, field(it.data, 0, 1), it.offset);
        } else if it.kind == "Device" && is_processor(names, it.key) {
            match integer_of(names, it.key, b"_UID") {
                Some(unique) => numbers.push(DEFINED, unique, it.offset),
                None => return false,
            }
        }
    }
    true
}

/// Finds the first enabled processor of the MADT that the AML hasn't, if it has processors.
pub(super) fn check_processors(machine: &Machine<'_>, names: &Names<'_>, findings: &mut Findings) {
    let Some((index, madt)) = machine.first(Signature::MADT) else {
        return;
    };
    let mut numbers = Numbers::new();
    if !names.are_all || !machine.is_whole() || !add_processors(names, &mut numbers) {
        return;
    }
    for (offset, entry) in Pieces::of(madt, 44, (1, 1)) {
        numbers.add(&PROCESSORS, offset, entry);
    }
    numbers.sort();
    if numbers.from(DEFINED, 0).is_none() {
        return;
    }
    let (mut first, mut count) = (None, 0u64);
    for (list, unique, offset) in &numbers.all {
        if *list == ENABLED && !numbers.has(DEFINED, *unique) {
            first = first.or(Some((*unique, *offset)));
            count += 1;
        }
    }
    if let Some((unique, offset)) = first {
        findings.table = index;
        findings.add(&AML_NO_PROCESSOR, offset, &[unique, count]);
    }
}

/// The event that a method in \_GPE is for, by the last three letters of its name.
fn event_of(name: &[u8]) -> Option<u64> {
    match name {
        [b'_', b'L' | b'E', digits @ ..] => u64::from_str_radix(str::from_utf8(digits).ok()?, 16).ok(),
        _ => None,
    }
}

/// Whether a FADT of fixed hardware has a general purpose event: half of a block's bytes have a bit for each.
fn has_event(fadt: &[u8], event: u64) -> bool {
    let base = field(fadt, 94, 1); // GPE1_BASE
    let first = (field(fadt, 92, 1) / 2).saturating_mul(8); // GPE0_BLK_LEN
    let second = (field(fadt, 93, 1) / 2).saturating_mul(8); // GPE1_BLK_LEN
    event < first || base <= event && event < base.saturating_add(second)
}

pub(super) fn check_events(machine: &Machine<'_>, names: &Names<'_>, findings: &mut Findings) {
    let Some(scope) = names.number_of(ROOT, b"_GPE") else {
        return;
    };
    let fadt = machine.first(Signature::FADT).map(|(_, fadt)| fadt);
    for it in &names.all {
        let name = names.name(it);
        let Some(event) = event_of(name) else {
            continue;
        };
        if it.scope != scope || it.kind != "Method" {
            continue;
        }
        findings.table = it.table;
        if let Some(fadt) = fadt
            && field(fadt, 112, 4) & 1 << 20 == 0 // HW_REDUCED_ACPI
            && !has_event(fadt, event)
        {
            findings.add(&AML_GPE_NOWHERE, it.offset, &[event]);
        }
        if let [_, b'L', high, low] = name
            && names.find_in(scope, &[b'_', b'E', *high, *low]).is_some()
        {
            findings.add(&AML_GPE_TWICE, it.offset, &[event]);
        }
    }
}
