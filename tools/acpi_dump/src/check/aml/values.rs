//! What names of a meaning are set to: ids, states and references (ACPI 6.5, sections 6.1, 6.2.13, 6.3.7 and 7.4.2).

use super::names::{Named, Names, ROOT};
use super::{
    AML_EISA_ID, AML_LINK_NOWHERE, AML_NO_S5, AML_SLEEP_TYPE, AML_STATUS, AML_TEXT_ID, elements_in, path_text,
};
use crate::check::findings::Findings;
use crate::check::machine::Machine;
use crate::prelude::*;
use acpi_programs::walk::aml::constant::{integer_in, is_eisa_id, name_in};

pub(super) fn text_in(data: &[u8]) -> Option<&[u8]> {
    match data {
        [0x0D, text @ ..] => text.strip_suffix(&[0]),
        _ => None,
    }
}

pub(super) fn check_value(names: &Names<'_>, it: &Named<'_>, findings: &mut Findings) {
    match names.name(it) {
        b"_HID" => check_id(it.at, it.data, true, findings),
        b"_CID" => check_compatible(it, findings),
        b"_STA" => check_status(it, findings),
        b"_S0_" | b"_S1_" | b"_S2_" | b"_S3_" | b"_S4_" | b"_S5_" if it.scope == ROOT => check_types(it, findings),
        _ => {}
    }
}

fn check_compatible(it: &Named<'_>, findings: &mut Findings) {
    let Some(elements) = elements_in(it.data) else {
        return check_id(it.at, it.data, false, findings);
    };
    for (element, left) in elements {
        check_id(it.at + it.data.len() - left, element, false, findings);
    }
}

/// Judges an id at an offset of a table. A text in _CID may also be that of another bus, such as `PCI\CC_0604`, and is
/// judged if it has the length of an id.
fn check_id(at: usize, data: &[u8], is_hid: bool, findings: &mut Findings) {
    if let Some(number) = integer_in(data) {
        let [a, b, c, d, _, _, _, _] = number.to_le_bytes();
        if number >> 32 != 0 || !is_eisa_id(&[0x0C, a, b, c, d]) {
            findings.add(&AML_EISA_ID, at, &[number]);
        }
    } else if let Some(text) = text_in(data)
        && !is_text_id(text)
        && (is_hid || text.len() == 7 || text.len() == 8)
    {
        findings.add(&AML_TEXT_ID, at, &[]);
    }
}

fn is_text_id(text: &[u8]) -> bool {
    let (letters, digits) = text.split_at(text.len().saturating_sub(4));
    let is_letter = |it: &u8| it.is_ascii_uppercase() || letters.len() == 4 && it.is_ascii_digit();
    matches!(letters.len(), 3 | 4) && letters.iter().all(is_letter) && digits.iter().all(u8::is_ascii_hexdigit)
}

fn check_status(it: &Named<'_>, findings: &mut Findings) {
    if let Some(status) = integer_in(it.data)
        && status >> 5 != 0
    {
        findings.add(&AML_STATUS, it.at, &[status, status >> 5 << 5]);
    }
}

/// Judges the types of a sleep state: the first two elements, of which the second may be missing.
fn check_types(it: &Named<'_>, findings: &mut Findings) {
    for (element, left) in elements_in(it.data).into_iter().flatten().take(2) {
        let at = it.at + it.data.len() - left;
        match integer_in(element) {
            Some(number) if number > 7 => {
                findings.tell(&AML_SLEEP_TYPE, at, format!("the type {number:#x} has more than three bits"));
            }
            None if name_in(element).is_none() => findings.tell(&AML_SLEEP_TYPE, at, "a type is no integer".into()),
            _ => {}
        }
    }
}

pub(super) fn check_soft_off(machine: &Machine<'_>, names: &Names<'_>, findings: &mut Findings) {
    let Some((_, fadt)) = machine.first(Signature::FADT) else {
        return;
    };
    let is_reduced = field(fadt, 112, 4) & 1 << 20 != 0; // HW_REDUCED_ACPI
    if let Some((number, _)) = machine.first(Signature::DSDT)
        && !is_reduced
        && names.are_all
        && machine.is_whole()
        && names.find_in(ROOT, b"_S5_").is_none()
    {
        findings.table = number;
        findings.add(&AML_NO_S5, 0, &[]);
    }
}

/// Finds link devices that a _PRT names and that aren't there, of each _PRT the first.
pub(super) fn check_links(machine: &Machine<'_>, names: &Names<'_>, findings: &mut Findings) {
    if !names.are_all || !machine.is_whole() {
        return;
    }
    for it in &names.all {
        if it.kind == "Name" && matches!(names.name(it), b"_PRT") {
            check_routes(names, it, findings);
        }
    }
}

/// Finds the first link device that a constant _PRT names and that isn't there.
fn check_routes(names: &Names<'_>, it: &Named<'_>, findings: &mut Findings) {
    for (route, left) in elements_in(it.data).into_iter().flatten() {
        if let Some((is_rooted, ups, segments)) = source_of(route).and_then(name_in)
            && !is_there(names, it, (is_rooted, ups, segments))
        {
            findings.table = it.table;
            let message = format!("{} isn't defined", path_text(segments));
            return findings.tell(&AML_LINK_NOWHERE, it.at + it.data.len() - left, message);
        }
    }
}

fn source_of(route: &[u8]) -> Option<&[u8]> {
    elements_in(route)?.nth(2).map(|(source, _)| source)
}

/// Whether there is what an object refers to: whether that begins at the root, how many scopes up it begins, and its
/// segments. One segment alone is sought in all scopes outwards (section 5.3).
fn is_there(names: &Names<'_>, it: &Named<'_>, (is_rooted, ups, segments): (bool, usize, &[u8])) -> bool {
    if is_rooted {
        return names.find_in(ROOT, segments).is_some();
    }
    let scope = names.scope_path(it);
    let depth = (scope.len() / 4).saturating_sub(ups);
    let outermost = if ups == 0 && segments.len() == 4 { 0 } else { depth };
    (outermost..=depth).rev().any(|depth| {
        let outer = names.number_of(ROOT, &scope[..4 * depth]);
        outer.is_some_and(|scope| names.find_in(scope, segments).is_some())
    })
}
