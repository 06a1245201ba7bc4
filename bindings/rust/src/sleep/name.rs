// Made by scripts/erase of crates/acpi_sleep/src/name.rt, where it is proved.
//! Names (section 20.2.2).

use crate::base::bytes::skip;
use crate::sleep::block::byte_at;
use crate::sleep::error::AmlError;

/// Whether a name's segment may begin with a character: a capital letter, or an underscore.
fn is_lead(character: u8) -> bool {
    (b'A' <= character && character <= b'Z') || character == b'_'
}

/// Whether a character may be in a name's segment: one that it may begin with, or a digit.
fn is_letter(character: u8) -> bool {
    is_lead(character) || (b'0' <= character && character <= b'9')
}

/// Whether a name may begin with a byte: `\\`, `^`, a prefix of several segments, or a segment's first.
pub(crate) fn begins_name(lead: u8) -> bool {
    is_lead(lead) || matches!(lead, b'\\' | b'^' | 0x2E | 0x2F)
}

/// Where the segment ends that begins at an offset.
fn segment_end(aml: &[u8], at: usize) -> Result<usize, AmlError> {
    if at + 4 > aml.len() {
        return Err(AmlError::PastEnd(at));
    }
    if is_lead(aml[at]) && is_letter(aml[at + 1]) && is_letter(aml[at + 2]) && is_letter(aml[at + 3]) {
        Ok(at + 4)
    } else {
        Err(AmlError::InvalidName(at))
    }
}

/// Where a number of segments end of which the first begins at an offset.
fn segments_end(aml: &[u8], count: u8, at: usize) -> Result<usize, AmlError> {
    let mut end = at;
    for i in 0..count {
        end = segment_end(aml, end)?;
    }
    Ok(end)
}

/// A name: how many scopes up from the current one, and segments from there.
#[derive(Clone, Copy, Debug)]
pub struct Name {
    /// How many `^` it begins with.
    pub ups: usize,
    /// The offset of its first segment.
    pub first: usize,
    /// How many segments it has.
    pub segments: u8,
    /// The offset after it.
    pub end: usize,
}

impl Name {
    /// Whether it names the root, where it is at the root.
    pub(crate) fn is_root(&self) -> bool {
        self.ups == 0 && self.segments == 0
    }
}

/// The name of a number of segments.
fn name_of(aml: &[u8], ups: usize, segments: u8, first: usize) -> Result<Name, AmlError> {
    let end = segments_end(aml, segments, first)?;
    Ok(Name { ups, first, segments, end })
}

/// How many `^` bytes begin with.
fn first_carets(bytes: &[u8]) -> usize {
    bytes.iter().take_while(|c| **c == b'^').count()
}

/// How many `^` are at an offset.
fn carets(aml: &[u8], at: usize) -> usize {
    first_carets(skip(aml, at))
}

/// The name that begins at an offset, which is at most the length of the AML.
///
/// Fails with `PastEnd` if the AML ends before the name does, and with `InvalidName` if a character isn't one of a
/// name's, or there are no segments after the prefix of several.
pub fn name_at(aml: &[u8], at: usize) -> Result<Name, AmlError> {
    let ups = carets(aml, at);
    let root = if byte_at(aml, at)? == b'\\' { 1 } else { 0 };
    let path = at + ups + root;
    match byte_at(aml, path)? {
        0x00 => name_of(aml, ups, 0, path + 1),
        0x2E => name_of(aml, ups, 2, path + 1),
        0x2F => {
            let segments = byte_at(aml, path + 1)?;
            if segments == 0 {
                return Err(AmlError::InvalidName(path));
            }
            name_of(aml, ups, segments, path + 2)
        }
        _ => name_of(aml, ups, 1, path),
    }
}
