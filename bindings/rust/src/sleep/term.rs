// Made by scripts/erase of crates/acpi_sleep/src/term.rt, where it is proved.
//! Terms: what follows each opcode (section 20.2.5).

use crate::sleep::argument::{argument_end, operand_end};
use crate::sleep::block::{block_at, byte_at, bytes_end};
use crate::sleep::error::AmlError;
use crate::sleep::name::{begins_name, name_at};

/// A part of a term.
#[derive(Clone, Copy, Debug)]
#[non_exhaustive]
pub enum Part {
    /// A name.
    Name,
    /// One byte.
    Byte,
    /// An argument.
    Argument,
    /// A PkgLength, and all that it is before.
    Block,
    /// The name of a buffer field, after arguments.
    Field,
}

/// The parts that follow an opcode, or `None` if that is none of those that are known.
pub fn parts_of(code: u16) -> Option<&'static [Part]> {
    match code {
        0x15 => Some(&[Part::Name, Part::Byte, Part::Byte]),
        0x8A | 0x8B | 0x8C | 0x8D | 0x8F => Some(&[Part::Argument, Part::Argument, Part::Field]),
        0xA0 | 0xA1 | 0xA2 => Some(&[Part::Block]),
        0xA3 => Some(&[]),
        0x5B01 => Some(&[Part::Name, Part::Byte]),
        0x5B02 => Some(&[Part::Name]),
        0x5B13 => Some(&[Part::Argument, Part::Argument, Part::Argument, Part::Field]),
        0x5B80 => Some(&[Part::Name, Part::Byte, Part::Argument, Part::Argument]),
        0x5B81 | 0x5B82 | 0x5B83 | 0x5B84 | 0x5B85 | 0x5B86 | 0x5B87 => Some(&[Part::Block]),
        0x5B88 => Some(&[Part::Name, Part::Argument, Part::Argument, Part::Argument]),
        _ => None,
    }
}

/// Where a buffer field's name ends that begins at an offset.
fn field_end(aml: &[u8], at: usize) -> Result<usize, AmlError> {
    let lead = byte_at(aml, at)?;
    let end = operand_end(aml, at)?;
    if begins_name(lead) { Ok(end) } else { Err(AmlError::NotRead(at)) }
}

/// Where the part ends that begins at an offset.
fn part_end(part: Part, aml: &[u8], at: usize) -> Result<usize, AmlError> {
    match part {
        Part::Name => {
            let name = name_at(aml, at)?;
            Ok(name.end)
        }
        Part::Byte => bytes_end(aml, at, 1),
        Part::Argument => argument_end(aml, at),
        Part::Block => {
            let block = block_at(aml, at)?;
            Ok(block.end)
        }
        Part::Field => field_end(aml, at),
    }
}

/// Where the last of parts ends of which the first begins at an offset, which is at most the length of the AML.
///
/// Fails with the error of the first part that doesn't end within the AML or isn't what it should be.
pub fn parts_end(parts: &[Part], aml: &[u8], at: usize) -> Result<usize, AmlError> {
    let mut end = at;
    for part in parts {
        end = part_end(*part, aml, end)?;
    }
    Ok(end)
}
