// Made by scripts/erase of crates/acpi_sleep/src/argument.rt, where it is proved.
//! Arguments of terms, and what a name is set to: where they end (sections 20.2.3 and 20.2.5).

use crate::base::bytes::{field, skip};
use crate::sleep::block::{block_at, byte_at, bytes_end};
use crate::sleep::error::AmlError;
use crate::sleep::name::{begins_name, name_at};
use crate::sleep::opcode::{is_expression, opcode_at};

/// How many bytes follow the first of an integer constant.
fn integer_width(lead: u8) -> Option<usize> {
    match lead {
        0x00 | 0x01 | 0xFF => Some(0),
        0x0A => Some(1),
        0x0B => Some(2),
        0x0C => Some(4),
        0x0E => Some(8),
        _ => None,
    }
}

/// An integer constant.
#[derive(Clone, Copy, Debug)]
pub(crate) struct Integer {
    /// Its value.
    pub(crate) value: u64,
    /// The offset after it.
    pub(crate) end: usize,
}

/// The integer constant that begins at an offset. Fails with `NotRead` for another value, and if none is there.
pub(crate) fn integer_at(aml: &[u8], at: usize) -> Result<Integer, AmlError> {
    let Some(lead) = aml.get(at) else {
        return Err(AmlError::NotRead(at));
    };
    let end = operand_end(aml, at)?;
    let Some(width) = integer_width(*lead) else {
        return Err(AmlError::NotRead(at));
    };
    let value = match *lead {
        0x00 => 0,
        0x01 => 1,
        0xFF => u64::MAX,
        _ => field(aml, at + 1, width),
    };
    Ok(Integer { value, end })
}

/// The offset of the first zero.
fn first_zero(bytes: &[u8]) -> Option<usize> {
    bytes.iter().position(|b| *b == 0)
}

/// Where a text ends that begins at an offset: after its zero.
fn text_end(aml: &[u8], at: usize) -> Result<usize, AmlError> {
    match first_zero(skip(aml, at)) {
        Some(n) => Ok(at + n + 1),
        None => Err(AmlError::PastEnd(at)),
    }
}

/// Whether a byte is a local or an argument of a method, which is no longer.
fn is_single(lead: u8) -> bool {
    0x60 <= lead && lead <= 0x6E
}

/// Why the argument isn't passed that begins at an offset.
fn no_operand(aml: &[u8], at: usize) -> AmlError {
    match opcode_at(aml, at) {
        Ok(opcode) if is_expression(opcode.code) || matches!(opcode.code, 0x5B30 | 0x5B31) => AmlError::NotRead(at),
        Ok(_) => AmlError::UnknownTerm(at),
        Err(error) => error,
    }
}

/// Where the argument ends that begins at an offset and is no operator.
pub(crate) fn operand_end(aml: &[u8], at: usize) -> Result<usize, AmlError> {
    let lead = byte_at(aml, at)?;
    if let Some(width) = integer_width(lead) {
        return bytes_end(aml, at + 1, width);
    }
    if is_single(lead) {
        return Ok(at + 1);
    }
    if lead == 0x0D {
        return text_end(aml, at + 1);
    }
    if 0x11 <= lead && lead <= 0x13 {
        let block = block_at(aml, at + 1)?;
        return Ok(block.end);
    }
    if !begins_name(lead) {
        return Err(no_operand(aml, at));
    }
    let name = name_at(aml, at)?;
    Ok(name.end)
}

/// Whether a byte is an operator of two operands and a target.
pub(crate) fn is_operator(lead: u8) -> bool {
    matches!(lead, 0x72 | 0x74 | 0x79 | 0x7A | 0x7B | 0x7D)
}

/// Where the argument ends that begins at an offset.
pub(crate) fn argument_end(aml: &[u8], at: usize) -> Result<usize, AmlError> {
    let mut end = at;
    let mut left: usize = 1;
    while left > 0 {
        let lead = byte_at(aml, end)?;
        if is_operator(lead) {
            end += 1;
            left += 2;
        } else {
            end = operand_end(aml, end)?;
            left -= 1;
        }
    }
    Ok(end)
}
