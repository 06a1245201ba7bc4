// Made by scripts/erase of crates/acpi_sleep/src/package.rt, where it is proved.
//! The package that a sleep state's name is set to (section 7.4.2).

use crate::sleep::argument::{integer_at, operand_end};
use crate::sleep::block::{block_at, byte_at};
use crate::sleep::error::AmlError;
use crate::sleep::sleep::SleepTypes;

/// The sleep types of a package's elements, of which there is this number, the first at an offset.
fn elements_at(aml: &[u8], at: usize, count: u8) -> Result<SleepTypes, AmlError> {
    if count == 0 {
        return Err(AmlError::NotRead(at));
    }
    let first = integer_at(aml, at)?;
    if count == 1 {
        return Ok(SleepTypes { a: first.value % 256, b: first.value / 256 });
    }
    let second = integer_at(aml, first.end)?;
    Ok(SleepTypes { a: first.value, b: second.value })
}

/// The sleep types of the package at an offset. Fails with `NotRead` for another value.
pub(crate) fn types_at(aml: &[u8], at: usize) -> Result<SleepTypes, AmlError> {
    if byte_at(aml, at)? != 0x12 {
        operand_end(aml, at)?;
        return Err(AmlError::NotRead(at));
    }
    let block = block_at(aml, at + 1)?;
    let contents = &aml[..block.end];
    let count = byte_at(contents, block.start)?;
    elements_at(contents, block.start + 1, count)
}
