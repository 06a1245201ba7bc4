// Made by scripts/erase of crates/acpi_sleep/src/block.rt, where it is proved.
//! Bytes, and blocks that begin with their own length (section 20.2.4).

use crate::base::bytes::field;
use crate::sleep::error::AmlError;

/// The byte at an offset.
pub(crate) fn byte_at(aml: &[u8], at: usize) -> Result<u8, AmlError> {
    match aml.get(at) {
        Some(byte) => Ok(*byte),
        None => Err(AmlError::PastEnd(at)),
    }
}

/// Where `n` bytes end that begin at an offset.
pub(crate) fn bytes_end(aml: &[u8], at: usize, n: usize) -> Result<usize, AmlError> {
    if at + n <= aml.len() { Ok(at + n) } else { Err(AmlError::PastEnd(at)) }
}

/// The number of one to three bytes.
fn short_field(aml: &[u8], at: usize, n: usize) -> usize {
    match n {
        0 => field(aml, at, 0) as usize,
        1 => field(aml, at, 1) as usize,
        2 => field(aml, at, 2) as usize,
        _ => field(aml, at, 3) as usize,
    }
}

/// What the PkgLength at an offset contains, of which this is the lead byte.
fn package_size(aml: &[u8], at: usize, lead: u8) -> usize {
    if lead < 64 { lead as usize } else { lead as usize % 16 + 16 * short_field(aml, at + 1, lead as usize / 64) }
}

/// What a PkgLength is before.
#[derive(Clone, Copy, Debug)]
#[non_exhaustive]
pub struct Block {
    /// The offset of the first byte after the PkgLength.
    pub start: usize,
    /// The offset after the last.
    pub end: usize,
}

/// The block whose PkgLength begins at an offset, which is at most the length of the AML.
///
/// Fails with `PastEnd` if the AML ends there, and with `InvalidLength` if the length is less than its own bytes or
/// goes past the end.
pub fn block_at(aml: &[u8], at: usize) -> Result<Block, AmlError> {
    let lead = byte_at(aml, at)?;
    let start = at + 1 + lead as usize / 64;
    let end = at + package_size(aml, at, lead);
    if start <= end && end <= aml.len() { Ok(Block { start, end }) } else { Err(AmlError::InvalidLength(at)) }
}
