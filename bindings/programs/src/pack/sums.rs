// Made by scripts/erase of crates/acpi_pack_lib/src/sums.rt, where it is proved.
//! Files that are tables, with their Checksum set.

use crate::image::sums::set_sum;
use crate::pack::sources::FileBytes;
use crate::rattle::Vec;
use crate::rattle::alloc::{AllocError, Global};
use zacpi::base::bytes::field;

/// Whether bytes begin as what may have a table's length, but no Checksum at byte 9: a FACS (section 5.2.10), one of
/// the two tables that an FPDT leads to (section 5.2.23), or an RSDP (section 5.2.5.3).
fn is_unsummed(bytes: &[u8]) -> bool {
    bytes.starts_with(b"FACS")
        || bytes.starts_with(b"FBPT")
        || bytes.starts_with(b"S3PT")
        || bytes.starts_with(b"RSD PTR ")
}

/// Whether bytes are one whole table, as its length field has it (section 5.2.6).
fn has_sum(bytes: &[u8]) -> bool {
    bytes.len() >= 36 && field(bytes, 4, 4) as usize == bytes.len() && !is_unsummed(bytes)
}

/// A copy of bytes. If they are a table, its Checksum, byte 9, is set so that all sum to 0 modulo 256.
///
/// Fails if it runs out of memory.
fn summed(alloc: Global, bytes: &[u8]) -> Result<Vec<u8>, AllocError> {
    let mut copy = Vec::from_slice(alloc, bytes)?;
    if has_sum(bytes) {
        set_sum(&mut copy, 9);
    }
    Ok(copy)
}

/// Copies of files, of those that are tables with their Checksum set.
///
/// Fails if it runs out of memory.
pub(crate) fn all_summed(alloc: Global, files: &[FileBytes<'_>]) -> Result<Vec<Option<Vec<u8>>>, AllocError> {
    let mut copies = Vec::new(alloc);
    for file in files {
        let copy = match file {
            Some(bytes) => Some(summed(alloc, bytes)?),
            None => None,
        };
        copies.push(copy)?;
    }
    Ok(copies)
}

/// The bytes of copies.
///
/// Fails if it runs out of memory.
pub(crate) fn lent<'c>(alloc: Global, copies: &'c [Option<Vec<u8>>]) -> Result<Vec<FileBytes<'c>>, AllocError> {
    let mut files = Vec::new(alloc);
    for copy in copies {
        files.push(match copy {
            Some(bytes) => Some(bytes.as_slice()),
            None => None,
        })?;
    }
    Ok(files)
}
