// Made by scripts/erase of crates/acpi_pack_lib/src/sources.rt, where it is proved.
//! The bytes of files, their roles as tables, and the errors of each file by itself.

use crate::pack::error::{FileError, Refusal};
use zacpi::base::bytes::field;

/// The bytes of a file, or `None` if it can't be read.
pub type FileBytes<'a> = Option<&'a [u8]>;

/// The role of a file of tables.
#[derive(Clone, Copy)]
pub(crate) enum FileRole {
    /// The XSDT lists the file.
    Listed,
    /// The file is a DSDT, which is at the address in the FADT.
    Dsdt,
    /// The file is left out.
    Unlisted,
}

/// A file and its index among all of them.
#[derive(Clone, Copy)]
pub(crate) struct IndexedFile<'a> {
    pub(crate) index: usize,
    pub(crate) bytes: &'a [u8],
}

/// The bytes of a file, or no bytes if it can't be read.
pub(crate) fn bytes_of<'a>(file: FileBytes<'a>) -> &'a [u8] {
    match file {
        Some(bytes) => bytes,
        None => &[],
    }
}

/// Whether bytes begin with the DSDT's signature.
fn is_dsdt(bytes: &[u8]) -> bool {
    bytes.starts_with(b"DSDT")
}

/// Whether bytes begin as a table that no root table lists: the FACS, a root table, or the RSDP.
fn is_unlisted(bytes: &[u8]) -> bool {
    bytes.starts_with(b"FACS")
        || bytes.starts_with(b"RSDT")
        || bytes.starts_with(b"XSDT")
        || bytes.starts_with(b"RSD PTR ")
}

impl FileRole {
    /// Whether a file with these bytes has this role.
    fn has(self, bytes: &[u8]) -> bool {
        match self {
            FileRole::Listed => !is_dsdt(bytes) && !is_unlisted(bytes),
            FileRole::Dsdt => is_dsdt(bytes),
            FileRole::Unlisted => is_unlisted(bytes),
        }
    }
}

/// The files of a role, in order.
pub(crate) struct FilesOfRole<'a, 'f> {
    files: &'f [FileBytes<'a>],
    role: FileRole,
    /// How many files were passed.
    index: usize,
}

impl<'a> Iterator for FilesOfRole<'a, '_> {
    type Item = IndexedFile<'a>;

    fn next(&mut self) -> Option<IndexedFile<'a>> {
        while self.index < self.files.len() {
            let index = self.index;
            let bytes = bytes_of(self.files[index]);
            self.index = index + 1;
            if self.role.has(bytes) {
                return Some(IndexedFile { index, bytes });
            }
        }
        None
    }
}

/// The files of a role, in order.
pub(crate) fn of_role<'a, 'f>(files: &'f [FileBytes<'a>], role: FileRole) -> FilesOfRole<'a, 'f> {
    FilesOfRole { files, role, index: 0 }
}

/// How many files the XSDT lists.
pub(crate) fn listed_count(files: &[FileBytes<'_>]) -> usize {
    of_role(files, FileRole::Listed).count()
}

/// Tests that a file can be read, and has bytes.
///
/// Fails, in this order, with `Unreadable` and `Empty`.
fn check_content(index: usize, file: FileBytes<'_>) -> Result<(), Refusal> {
    match file {
        None => Err(Refusal::File(index, FileError::Unreadable)),
        Some(bytes) if bytes.is_empty() => Err(Refusal::File(index, FileError::Empty)),
        Some(_) => Ok(()),
    }
}

/// Tests each file by itself.
///
/// Fails, files in order, and for each in this order, with `Unreadable` and `Empty`.
pub(crate) fn check_contents(files: &[FileBytes<'_>]) -> Result<(), Refusal> {
    for (index, file) in files.iter().enumerate() {
        check_content(index, *file)?;
    }
    Ok(())
}

/// Tests that bytes have a header, and a length field that is their number.
///
/// Fails, in this order, with `Short` and `Long`.
fn check_length(index: usize, bytes: &[u8]) -> Result<(), Refusal> {
    let length = field(bytes, 4, 4) as usize;
    if bytes.len() < 36 || bytes.len() < length {
        return Err(Refusal::File(index, FileError::Short));
    }
    if length < bytes.len() {
        return Err(Refusal::File(index, FileError::Long));
    }
    Ok(())
}

/// Tests a file of tables.
///
/// Fails, in this order, with `Unreadable`, `Empty`, and unless the file is left out with `Short` and
/// `Long`.
fn check_table(index: usize, file: FileBytes<'_>) -> Result<(), Refusal> {
    check_content(index, file)?;
    let bytes = bytes_of(file);
    if is_unlisted(bytes) {
        return Ok(());
    }
    check_length(index, bytes)
}

/// Tests each file of tables by itself.
///
/// Fails, files in order, as `check_table` does.
pub(crate) fn check_tables(files: &[FileBytes<'_>]) -> Result<(), Refusal> {
    for (index, file) in files.iter().enumerate() {
        check_table(index, *file)?;
    }
    Ok(())
}
