// Made by scripts/erase of crates/acpi_pack_lib/src/listing.rt, where it is proved.
//! The lines of the records of an image that is packed.

use crate::image::{ImageError, MemoryImage, Record};
use crate::pack::arguments::{Command, Form};
use crate::pack::plain::first_address;
use crate::pack::sources::{FileBytes, FileRole, FilesOfRole, IndexedFile, of_role};
use crate::rattle::alloc::{AllocError, Global};
use crate::rattle::{CollectIn, String, Vec};
use core::fmt;
use core::fmt::Write;
use zacpi::base::Signature;
use zacpi::base::bytes::filled;

/// The label of a record.
#[derive(Clone, Copy)]
pub(crate) enum Label<'w> {
    /// A name alone.
    Name(&'w str),
    /// The signature of a table, and the name of its file.
    Table(Signature, &'w str),
}

impl fmt::Display for Label<'_> {
    fn fmt(&self, f: &mut fmt::Formatter<'_>) -> fmt::Result {
        match self {
            Label::Name(name) => f.write_str(name),
            Label::Table(signature, name) => write!(f, "{signature} {name}"),
        }
    }
}

/// The name of the file of this index.
pub(crate) fn name_of<'w>(names: &[&'w str], index: usize) -> &'w str {
    match names.get(index) {
        Some(name) => *name,
        None => "",
    }
}

/// The label of a table.
fn table_label<'w>(names: &[&'w str], entry: IndexedFile<'_>) -> Label<'w> {
    let signature = Signature::from_bytes(filled(entry.bytes, 0));
    Label::Table(signature, name_of(names, entry.index))
}

/// Puts the labels of the files of a role after those that are there.
///
/// Fails if it runs out of memory.
fn put_labels<'w>(
    labels: &mut Vec<Label<'w>>,
    names: &[&'w str],
    files: FilesOfRole<'_, '_>,
) -> Result<(), AllocError> {
    for table in files {
        labels.push(table_label(names, table))?;
    }
    Ok(())
}

/// The labels of files at addresses: their names.
///
/// Fails if it runs out of memory.
fn range_labels<'w>(alloc: Global, names: &[&'w str]) -> Result<Vec<Label<'w>>, AllocError> {
    names.iter().map(|name| Label::Name(*name)).collect_in(alloc)
}

/// The labels of the records of an image of tables.
///
/// Fails if it runs out of memory.
fn tables_labels<'w>(alloc: Global, names: &[&'w str], files: &[FileBytes<'_>]) -> Result<Vec<Label<'w>>, AllocError> {
    let mut labels = Vec::new(alloc);
    labels.push(Label::Name("RSDP"))?;
    labels.push(Label::Name("XSDT"))?;
    put_labels(&mut labels, names, of_role(files, FileRole::Listed))?;
    put_labels(&mut labels, names, of_role(files, FileRole::Dsdt))?;
    Ok(labels)
}

/// The labels of the records of an image, in order.
///
/// Fails if it runs out of memory.
fn labels_of<'w>(alloc: Global, command: &Command<'w>, files: &[FileBytes<'_>]) -> Result<Vec<Label<'w>>, AllocError> {
    match &command.form {
        Form::Memory(_) => range_labels(alloc, &command.names),
        Form::Tables => tables_labels(alloc, &command.names, files),
    }
}

/// The label of the record of this index, or an empty one.
fn label_at<'w>(labels: &[Label<'w>], index: usize) -> Label<'w> {
    match labels.get(index) {
        Some(label) => *label,
        None => Label::Name(""),
    }
}

/// Puts the lines of these records, one for each, in order.
///
/// Fails if it runs out of memory.
fn put_lines(text: &mut String, labels: &[Label<'_>], records: &[Record<'_>]) -> Result<(), AllocError> {
    for (index, record) in records.iter().enumerate() {
        let label = label_at(labels, index);
        writeln!(text, "0x{:x} {label}", record.start)?;
    }
    Ok(())
}

/// The line of plain memory, if a command requests it, and the lines of the records.
///
/// Fails if it runs out of memory.
fn lines_of(
    alloc: Global,
    command: &Command<'_>,
    labels: &[Label<'_>],
    records: &[Record<'_>],
) -> Result<String, AllocError> {
    let mut text = String::new(alloc);
    if command.options.is_plain {
        let name = command.out;
        writeln!(text, "0x{:x} raw {name}", first_address(records))?;
    }
    put_lines(&mut text, labels, records)?;
    Ok(text)
}

/// The lines of the records of an image that a command packed of these files, one for each, in order: the
/// physical address, in hexadecimal digits, and the label. For files at addresses that is the file's name;
/// for tables it is `RSDP`, `XSDT`, or the signature and the file's name. If plain memory is requested, a line comes
/// first with its first address, `raw` and its name.
///
/// Fails as `MemoryImage::from_bytes` does.
pub fn record_lines(
    alloc: Global,
    command: &Command<'_>,
    files: &[FileBytes<'_>],
    image: &[u8],
) -> Result<String, ImageError> {
    let memory = MemoryImage::from_bytes(alloc, image)?;
    let Ok(labels) = labels_of(alloc, command, files) else {
        return Err(ImageError::OutOfMemory);
    };
    match lines_of(alloc, command, &labels, memory.records()) {
        Ok(text) => Ok(text),
        Err(_) => Err(ImageError::OutOfMemory),
    }
}
