// Made by scripts/erase of crates/acpi_pack_lib/src/reading.rt, where it is proved.
//! The files that a command names, as they are read.

use crate::pack::files::{Files, Reading};
use crate::rattle::Vec;
use crate::rattle::alloc::{AllocError, Global};

/// Reads the files of these names, each once and in order.
///
/// Fails if memory for the list runs out, and then requests no further file.
pub(crate) fn read_all<F: Files>(files: &mut F, names: &[&str]) -> Result<(), AllocError> {
    for name in names {
        files.read(name)?;
    }
    Ok(())
}

/// The bytes that were read of the files that were requested after the first `start` of them, in order, each
/// `None` if the file can't be read.
///
/// Fails if it runs out of memory.
pub(crate) fn contents_from<F: Files>(
    alloc: Global,
    files: &F,
    start: usize,
) -> Result<Vec<Option<&[u8]>>, AllocError> {
    let readings = files.readings();
    if start < readings.len() { contents(alloc, &readings[start..]) } else { Ok(Vec::new(alloc)) }
}

/// The bytes that were read of these files, in order.
///
/// Fails if it runs out of memory.
fn contents(alloc: Global, readings: &[Reading]) -> Result<Vec<Option<&[u8]>>, AllocError> {
    let mut contents = Vec::new(alloc);
    for reading in readings {
        contents.push(reading.content())?;
    }
    Ok(contents)
}
