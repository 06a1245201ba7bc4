// Made by scripts/erase of crates/acpi_pack_lib/src/files.rt, where it is proved.
//! Files as a program requests them: each name that it requests is listed, with the bytes that were read.

use crate::rattle::alloc::AllocError;
use crate::rattle::fs;
use crate::rattle::{HostRuntime, String, Vec};

/// A file that was requested: its name, and the bytes that were read of it, if it can be read.
pub struct Reading {
    name: String,
    content: Option<Vec<u8>>,
}

impl Reading {
    /// The bytes of the file, or `None` if it can't be read.
    pub fn content(&self) -> Option<&[u8]> {
        match &self.content {
            Some(bytes) => Some(bytes.as_slice()),
            None => None,
        }
    }
}

/// Files, as a program or a test reaches them. It means one thing: the list of all files that were
/// requested, in order, each by its name, with what was read of it.
pub trait Files {
    /// Reads the file of a name, and keeps its bytes.
    ///
    /// Fails if memory for the list runs out, and then requests no file.
    fn read(&mut self, name: &str) -> Result<(), AllocError>;

    /// All files that were requested, in order, each with the bytes that were read of it.
    fn readings(&self) -> &[Reading];
}

/// The files of the system that the program runs on.
pub struct HostFiles<'r> {
    rt: &'r HostRuntime,
    readings: Vec<Reading>,
}

impl<'r> HostFiles<'r> {
    /// The files of the system, of which none was requested yet.
    pub fn new(rt: &'r HostRuntime) -> HostFiles<'r> {
        HostFiles { rt, readings: Vec::new(rt.alloc()) }
    }
}

/// Lists each name with the bytes that the system gave for it.
impl Files for HostFiles<'_> {
    fn read(&mut self, name: &str) -> Result<(), AllocError> {
        let kept = String::from_str(self.rt.alloc(), name)?;
        self.readings.reserve(1)?;
        let content = fs::read(self.rt, name).ok();
        let reading = Reading { name: kept, content };
        let Ok(()) = self.readings.push(reading) else { unreachable!() };
        Ok(())
    }

    fn readings(&self) -> &[Reading] {
        &self.readings
    }
}

/// How many files were requested.
pub fn count<F: Files>(files: &F) -> usize {
    files.readings().len()
}

/// The bytes that were read of the file that was requested last, or `None` if it can't be read.
pub fn last_content<F: Files>(files: &F) -> Option<&[u8]> {
    files.readings().last()?.content()
}
