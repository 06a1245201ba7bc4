// Made by scripts/erase of crates/acpi_cli/src/storage.rt, where it is proved.
//! Storages, in which files are saved: each file that was to be saved is listed, with the result.

use crate::cli::save::{SaveError, save};
use crate::rattle::alloc::{AllocError, Global};
use crate::rattle::fs::DirBuilder;
use crate::rattle::io;
use crate::rattle::os::unix::fs::DirBuilderExt;
use crate::rattle::{HostRuntime, String, Vec};

/// A storage in which files are saved, as a program or a test reaches it. It means one thing: the list of all
/// files that were to be saved, in order, each with the result.
pub trait Storage {
    /// Saves these bytes, which were made of the files of the names in `sources`, under a name, and
    /// returns that they are saved, or the error, as the function `save` does.
    ///
    /// Fails if memory for the list runs out, and then saves nothing.
    fn save(&mut self, name: &str, sources: &[&str], bytes: Vec<u8>) -> Result<Result<(), SaveError>, AllocError>;

    /// Makes a folder that only its owner may use.
    ///
    /// Fails with the error of the system.
    fn make_folder(&mut self, name: &str) -> io::Result<()>;
}

/// A file that was to be saved, with the result of `save`.
pub(crate) struct Saved {
    name: String,
    sources: Vec<String>,
    bytes: Vec<u8>,
    answer: Result<(), SaveError>,
}

/// The storage of the system that the program runs on.
pub struct HostStorage<'r> {
    rt: &'r HostRuntime,
    saved: Vec<Saved>,
}

impl<'r> HostStorage<'r> {
    /// The storage of the system, in which nothing was saved yet.
    pub fn new(rt: &'r HostRuntime) -> HostStorage<'r> {
        HostStorage { rt, saved: Vec::new(rt.alloc()) }
    }
}

/// Copies of these texts.
///
/// Fails if it runs out of memory.
fn copies_of(alloc: Global, texts: &[&str]) -> Result<Vec<String>, AllocError> {
    let mut copies = Vec::new(alloc);
    for text in texts {
        copies.push(String::from_str(alloc, text)?)?;
    }
    Ok(copies)
}

/// Lists each file with its name, its sources, its bytes, and the result of `save`.
impl Storage for HostStorage<'_> {
    fn save(&mut self, name: &str, sources: &[&str], bytes: Vec<u8>) -> Result<Result<(), SaveError>, AllocError> {
        let kept_name = String::from_str(self.rt.alloc(), name)?;
        let kept_sources = copies_of(self.rt.alloc(), sources)?;
        self.saved.reserve(1)?;
        let answer = save(self.rt, name, sources, &bytes);
        let saved = Saved { name: kept_name, sources: kept_sources, bytes, answer };
        let Ok(()) = self.saved.push(saved) else { unreachable!() };
        Ok(answer)
    }

    fn make_folder(&mut self, name: &str) -> io::Result<()> {
        let mut builder = DirBuilder::new();
        builder.mode(0o700);
        builder.create(self.rt, name)
    }
}
