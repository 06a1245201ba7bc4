// Made by scripts/erase of crates/acpi_dump_input/src/sources.rt, where it is proved.
//! What the program reads: folders, files, standard input and the date, and whether its output is a terminal.

use crate::rattle::alloc::{AllocError, Global};
use crate::rattle::env;
use crate::rattle::fs;
use crate::rattle::fs::File;
use crate::rattle::io;
use crate::rattle::io::{ErrorKind, IsTerminal, Read};
use crate::rattle::time::SystemTime;
use crate::rattle::{HostRuntime, ReadToEndIn, String, Vec};

/// What a name leads to.
#[derive(Clone, Copy, PartialEq, Eq)]
pub enum Kind {
    Folder,
    File,
    /// A pipe, a device or the like, whose bytes may have no end.
    Other,
}

/// What is in a folder.
pub struct Listing {
    /// The names, in no order.
    pub names: Vec<String>,
    /// How many names there are besides that are not UTF-8.
    pub unnamed: usize,
}

/// Files and folders, as the program or a test reaches them.
pub trait Sources {
    /// Which bytes the file of a path may have. The path of standard input is `-`.

    /// What a name leads to.
    ///
    /// Fails if the system doesn't say what it leads to.
    fn kind_of(&mut self, name: &str) -> io::Result<Kind>;

    /// The names of what is in a folder.
    ///
    /// Fails if the system returns an error, or memory runs out.
    fn names_in(&mut self, alloc: Global, folder: &str) -> io::Result<Listing>;

    /// The bytes of a file.
    ///
    /// Fails if the system returns an error, if the file has more than `most` bytes (`FileTooLarge`), or if memory runs
    /// out.
    fn read(&mut self, alloc: Global, name: &str, most: u64) -> io::Result<Vec<u8>>;

    /// All bytes of standard input.
    ///
    /// Fails if the system returns an error, if they are more than `most` (`FileTooLarge`), or if memory runs out.
    fn read_standard_input(&mut self, alloc: Global, most: u64) -> io::Result<Vec<u8>>;

    /// Whether standard output is a terminal that has colors, whose user hasn't set `NO_COLOR`.
    fn takes_color(&mut self) -> bool;

    /// How many days after 1970-01-01 it is, in UTC.
    ///
    /// Fails if the system's clock can't be read.
    fn today(&mut self) -> io::Result<u64>;
}

/// The folders and files of the system that the program runs on.
pub struct HostSources<'r> {
    rt: &'r HostRuntime,
}

impl<'r> HostSources<'r> {
    /// The folders and files of the system.
    pub fn new(rt: &'r HostRuntime) -> HostSources<'r> {
        HostSources { rt }
    }
}

/// The bytes of its files may be any.
impl Sources for HostSources<'_> {
    fn kind_of(&mut self, name: &str) -> io::Result<Kind> {
        let found = fs::metadata(self.rt, name)?;
        Ok(if found.is_dir() {
            Kind::Folder
        } else if found.is_file() {
            Kind::File
        } else {
            Kind::Other
        })
    }

    fn names_in(&mut self, alloc: Global, folder: &str) -> io::Result<Listing> {
        let mut names = Vec::new(alloc);
        let mut unnamed = 0usize;
        for entry in fs::read_dir(self.rt, folder)? {
            match entry {
                Ok(entry) => push_name(alloc, &mut names, entry.file_name())?,
                Err(refusal) if refusal.kind() == ErrorKind::InvalidFilename => {
                    unnamed = unnamed.saturating_add(1);
                }
                Err(refusal) => return Err(refusal),
            }
        }
        Ok(Listing { names, unnamed })
    }

    fn read(&mut self, alloc: Global, name: &str, most: u64) -> io::Result<Vec<u8>> {
        read_at_most(alloc, File::open(self.rt, name)?, most)
    }

    fn read_standard_input(&mut self, alloc: Global, most: u64) -> io::Result<Vec<u8>> {
        read_at_most(alloc, self.rt.reader(), most)
    }

    fn takes_color(&mut self) -> bool {
        let asked_not = env::var(self.rt, "NO_COLOR").is_ok_and(|value| !value.is_empty());
        let is_plain = env::var(self.rt, "TERM").is_ok_and(|value| value.as_str() == "dumb");
        !asked_not && !is_plain && self.rt.stdout().is_terminal()
    }

    fn today(&mut self) -> io::Result<u64> {
        let now = SystemTime::now(self.rt)?;
        match now.duration_since(SystemTime::UNIX_EPOCH) {
            Ok(since) => Ok(since.as_secs() / 86400),
            Err(_) => Err(io::Error::from(ErrorKind::InvalidData)),
        }
    }
}

/// All bytes of a reader, if they are at most `most`.
fn read_at_most<R: Read>(alloc: Global, reader: R, most: u64) -> io::Result<Vec<u8>> {
    let mut bytes = Vec::new(alloc);
    reader.take(most.saturating_add(1)).read_to_end_in(&mut bytes)?;
    if bytes.len() as u64 > most {
        return Err(io::Error::from(ErrorKind::FileTooLarge));
    }
    Ok(bytes)
}

/// Adds a name.
fn push_name(alloc: Global, names: &mut Vec<String>, name: &str) -> Result<(), AllocError> {
    let name = String::from_str(alloc, name)?;
    Ok(names.push(name)?)
}

/// Linux's number of the error of a path with too many links. Its kind has no name in stable Rust.
const ELOOP: i32 = 40;

/// Why the system returns an error, in a few words.
pub fn reason_of(error: &io::Error) -> &'static str {
    if error.raw_os_error() == Some(ELOOP) {
        return "too many links";
    }
    match error.kind() {
        ErrorKind::NotFound => "no such file or folder",
        ErrorKind::PermissionDenied => "permission denied",
        ErrorKind::IsADirectory => "it is a folder",
        ErrorKind::NotADirectory => "a part of its path isn't a folder",
        ErrorKind::OutOfMemory => "out of memory",
        ErrorKind::FileTooLarge => "more bytes than --max-bytes allows",
        ErrorKind::StorageFull => "no space left",
        ErrorKind::BrokenPipe => "no one reads it any more",
        ErrorKind::InvalidFilename => "the name is too long, or not valid UTF-8",
        ErrorKind::InvalidInput => "not a name of a file",
        _ => "it can't be read or written",
    }
}
