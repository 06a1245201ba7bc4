// Made by scripts/erase of crates/acpi_dump_input/src/errors.rt, where it is proved.
//! What is said on standard error: the program, the file or the word, and why.

use crate::cli::save::SaveError;
use crate::image::ImageError;
use crate::rattle::alloc::{AllocError, Global};
use crate::walk::out::Out;
use core::fmt;
use core::fmt::Display;
use zacpi::AcpiError;

/// Why nothing more is shown.
#[derive(Clone, Copy)]
pub enum Stop {
    /// A message was printed.
    Message,
    /// The allocator refused memory.
    OutOfMemory,
}

/// Makes `OutOfMemory`.
impl From<AllocError> for Stop {
    fn from(_refused: AllocError) -> Stop {
        Stop::OutOfMemory
    }
}

/// What is said on standard error.
pub struct Log {
    pub text: Out,
    /// Whether something isn't shown that was asked for.
    pub is_incomplete: bool,
}

impl Log {
    /// Nothing is said yet.
    pub fn new(alloc: Global) -> Log {
        Log { text: Out::new(alloc), is_incomplete: false }
    }
}

/// Begins a line on a file.
pub fn begin(log: &mut Log, name: &str) {
    log.text.text("acpi_dump: ");
    log.text.escaped(name.as_bytes());
    log.text.text(": ");
}

/// An error that is printed as its name.
pub trait Named: Display {
    /// What it means, after a colon, or no letters if the name has to do.
    fn meaning(&self) -> &'static str;
}

impl Named for AcpiError {
    fn meaning(&self) -> &'static str {
        match self {
            AcpiError::MapFailed => ": the input hasn't all bytes that are read there",
            _ => "",
        }
    }
}

impl Named for ImageError {
    fn meaning(&self) -> &'static str {
        match self {
            ImageError::Truncated => ": the file ends within a record",
            ImageError::EndTooLarge => ": a record of the file would end above 2^64 - 1",
            ImageError::Overlap => ": two records of the file share a byte",
            ImageError::OutOfMemory => "",
        }
    }
}

impl Named for SaveError {
    fn meaning(&self) -> &'static str {
        match self {
            SaveError::NotAFile => ": what is there is no file",
            SaveError::SameFile => ": it is one of the inputs",
            SaveError::PartExists => ": a file of this name and .part is there",
            SaveError::Unwritable => ": no file can be made or replaced there",
            SaveError::OutOfMemory => "",
        }
    }
}

/// An error at a physical address.
#[derive(Clone, Copy)]
pub struct At {
    pub address: u64,
    pub error: AcpiError,
}

impl Display for At {
    fn fmt(&self, f: &mut fmt::Formatter<'_>) -> fmt::Result {
        write!(f, "0x{:x}: {}", self.address, self.error)
    }
}

impl Named for At {
    fn meaning(&self) -> &'static str {
        self.error.meaning()
    }
}

/// Says something of a file, and what that means.
fn tell_meaning(log: &mut Log, name: &str, what: &impl Display, meaning: &str) {
    begin(log, name);
    log.text.value(what);
    log.text.text(meaning);
    log.text.text("\n");
}

/// Says something of a file.
pub fn tell(log: &mut Log, name: &str, what: &impl Display) {
    tell_meaning(log, name, what, "");
}

/// Says why a file isn't shown.
pub fn fail(log: &mut Log, name: &str, why: &impl Display) -> Stop {
    tell(log, name, why);
    log.is_incomplete = true;
    Stop::Message
}

/// Says which error a file isn't shown for, and what that means.
pub fn fail_with(log: &mut Log, name: &str, error: &impl Named) -> Stop {
    tell_meaning(log, name, error, error.meaning());
    log.is_incomplete = true;
    Stop::Message
}
