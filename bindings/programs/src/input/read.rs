// Made by scripts/erase of crates/acpi_dump_input/src/read.rt, where it is proved.
//! Reading what a name leads to, with a message if the system returns an error.

use crate::input::errors::{Log, Stop, fail};
use crate::input::kind::{Kind, kind_of};
use crate::input::sources;
use crate::input::sources::{Sources, reason_of};
use crate::input::tables::TableFile;
use crate::input::wide::{is_wide, narrowed};
use crate::rattle::Vec;
use crate::rattle::alloc::Global;
use crate::rattle::io;

/// How inputs are read.
#[derive(Clone, Copy)]
pub struct Reading {
    /// The kind of all inputs, if it is said.
    pub kind: Option<Kind>,
    /// The address of memory's first byte, if it is said.
    pub at: Option<u64>,
    /// How many bytes an input has at most.
    pub most: u64,
}

impl Reading {
    /// The kind of input that bytes are, as it is said or as they look.
    fn kind_of(self, alloc: Global, bytes: &[u8]) -> Option<Kind> {
        match (self.kind, self.at) {
            (None, Some(_)) => Some(Kind::Memory),
            (None, None) => kind_of(alloc, bytes),
            (kind, _) => kind,
        }
    }
}

/// What reads inputs: how, what from, what it says of them, and the tables that it has read.
pub(crate) struct Reader<'r, S> {
    pub(crate) alloc: Global,
    pub(crate) reading: Reading,
    pub(crate) sources: &'r mut S,
    pub(crate) log: &'r mut Log,
    pub(crate) tables: Vec<TableFile>,
}

impl<S: Sources> Reader<'_, S> {
    /// What the system returns for a name.
    ///
    /// Fails, after printing why, if that is an error.
    pub(crate) fn or_report<T>(&mut self, name: &str, given: io::Result<T>) -> Result<T, Stop> {
        match given {
            Ok(value) => Ok(value),
            Err(refusal) => Err(fail(self.log, name, &reason_of(&refusal))),
        }
    }

    /// Whether a word names a folder.
    pub(crate) fn is_folder(&mut self, name: &str) -> Result<bool, Stop> {
        if name == "-" {
            return Ok(false);
        }
        let kind = self.sources.kind_of(name);
        Ok(self.or_report(name, kind)? == sources::Kind::Folder)
    }

    /// The bytes of an input, which is standard input if its name is `-`.
    pub(crate) fn bytes_of(&mut self, name: &str) -> Result<Vec<u8>, Stop> {
        let (alloc, most) = (self.alloc, self.reading.most);
        let content = if name == "-" {
            self.sources.read_standard_input(alloc, most)
        } else {
            self.sources.read(alloc, name, most)
        };
        self.or_report(name, content)
    }

    /// The kind of an input, and its bytes: a text in UTF-16 as one in ASCII.
    ///
    /// Fails, after printing why, if the system returns an error or the input is empty.
    pub(crate) fn read(&mut self, name: &str, reading: Reading) -> Result<(Option<Kind>, Vec<u8>), Stop> {
        let bytes = self.bytes_of(name)?;
        if bytes.is_empty() {
            return Err(fail(self.log, name, &"it is empty"));
        }
        let kind = reading.kind_of(self.alloc, &bytes);
        if !is_wide(&bytes) || !matches!(kind, None | Some(Kind::Text)) {
            return Ok((kind, bytes));
        }
        let narrow = narrowed(self.alloc, &bytes)?;
        Ok((reading.kind_of(self.alloc, &narrow), narrow))
    }
}
