// Made by scripts/erase of crates/acpi_dump_input/src/tables.rt, where it is proved.
//! Tables without memory around them, as files and texts have them.

use crate::input::errors::{Stop, fail};
use crate::input::kind::{Kind, text_in};
use crate::input::read::Reader;
use crate::input::text::{TextError, tables_in, why_wrong};
use crate::rattle::alloc::AllocError;
use crate::rattle::{String, Vec};

/// A table that comes as a file, or as a part of a text.
pub struct TableFile {
    /// The name of the file.
    pub name: String,
    /// The physical address that a text has for it.
    pub address: Option<u64>,
    /// Its bytes.
    pub bytes: Vec<u8>,
}

impl<S> Reader<'_, S> {
    /// Adds a table.
    fn push(&mut self, name: &str, address: Option<u64>, bytes: Vec<u8>) -> Result<(), AllocError> {
        let name = String::from_str(self.alloc, name)?;
        let table = TableFile { name, address, bytes };
        Ok(self.tables.push(table)?)
    }

    /// Adds the tables that a text spells.
    ///
    /// Fails, after saying where it is wrong, if it spells none.
    fn add_text(&mut self, name: &str, bytes: &[u8]) -> Result<(), Stop> {
        let Some(text) = text_in(bytes) else {
            return Err(fail(self.log, name, &"not a text"));
        };
        match tables_in(self.alloc, text) {
            Ok(spelled) => {
                if spelled.is_empty() {
                    return Err(fail(self.log, name, &"no table in it"));
                }
                for table in spelled {
                    self.push(name, Some(table.address), table.bytes)?;
                }
                Ok(())
            }
            Err(TextError::OutOfMemory) => Err(Stop::OutOfMemory),
            Err(TextError::Line(number)) => {
                let why = why_wrong(self.alloc, text, number)?;
                Err(fail(self.log, name, &format_args!("line {number} is wrong: {why}")))
            }
        }
    }

    /// Adds the tables that bytes of this kind are.
    ///
    /// Fails, after printing why, if they are none.
    pub(crate) fn add(&mut self, name: &str, kind: Option<Kind>, bytes: Vec<u8>) -> Result<(), Stop> {
        match kind {
            Some(Kind::Text) => self.add_text(name, &bytes),
            Some(Kind::Table) => Ok(self.push(name, None, bytes)?),
            _ => {
                let why = if kind.is_some() {
                    "memory, which stands alone and not beside other inputs"
                } else {
                    "not recognised: --as image, memory, text or table says what it is"
                };
                Err(fail(self.log, name, &why))
            }
        }
    }
}
