// Made by scripts/erase of crates/acpi_writer/src/aml.rt, where it is proved.
//! Tables of AML: the DSDT (section 5.2.11.1) and SSDTs (section 5.2.11.2), from AML bytes, taken as they are.

use crate::base::Signature;
use crate::base::bytes::{field, filled};
use crate::table_writer::checked::require;
use crate::table_writer::error::WriterError;
use crate::table_writer::ids::TableIds;
use crate::table_writer::spelled::Bytes;
use crate::table_writer::table::{Table, write};
use crate::write::contents::AmlContents;

/// Writes a DSDT to the front of a slice, and returns how many bytes it has: 36, and the AML bytes. By a revision of 1
/// AML's integers have 32 bits, by one of 2 they have 64.
///
/// Returns, in this order, `HasHeader` if the bytes begin with a DSDT's Signature, and with a Length that is how many
/// there are (what `iasl` compiles is AML from byte 36 on), `BadName` if a name of the ids is not valid UTF-8, `NoRoom`
/// if the slice is shorter than the table, and `TooLong` if the table has 2^32 bytes or more.
pub fn write_dsdt(out: &mut [u8], ids: &TableIds, revision: u8, aml: &[u8]) -> Result<usize, WriterError> {
    write(out, ids, &Aml::of(Signature::DSDT, revision, aml))
}

/// Writes an SSDT to the front of a slice, as `write_dsdt` writes a DSDT.
///
/// Returns, in this order, `HasHeader`, by an SSDT's Signature, `BadName`, `NoRoom` and `TooLong`, as `write_dsdt`
/// does.
pub fn write_ssdt(out: &mut [u8], ids: &TableIds, revision: u8, aml: &[u8]) -> Result<usize, WriterError> {
    write(out, ids, &Aml::of(Signature::SSDT, revision, aml))
}

/// A table of AML with this signature.
#[derive(Clone, Copy, Debug)]
pub(crate) struct Aml<'a>(pub(crate) Signature, pub(crate) AmlContents<'a>);

impl<'a> Aml<'a> {
    fn of(signature: Signature, revision: u8, bytes: &'a [u8]) -> Aml<'a> {
        Aml(signature, AmlContents { revision, bytes })
    }
}

/// Whether bytes are a table of this signature, with its header.
fn has_header(signature: Signature, bytes: &[u8]) -> bool {
    let first = Signature::from_bytes(filled(bytes, 0));
    first == signature && field(bytes, 4, 4) == bytes.len() as u64 // Length
}

impl<'a> Table for Aml<'a> {
    type Body = Bytes<'a>;

    fn head(&self) -> (Signature, u8) {
        (self.0, self.1.revision)
    }

    fn check(&self) -> Result<(), WriterError> {
        require(!has_header(self.0, self.1.bytes), WriterError::HasHeader)
    }

    fn body(&self) -> Bytes<'a> {
        Bytes(self.1.bytes)
    }
}
