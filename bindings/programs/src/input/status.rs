// Made by scripts/erase of crates/acpi_dump_input/src/status.rt, where it is proved.
//! What the checks of a table say.

use core::fmt;
use zacpi::AcpiError;
use zacpi::sdt::Signature;

/// What the checks of a table say.
#[derive(Clone, Copy)]
pub enum Status {
    /// It is valid.
    Valid,
    /// It is valid by its header and sum, but the lookup of its type returns an error.
    NoLookup(AcpiError),
    /// A check returns an error.
    Refused(AcpiError),
    /// Its bytes don't sum to 0: its checksum, and the one by which they would (section 5.2.6).
    WrongSum { signature: Signature, is: u8, should: u8 },
    /// Fewer bytes are there than its length has.
    Cut { refusal: AcpiError, has: usize, length: u32 },
    /// It is valid, but this many bytes come after its length.
    Longer(usize),
    /// It is valid by its header and sum, but a part of it doesn't match the layout of its type.
    Malformed,
    /// A FADT has its address, at which the input has no byte.
    NotHere,
}

impl Status {
    /// Whether the table is read, as far as it matches its layout.
    pub fn is_read(self) -> bool {
        matches!(self, Status::Valid | Status::NoLookup(_) | Status::Longer(_) | Status::Malformed)
    }

    /// Whether it is wrong: a table that isn't there isn't.
    pub fn is_invalid(self) -> bool {
        !matches!(self, Status::Valid | Status::NotHere)
    }
}

impl fmt::Display for Status {
    fn fmt(&self, f: &mut fmt::Formatter<'_>) -> fmt::Result {
        match self {
            Status::Valid => f.write_str("ok"),
            Status::NoLookup(refusal) => write!(f, "ok, but its lookup fails with {refusal}"),
            Status::Refused(refusal) => write!(f, "{refusal}"),
            Status::WrongSum { signature, is, should } => {
                write!(f, "SdtInvalidChecksum {signature}: checksum is {is:02x}, should be {should:02x}")
            }
            Status::Cut { refusal, has, length } => write!(f, "{refusal}: {has} of {length} bytes are there"),
            Status::Longer(over) => write!(f, "{over} bytes after its length"),
            Status::Malformed => f.write_str("malformed"),
            Status::NotHere => f.write_str("not in this input"),
        }
    }
}
