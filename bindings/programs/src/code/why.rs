// Made by scripts/erase of crates/acpi_dump_code/src/why.rt, where it is proved.
//! Why a block isn't listed to its end.

use crate::code::parts::print_name;
use crate::rattle::alloc::AllocError;
use crate::walk::aml::Ends;
use crate::walk::out::Out;
use zacpi::sleep::AmlError;
use zacpi::sleep::name::name_at;

/// Why a block isn't listed from a place on.
#[derive(Clone, Copy)]
pub(crate) enum Why {
    /// A length isn't right, the block ends, there is no name, or names lead too deep.
    Ends(Ends),
    /// No opcode begins at this offset.
    NoOpcode(usize),
    /// No table that was read defines the name at this offset.
    Unknown(usize),
    /// Tables define the name at this offset with different numbers of arguments.
    Several(usize),
}

impl From<AmlError> for Why {
    fn from(error: AmlError) -> Why {
        Why::Ends(Ends::Aml(error))
    }
}

impl From<AllocError> for Why {
    fn from(_error: AllocError) -> Why {
        Why::Ends(Ends::OutOfMemory)
    }
}

impl Why {
    /// Prints it, of a table.
    pub(crate) fn print(self, table: &[u8], out: &mut Out) {
        match self {
            Why::Ends(ends) => ends.print(out),
            Why::NoOpcode(at) => out.words("no opcode begins at #", &[at as u64]),
            Why::Unknown(at) => {
                out.text("no table that was read defines ");
                print_name_at(table, at, out)
            }
            Why::Several(at) => {
                out.text("tables differ in the number of arguments of ");
                print_name_at(table, at, out)
            }
        }
    }
}

/// Prints the name at an offset as it is written.
fn print_name_at(aml: &[u8], at: usize, out: &mut Out) {
    if at < aml.len()
        && let Ok(name) = name_at(aml, at)
    {
        print_name(aml.get(at..name.end).unwrap_or(&[]), out)
    }
}
