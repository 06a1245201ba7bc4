// Made by scripts/erase of crates/acpi_c_machine/src/written_records.rt, where it is proved.
//! Made by scripts/records: what C sees of a machine whose tables are to be written.
//! `include/zacpi.h` has what each field is.

use crate::c_devices::written_records::FacsContents;
pub use crate::table_writer::{ApicDomain, GiccDomain, RhctContents, RiscvContents, TableIds};

/// `struct zacpi_aml_contents`.
#[repr(C)]
#[derive(Clone, Copy, Debug, Default, PartialEq, Eq)]
pub struct AmlContents<'a> {
    /// AML: of what iasl compiles, which begins with a header, from + 36 on.
    pub aml: &'a [u8],
    /// Revision.
    pub revision: u8,
}

/// `struct zacpi_listed_table`.
#[repr(C)]
#[derive(Clone, Copy, Debug, Default, PartialEq, Eq)]
pub struct ListedTable<'a> {
    /// The bytes, which stay the caller's.
    pub bytes: &'a [u8],
}

/// `struct zacpi_machine`.
#[repr(C)]
#[derive(Clone, Copy, Debug, Default, PartialEq, Eq)]
pub struct Machine<'a> {
    /// The names in the headers of the tables.
    pub ids: TableIds,
    /// Tables: in the order of the XSDT.
    pub tables: &'a [ListedTable<'a>],
    /// Dsdts: the first is the DSDT, if there is one.
    pub dsdts: &'a [AmlContents<'a>],
    /// FACS: the first is the FACS, if there is one.
    pub facs: &'a [FacsContents],
}
