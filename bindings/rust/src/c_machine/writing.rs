// Made by scripts/erase of crates/acpi_c_machine/src/writing.rt, where it is proved.
//! Tables that are written for C, from its records, as `acpi_writer` writes them.

use crate::c_devices::writing::facs;
use crate::c_devices::written_records::FacsContents;
use crate::c_lib::answer::answer_plain;
use crate::c_lib::records;
use crate::c_lib::refusal::Refusal;
use crate::c_lib::tables::signature_named;
use crate::write::spelled::Bytes;
use crate::write::{TableIds, WriterError};
pub use crate::write::{
    write_dsdt, write_rhct, write_riscv_madt, write_rsdp, write_rsdt, write_slit, write_ssdt, write_xsdt,
};

/// The number that C gets: 0, with the length of the table, or that of the error.
pub fn written(said: Result<usize, WriterError>, length: &mut usize) -> u32 {
    answer_plain(said.map_err(Refusal::Writer), length)
}

/// Writes a table of this signature, whatever it is, with these bytes after its header, as `write::write_table`
/// does.
pub fn write_table(
    out: &mut [u8],
    ids: &TableIds,
    signature: records::Signature,
    revision: u8,
    body: &[u8],
) -> Result<usize, WriterError> {
    crate::write::write_table(out, signature_named(signature), revision, ids, &Bytes(body))
}

/// Writes a FACS, as `write::write_facs` does.
pub fn write_facs(out: &mut [u8], contents: &FacsContents) -> Result<usize, WriterError> {
    crate::write::write_facs(out, &facs::facs_contents(contents))
}
