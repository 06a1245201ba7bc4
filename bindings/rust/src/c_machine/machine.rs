// Made by scripts/erase of crates/acpi_c_machine/src/machine.rt, where it is proved.
//! The tables of a whole machine that are written for C, from the records of each table.

use crate::base::bytes::{byte_sum, field};
use crate::c_devices::fixed::records::FixedHardware;
use crate::c_devices::records::{BootGraphic, HpetInfo, PciRegion};
use crate::c_devices::writing::{bgrt, facs, fadt, hpet, spcr, srat};
use crate::c_devices::written_records::{SpcrContents, SratContents};
use crate::c_interrupts::writing::{gic, gtdt, madt};
use crate::c_interrupts::written_records::{GicContents, GtdtContents, MadtContents};
use crate::c_lib::refusal::Refusal;
use crate::c_machine::written_records::{AmlContents, ListedTable, Machine};
use crate::write::{
    Listed, TableIds, WriterError, dsdt_address, facs_address, require, write_bgrt, write_fadt, write_gic_madt,
    write_gtdt, write_hpet, write_madt, write_mcfg, write_spcr, write_srat,
};

/// What a table is to contain that is written from a record of C's.
#[derive(Clone, Copy, Debug)]
#[non_exhaustive]
pub enum Contents<'a> {
    /// A FADT.
    Fadt(FixedHardware),
    /// A MADT of a machine with APICs.
    Madt(MadtContents<'a>),
    /// An MCFG.
    Mcfg(&'a [PciRegion]),
    /// An HPET.
    Hpet(HpetInfo),
    /// An SRAT.
    Srat(SratContents<'a>),
    /// A BGRT.
    Bgrt(BootGraphic),
    /// An SPCR.
    Spcr(SpcrContents),
    /// A GTDT.
    Gtdt(GtdtContents<'a>),
    /// A MADT of a machine with a GIC.
    Gic(GicContents<'a>),
}

/// Writes the table that is to contain this.
///
/// Returns `UnknownCode` if the record has a code that is reserved, of a GIC `BadRange` if a range of redistributors
/// has 2^32 bytes or more, and then the errors of the call of `acpi_writer` for such a table, in its order.
#[inline(always)] // a call of one kind links that kind's code alone
pub fn write_contents(out: &mut [u8], ids: &TableIds, contents: &Contents<'_>) -> Result<usize, Refusal> {
    let size = match contents {
        Contents::Fadt(hardware) => write_hardware(out, ids, hardware)?,
        Contents::Madt(lists) => {
            require(madt::has_codes(lists), Refusal::UnknownCode)?;
            write_madt(out, ids, &madt::contents(lists))?
        }
        Contents::Mcfg(regions) => write_mcfg(out, ids, regions)?,
        Contents::Hpet(info) => write_hpet(out, ids, &hpet::hpet_info_of(info))?,
        Contents::Srat(domains) => write_srat(out, ids, &srat::contents(domains))?,
        Contents::Bgrt(graphic) => {
            require(bgrt::has_codes(graphic), Refusal::UnknownCode)?;
            write_bgrt(out, ids, &bgrt::contents(graphic))?
        }
        Contents::Spcr(console) => {
            require(spcr::has_codes(console), Refusal::UnknownCode)?;
            write_spcr(out, ids, &spcr::contents(console))?
        }
        Contents::Gtdt(timers) => {
            require(gtdt::has_codes(timers), Refusal::UnknownCode)?;
            write_gtdt(out, ids, &gtdt::contents(timers))?
        }
        Contents::Gic(parts) => {
            gic::check(parts)?;
            write_gic_madt(out, ids, &gic::contents(parts))?
        }
    };
    Ok(size)
}

/// Writes a FADT, with the errors of `write_contents`.
pub fn write_hardware(out: &mut [u8], ids: &TableIds, hardware: &FixedHardware) -> Result<usize, Refusal> {
    require(fadt::has_codes(hardware), Refusal::UnknownCode)?;
    Ok(write_fadt(out, ids, &fadt::contents(hardware))?)
}

impl ListedTable<'_> {
    /// Whether the bytes are one table: a header, whose Length is the number of bytes, and a sum of 0 (section 5.2.6).
    fn is_table(&self) -> bool {
        self.bytes.len() >= 36
            && field(self.bytes, 4, 4) == self.bytes.len() as u64 // Length
            && byte_sum(self.bytes) == 0
    }
}

impl Listed for ListedTable<'_> {
    fn size(&self, _: &TableIds) -> Result<usize, WriterError> {
        require((self.bytes.len() as u64) < 1 << 32, WriterError::TooLong)?;
        Ok(self.bytes.len())
    }

    fn put(&self, out: &mut [u8], _: &TableIds) {
        out.copy_from_slice(self.bytes);
    }
}

/// The DSDT of a machine, as the writer has it: the first of these, if there is one.
fn first_dsdt<'a>(dsdts: &[AmlContents<'a>]) -> Option<crate::write::AmlContents<'a>> {
    match dsdts {
        [first, ..] => Some(crate::write::AmlContents { revision: first.revision, bytes: first.aml }),
        [] => None,
    }
}

impl<'a> Machine<'a> {
    /// The machine, as the writer has it. Of several DSDTs, and of several FACS, the first counts.
    pub fn whole(&self) -> crate::write::Machine<'a, ListedTable<'a>> {
        crate::write::Machine {
            ids: self.ids,
            dsdt: first_dsdt(self.dsdts),
            facs: match self.facs {
                [first, ..] => Some(facs::facs_contents(first)),
                [] => None,
            },
            tables: self.tables,
        }
    }
}

fn are_tables(listed: &[ListedTable<'_>]) -> bool {
    listed.iter().all(|table| table.is_table())
}

/// Writes all tables of a machine to the front of a buffer that is to be at this physical address.
///
/// Returns `BadTable` if bytes that are listed aren't a table, and then the errors of `write::write_tables`, in
/// its order.
pub fn write_tables(out: &mut [u8], address: u64, machine: &Machine<'_>) -> Result<usize, Refusal> {
    require(are_tables(machine.tables), Refusal::BadTable)?;
    Ok(crate::write::write_tables(out, address, &machine.whole())?)
}

/// Writes all tables of a machine but the RSDP to the front of a buffer that is to be at this physical address.
///
/// Returns `BadTable` if bytes that are listed aren't a table, and then the errors of
/// `write::write_tables_without_rsdp`, in its order.
pub fn write_tables_without_rsdp(out: &mut [u8], address: u64, machine: &Machine<'_>) -> Result<usize, Refusal> {
    require(are_tables(machine.tables), Refusal::BadTable)?;
    Ok(crate::write::write_tables_without_rsdp(out, address, &machine.whole())?)
}

/// How many bytes `write_tables` writes, or the first error but of capacity and address.
pub fn tables_size(machine: &Machine<'_>) -> Result<usize, Refusal> {
    require(are_tables(machine.tables), Refusal::BadTable)?;
    Ok(crate::write::tables_size(&machine.whole())?)
}

/// The address at which `write_tables` puts the DSDT of a machine with `tables` tables, or `NoAddress`.
pub fn dsdt_place(address: u64, tables: usize) -> Result<u64, Refusal> {
    dsdt_address(address, tables).ok_or(Refusal::Writer(WriterError::NoAddress))
}

/// The address at which `write_tables` puts the FACS of a machine with `tables` tables and, as its DSDT, the first of
/// these, if there is one, or `NoAddress`.
pub fn facs_place(address: u64, tables: usize, dsdts: &[AmlContents<'_>]) -> Result<u64, Refusal> {
    facs_address(address, tables, first_dsdt(dsdts)).ok_or(Refusal::Writer(WriterError::NoAddress))
}
