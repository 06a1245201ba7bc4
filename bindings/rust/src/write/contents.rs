// Made by scripts/erase of crates/acpi_writer/src/contents.rt, where it is proved.
//! The tables that an XSDT can list, each from its contents.

use crate::acpi::HpetInfo;
use crate::base::Signature;
use crate::base::mcfg::McfgEntry;
pub use crate::table_writer::contents::SlitContents;
use crate::table_writer::error::WriterError;
use crate::table_writer::gtdt::GtdtContents;
use crate::table_writer::ids::TableIds;
use crate::table_writer::listed::Listed;
use crate::table_writer::madt::MadtContents;
use crate::table_writer::madt::gic::GicContents;
use crate::table_writer::mcfg::Regions;
use crate::table_writer::srat::SratContents;
use crate::write::aml::Aml;
use crate::write::bgrt::BgrtContents;
use crate::write::fadt::FadtContents;
use crate::write::spcr::SpcrContents;

/// What a table of AML is to have after its header (section 5.2.11).
#[derive(Clone, Copy, Debug)]
pub struct AmlContents<'a> {
    /// Revision: by 1 AML's integers have 32 bits, by 2 they have 64.
    pub revision: u8,
    /// The AML bytes, taken as they are.
    pub bytes: &'a [u8],
}

/// A table that an XSDT can list, with its contents. Each is written as the function of its name writes it.
#[derive(Clone, Copy, Debug)]
#[non_exhaustive]
pub enum TableContents<'a> {
    /// `write_madt`.
    Madt(MadtContents<'a>),
    /// `write_mcfg`.
    Mcfg(&'a [McfgEntry]),
    /// `write_hpet`.
    Hpet(HpetInfo),
    /// `write_slit`.
    Slit(SlitContents<'a>),
    /// `write_ssdt`.
    Ssdt(AmlContents<'a>),
    /// `write_fadt`. `dsdt_address` is where the machine's DSDT is.
    Fadt(FadtContents),
    /// `write_srat`.
    Srat(SratContents<'a>),
    /// `write_spcr`.
    Spcr(SpcrContents<'a>),
    /// `write_bgrt`.
    Bgrt(BgrtContents),
    /// `write_gtdt`.
    Gtdt(GtdtContents<'a>),
    /// `write_gic_madt`.
    GicMadt(GicContents<'a>),
}

impl Listed for TableContents<'_> {
    fn size(&self, ids: &TableIds) -> Result<usize, WriterError> {
        match self {
            TableContents::Madt(contents) => contents.size(ids),
            TableContents::Mcfg(regions) => Regions(regions).size(ids),
            TableContents::Hpet(info) => info.size(ids),
            TableContents::Slit(contents) => contents.size(ids),
            TableContents::Ssdt(contents) => Aml(Signature::SSDT, *contents).size(ids),
            TableContents::Fadt(contents) => contents.size(ids),
            TableContents::Srat(contents) => contents.size(ids),
            TableContents::Spcr(contents) => contents.size(ids),
            TableContents::Bgrt(contents) => contents.size(ids),
            TableContents::Gtdt(contents) => contents.size(ids),
            TableContents::GicMadt(contents) => contents.size(ids),
        }
    }

    fn put(&self, out: &mut [u8], ids: &TableIds) {
        match self {
            TableContents::Madt(contents) => contents.put(out, ids),
            TableContents::Mcfg(regions) => Regions(regions).put(out, ids),
            TableContents::Hpet(info) => Listed::put(info, out, ids),
            TableContents::Slit(contents) => contents.put(out, ids),
            TableContents::Ssdt(contents) => Aml(Signature::SSDT, *contents).put(out, ids),
            TableContents::Fadt(contents) => contents.put(out, ids),
            TableContents::Srat(contents) => contents.put(out, ids),
            TableContents::Spcr(contents) => Listed::put(contents, out, ids),
            TableContents::Bgrt(contents) => Listed::put(contents, out, ids),
            TableContents::Gtdt(contents) => Listed::put(contents, out, ids),
            TableContents::GicMadt(contents) => contents.put(out, ids),
        }
    }
}
