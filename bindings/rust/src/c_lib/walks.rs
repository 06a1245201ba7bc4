// Made by scripts/erase of crates/acpi_c_lib/src/walks.rt, where it is proved.
//! Walks along the members of the root table: all tables of a signature, and the memory that the tables
//! take.

use crate::acpi::fadt::FadtView;
use crate::acpi::sdt::Signature;
use crate::acpi::{Accept, AcpiError, AcpiHandler, AcpiResult, AcpiTables, Pointers};
use crate::c_lib::facs::facs_at;
use crate::c_lib::lists::Listing;
use crate::c_lib::missing::{fill_with, put_pair, range};
use crate::c_lib::opening::{find_fadt, open, open_placed};
use crate::c_lib::records::{self, Range, Source, Table};
use crate::c_lib::refusal::Refusal;
use crate::c_lib::regions::Mapped;
use crate::c_lib::tables::{entry, signature_named};

/// The `index`-th valid table with this signature, counted from 0.
pub fn nth(source: &Source<'_>, name: records::Signature, index: usize) -> Result<Table, Refusal> {
    let memory = Mapped::new(source.regions)?;
    let tables = open(&memory, source)?;
    let table = nth_of(&tables, signature_named(name), index)?;
    Ok(table)
}

/// The table of a signature at an index among all of that signature.
fn nth_of<H: AcpiHandler>(tables: &AcpiTables<'_, H, Accept>, signature: Signature, index: usize) -> AcpiResult<Table> {
    let mut before = index;
    for address in tables.addresses() {
        if let Ok(table) = tables.sdt_at(address, signature) {
            if before == 0 {
                return Ok(entry(&table));
            }
            before -= 1;
        }
    }
    Err(AcpiError::TableMissing(signature))
}

/// Lists the memory that the RSDP and the tables take.
pub fn ranges(source: &Source<'_>, out: &mut [Range]) -> Result<usize, Refusal> {
    let memory = Mapped::new(source.regions)?;
    let (tables, place) = open_placed(&memory, source)?;
    let rsdp = match place {
        Some((address, length)) => Some(range(address, length)),
        None => None,
    };
    let root = range(tables.root_address(), tables.root_length());
    let after_root = put_pair((rsdp, Some(root)), out, 0);
    let dsdt_and_facs = dsdt_and_facs_ranges(&memory, &tables);
    Ok(fill_with(tables.addresses(), &tables, dsdt_and_facs, out, after_root))
}

/// The range of a member of the root table, if it is accepted under its own signature.
impl<H: AcpiHandler> Listing<AcpiTables<'_, H, Accept>, Range> for Pointers<'_> {
    fn record(tables: &AcpiTables<'_, H, Accept>, address: u64) -> Option<Range> {
        let table = tables.own_sdt_at(address).ok()?;
        Some(range(address, table.bytes().len() as u32))
    }
}

/// The ranges of the DSDT and the FACS that the first accepted FADT points to.
fn dsdt_and_facs_ranges<H: AcpiHandler>(
    handler: &H,
    tables: &AcpiTables<'_, H, Accept>,
) -> (Option<Range>, Option<Range>) {
    match find_fadt(tables) {
        Ok(fadt) => (dsdt_range(tables, &fadt), facs_range(handler, &fadt)),
        Err(_) => (None, None),
    }
}

/// The range of the DSDT that a FADT points to (section 5.2.11.1), if it is accepted.
fn dsdt_range<H: AcpiHandler>(tables: &AcpiTables<'_, H, Accept>, fadt: &FadtView<'_, H>) -> Option<Range> {
    let address = fadt.dsdt_address().ok()?;
    let dsdt = tables.sdt_at(address, Signature::DSDT).ok()?;
    Some(range(address, dsdt.bytes().len() as u32))
}

/// The range of the FACS that a FADT points to (section 5.2.10), if it is valid.
fn facs_range<H: AcpiHandler>(handler: &H, fadt: &FadtView<'_, H>) -> Option<Range> {
    let address = fadt.facs_address().ok()?;
    let facs = facs_at(handler, address).ok()?;
    Some(range(address, facs.length))
}
