// Made by scripts/erase of crates/acpi_c_lib/src/tables.rt, where it is proved.
//! The tables that the root table lists.

use crate::acpi::sdt::{SdtHeader, Signature};
use crate::acpi::{Accept, AcpiHandler, AcpiResult, AcpiTables, PhysicalMapping, PhysicalRecord, Pointers};
use crate::base::bytes::filled;
use crate::base::table::own_valid_by;
use crate::c_lib::lists::{Listing, fill};
use crate::c_lib::opening::{check_policy, find_fadt, open};
use crate::c_lib::records::{self, AmlTable, Source, Table};
use crate::c_lib::refusal::Refusal;
use crate::c_lib::regions::Mapped;

/// A table, by its mapping.
pub(crate) fn entry<H: AcpiHandler>(table: &PhysicalMapping<'_, H, SdtHeader>) -> Table {
    let header = table.get();
    Table {
        address: table.physical_start(),
        length: header.length,
        signature: records::Signature { letters: header.signature.to_bytes() },
        revision: header.revision,
        oem_id: header.oem_id,
        oem_table_id: header.oem_table_id,
        reserved_1: 0,
        oem_revision: header.oem_revision,
        creator_id: filled(table.bytes(), 28), // Creator ID
        creator_revision: header.creator_revision,
        reserved_2: [0; 4],
    }
}

impl<H: AcpiHandler> Listing<AcpiTables<'_, H, Accept>, Table> for Pointers<'_> {
    fn record(tables: &AcpiTables<'_, H, Accept>, address: u64) -> Option<Table> {
        let table = tables.own_sdt_at(address).ok()?;
        Some(entry(&table))
    }
}

/// Lists all tables that are valid under the signatures that they bear.
pub fn tables(source: &Source<'_>, out: &mut [Table]) -> Result<usize, Refusal> {
    let memory = Mapped::new(source.regions)?;
    let tables = open(&memory, source)?;
    Ok(fill(tables.addresses(), &tables, out))
}

/// The first valid table of a signature.
pub fn find(source: &Source<'_>, name: records::Signature) -> Result<Table, Refusal> {
    let memory = Mapped::new(source.regions)?;
    let tables = open(&memory, source)?;
    let table = tables.find_sdt(signature_named(name))?;
    Ok(entry(&table))
}

/// The table at an address, listed or not. Of a source only the regions and what it accepts count.
pub fn table_there(source: &Source<'_>, address: u64) -> Result<Table, Refusal> {
    let memory = Mapped::new(source.regions)?;
    check_policy(source)?;
    let table = own_valid_by(&memory, address, source.accept)?.mapping::<SdtHeader>();
    Ok(entry(&table))
}

/// The signature of four letters.
pub fn signature_named(name: records::Signature) -> Signature {
    Signature::from_bytes(name.letters)
}

/// The AML of the DSDT that the first valid FADT names.
pub fn dsdt(source: &Source<'_>) -> Result<AmlTable, Refusal> {
    let memory = Mapped::new(source.regions)?;
    let tables = open(&memory, source)?;
    let fadt = find_fadt(&tables)?;
    let aml = aml_at(&tables, Signature::DSDT, fadt.dsdt_address()?)?;
    Ok(aml)
}

/// The AML of the table at an address, if it is accepted under a signature.
fn aml_at<H: AcpiHandler>(
    tables: &AcpiTables<'_, H, Accept>,
    signature: Signature,
    address: u64,
) -> AcpiResult<AmlTable> {
    let table = tables.sdt_at(address, signature)?;
    Ok(AmlTable {
        address: address + SdtHeader::MIN_LENGTH as u64,
        length: (table.bytes().len() - SdtHeader::MIN_LENGTH) as u32,
        revision: table.revision,
        reserved: [0; 3],
        table_address: address,
    })
}

/// Lists the AML of all valid SSDTs.
pub fn ssdts(source: &Source<'_>, out: &mut [AmlTable]) -> Result<usize, Refusal> {
    let memory = Mapped::new(source.regions)?;
    let tables = open(&memory, source)?;
    Ok(fill(tables.addresses(), &tables, out))
}

impl<H: AcpiHandler> Listing<AcpiTables<'_, H, Accept>, AmlTable> for Pointers<'_> {
    fn record(tables: &AcpiTables<'_, H, Accept>, address: u64) -> Option<AmlTable> {
        aml_at(tables, Signature::SSDT, address).ok()
    }
}
