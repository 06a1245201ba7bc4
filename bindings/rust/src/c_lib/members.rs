// Made by scripts/erase of crates/acpi_c_lib/src/members.rt, where it is proved.
//! What each pointer of the root table points to.

use crate::acpi::sdt::SdtHeader;
use crate::acpi::{AcpiHandler, PhysicalMapping, PhysicalRecord, Pointers};
use crate::base::table::own_valid_by;
use crate::c_lib::lists::{Listing, fill};
use crate::c_lib::opening::open;
use crate::c_lib::records::{Member, Signature, Source, Table};
use crate::c_lib::refusal::{Refusal, acpi_code};
use crate::c_lib::regions::Mapped;
use crate::c_lib::tables::entry;

/// Lists what each pointer of the root table points to.
pub fn members(source: &Source<'_>, out: &mut [Member]) -> Result<usize, Refusal> {
    let memory = Mapped::new(source.regions)?;
    let tables = open(&memory, source)?;
    Ok(fill(tables.addresses(), &(&memory, source.accept), out))
}

impl<'h, H: AcpiHandler> Listing<(&'h H, u32), Member> for Pointers<'_> {
    fn record(known: &(&'h H, u32), address: u64) -> Option<Member> {
        let (handler, accept) = *known;
        Some(member_at(handler, accept, address))
    }
}

/// What an address of the root table points to.
fn member_at<H: AcpiHandler>(handler: &H, accept: u32, address: u64) -> Member {
    let status = member_status(handler, accept, address);
    match PhysicalMapping::<'_, H, SdtHeader>::map(handler, address, SdtHeader::MIN_LENGTH) {
        Ok(head) => Member { table: entry(&head), status, has_header: 1, reserved: [0; 3] },
        Err(_) => Member { table: unmapped(address), status, has_header: 0, reserved: [0; 3] },
    }
}

/// 0 if the table at an address is accepted under its own signature, or else the number of its error.
fn member_status<H: AcpiHandler>(handler: &H, accept: u32, address: u64) -> u32 {
    match own_valid_by(handler, address, accept) {
        Ok(table) => {
            table.mapping::<SdtHeader>();
            0
        }
        Err(error) => acpi_code(error),
    }
}

/// A table whose header isn't mapped.
fn unmapped(address: u64) -> Table {
    Table {
        address,
        length: 0,
        signature: Signature { letters: [0; 4] },
        revision: 0,
        oem_id: [0; 6],
        oem_table_id: [0; 8],
        reserved_1: 0,
        oem_revision: 0,
        creator_id: [0; 4],
        creator_revision: 0,
        reserved_2: [0; 4],
    }
}
