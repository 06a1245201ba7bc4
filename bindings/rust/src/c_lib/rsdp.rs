// Made by scripts/erase of crates/acpi_c_lib/src/rsdp.rt, where it is proved.
//! The RSDP of a source (section 5.2.5.3).

use crate::acpi::rsdp::{Rsdp, read_accepted};
use crate::c_lib::opening::{check_policy, find_rsdp};
use crate::c_lib::records::{self, Source};
use crate::c_lib::refusal::Refusal;
use crate::c_lib::regions::Mapped;

/// The RSDP of a source. The root table isn't looked at.
pub fn rsdp(source: &Source<'_>) -> Result<records::Rsdp, Refusal> {
    let memory = Mapped::new(source.regions)?;
    check_policy(source)?;
    let found = find_rsdp(&memory, source)?;
    let rsdp = read_accepted(&memory, &found, source.accept);
    Ok(rsdp_record(found.physical_start(), &rsdp))
}

/// An RSDP at an address.
fn rsdp_record(address: u64, rsdp: &Rsdp) -> records::Rsdp {
    records::Rsdp {
        address,
        xsdt_address: rsdp.xsdt_address().unwrap_or(0),
        rsdt_address: rsdp.rsdt_address(),
        length: rsdp.length().unwrap_or(20),
        revision: rsdp.revision(),
        oem_id: rsdp.oem_id,
        reserved: 0,
    }
}
