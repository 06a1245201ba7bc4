// Made by scripts/erase of crates/acpi_c_devices/src/fixed.rt, where it is proved.
//! The fixed hardware.

mod readings;
pub mod records;

use crate::acpi::AcpiResult;
use crate::acpi::fadt::GpeBlock;
use crate::base::bytes::{field, u8_in};
use crate::c_devices::fixed::records::FixedHardware;
use crate::c_lib::opening::first_fadt;
use crate::c_lib::records::Source;
use crate::c_lib::refusal::Refusal;
use crate::c_lib::regions::Mapped;
use readings::fixed_record;

/// The fixed hardware of the first valid FADT.
pub fn fixed(source: &Source<'_>) -> Result<FixedHardware, Refusal> {
    let memory = Mapped::new(source.regions);
    let fadt = first_fadt(&memory, source)?;
    Ok(fixed_record(&fadt))
}

/// Hypervisor Vendor Identity, which a FADT has from revision 6 on.
fn hypervisor_id_in(table: &[u8]) -> u64 {
    if u8_in(table, 8) < 6 {
        return 0;
    }
    field(table, 268, 8)
}

/// A block of registers of general purpose events, or that there is none, or that its address is an error.
#[inline(never)]
fn gpe_record(outcome: AcpiResult<Option<GpeBlock>>) -> records::GpeBlock {
    match outcome {
        Ok(Some(block)) => records::GpeBlock {
            address: block.address,
            space: block.space.code(),
            byte_length: block.byte_length,
            present: 1,
            reserved: [0; 5],
        },
        Ok(None) => no_gpe(0),
        Err(_) => no_gpe(2),
    }
}

/// No block of general purpose events: 0 if there is none, or 2 if its address is an error.
fn no_gpe(present: u8) -> records::GpeBlock {
    records::GpeBlock { address: 0, space: 0, byte_length: 0, present, reserved: [0; 5] }
}
