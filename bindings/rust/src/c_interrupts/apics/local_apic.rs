// Made by scripts/erase of crates/acpi_c_interrupts/src/apics/local_apic.rt, where it is proved.
//! The address of the local APICs, by the MADT alone (section 5.2.12).

use crate::acpi::madt::Madt;
use crate::acpi::{Lender, PhysicalMapping};
use crate::base::model::MadtItem;
use crate::c_interrupts::apics::records::LocalApic;
use crate::c_lib::opening::first;
use crate::c_lib::records::Source;
use crate::c_lib::refusal::Refusal;
use crate::c_lib::regions::Mapped;

/// The address of the local APICs, and whether the machine has 8259s too, by the first valid MADT. What is wrong with
/// its other entries changes nothing, and neither does the FADT.
pub fn local_apic(source: &Source<'_>) -> Result<LocalApic, Refusal> {
    let memory = Mapped::new(source.regions);
    let madt = first::<Madt>(&memory, source)?;
    Ok(LocalApic { address: address_in(&madt), also_has_8259: madt.supports_8259() as u8, reserved: [0; 7] })
}

/// The address in the last Local APIC Address Override of a MADT, or else in its own field.
fn address_in<H: Lender>(madt: &PhysicalMapping<'_, H, Madt>) -> u64 {
    let mut address = madt.local_apic_address as u64;
    for item in madt.items() {
        if let MadtItem::LocalApicAddress(other) = item {
            address = other;
        }
    }
    address
}
