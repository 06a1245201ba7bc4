// Made by scripts/erase of crates/acpi_c_interrupts/src/routes.rt, where it is proved.
//! How interrupts come to the I/O APICs, by walks along the entries of the MADT.

pub mod isa_list;
mod wirings;

use crate::acpi::platform::interrupt::IoApic;
use crate::base::madt::{MadtEntry, MadtEntryIter};
use crate::c_interrupts::apics::apics;
use crate::c_interrupts::apics::madt::io_apic_record;
use crate::c_interrupts::apics::records::{Interrupt, IoApicPin};
use crate::c_interrupts::routes::wirings::Wirings;
use crate::c_lib::opening::first_fadt;
use crate::c_lib::records::Source;
use crate::c_lib::refusal::Refusal;
use crate::c_lib::regions::Mapped;

/// The global system interrupt of one of the 16 ISA interrupts.
pub fn isa(source: &Source<'_>, irq: u8) -> Result<Interrupt, Refusal> {
    let memory = Mapped::new(source.regions);
    let madt = apics(&memory, source)?;
    Wirings::among(madt.bytes()).isa(irq)
}

/// The global system interrupt of the System Control Interrupt.
pub fn sci(source: &Source<'_>) -> Result<Interrupt, Refusal> {
    let memory = Mapped::new(source.regions);
    let madt = apics(&memory, source)?;
    let fadt = first_fadt(&memory, source)?;
    Wirings::among(madt.bytes()).sci(fadt.sci_interrupt())
}

/// The I/O APIC that a global system interrupt comes to, and the pin there.
pub fn pin(source: &Source<'_>, interrupt: u32) -> Result<IoApicPin, Refusal> {
    let memory = Mapped::new(source.regions);
    let madt = apics(&memory, source)?;
    let io_apic = nearest(madt.bytes(), interrupt).ok_or(Refusal::NoSuchIoApic)?;
    Ok(IoApicPin { io_apic: io_apic_record(&io_apic), pin: interrupt - io_apic.global_system_interrupt_base })
}

/// The first I/O APIC of the greatest base that is at most the interrupt.
fn nearest(table: &[u8], interrupt: u32) -> Option<IoApic> {
    let mut found = None;
    for entry in MadtEntryIter::over(table) {
        let Some(io_apic) = io_apic(&entry) else {
            continue;
        };
        if io_apic.global_system_interrupt_base <= interrupt && is_nearer(found, &io_apic) {
            found = Some(io_apic);
        }
    }
    found
}

/// The I/O APIC that an entry is, if it is one.
pub(crate) fn io_apic(entry: &MadtEntry) -> Option<IoApic> {
    match entry {
        MadtEntry::IoApic(e) => Some(IoApic {
            id: e.io_apic_id,
            address: e.io_apic_address,
            global_system_interrupt_base: e.global_system_interrupt_base,
        }),
        _ => None,
    }
}

/// Whether an I/O APIC is nearer than the one so far.
fn is_nearer(found: Option<IoApic>, io_apic: &IoApic) -> bool {
    match found {
        Some(other) => other.global_system_interrupt_base < io_apic.global_system_interrupt_base,
        None => true,
    }
}
