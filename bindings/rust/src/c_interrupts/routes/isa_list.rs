// Made by scripts/erase of crates/acpi_c_interrupts/src/routes/isa_list.rt, where it is proved.
//! How all ISA interrupts come to the I/O APICs, by one walk along the overrides and one along the I/O APICs.

use crate::acpi::platform::interrupt::IoApic;
use crate::base::madt::MadtEntryIter;
use crate::c_interrupts::apics::apics;
use crate::c_interrupts::apics::madt::io_apic_record;
use crate::c_interrupts::apics::records::{self, Interrupt, IoApicPin, IsaInterrupts, IsaRoute};
use crate::c_interrupts::routes::io_apic;
use crate::c_interrupts::routes::wirings::Wirings;
use crate::c_lib::answer::answer;
use crate::c_lib::records::{Signature, Source};
use crate::c_lib::refusal::Refusal;
use crate::c_lib::regions::Mapped;

/// The number that C gets of the 16 ISA interrupts, each with its pin.
pub fn isa_interrupts(source: &Source<'_>, out: &mut IsaInterrupts, named: &mut Signature) -> u32 {
    answer(isa_list(source, out), &mut (), named)
}

/// Writes the 16 ISA interrupts, each with its pin. They are written in place, since a copy takes much of the stack.
fn isa_list(source: &Source<'_>, out: &mut IsaInterrupts) -> Result<(), Refusal> {
    let memory = Mapped::new(source.regions);
    let madt = apics(&memory, source)?;
    write_routes(madt.bytes(), &mut out.routes);
    Ok(())
}

/// Writes the routes of a MADT that describes APICs.
fn write_routes(table: &[u8], routes: &mut [IsaRoute; 16]) {
    write_interrupts(table, routes);
    for entry in MadtEntryIter::over(table) {
        if let Some(io_apic) = io_apic(&entry) {
            meet_all(routes, &io_apic);
        }
    }
}

/// Writes each ISA interrupt, without its pin.
fn write_interrupts(table: &[u8], routes: &mut [IsaRoute; 16]) {
    let wirings = Wirings::among(table);
    for irq in 0..16 {
        routes[irq] = without_pin(wirings.isa(irq as u8));
    }
}
/// Of each interrupt, the pin of this I/O APIC if it is nearer than the one so far.
fn meet_all(routes: &mut [IsaRoute; 16], io_apic: &IoApic) {
    for irq in 0..16 {
        routes[irq] = meet(routes[irq], io_apic);
    }
}

/// Of an interrupt, the pin of this I/O APIC if it is nearer than the one so far.
fn meet(route: IsaRoute, io_apic: &IoApic) -> IsaRoute {
    let interrupt = route.interrupt.global_system_interrupt;
    let base = io_apic.global_system_interrupt_base;
    let is_nearer = route.has_pin == 0 || route.pin.io_apic.global_system_interrupt_base < base;
    if route.present == 0 || base > interrupt || !is_nearer {
        return route;
    }
    let pin = IoApicPin { io_apic: io_apic_record(io_apic), pin: interrupt - base };
    IsaRoute { interrupt: route.interrupt, pin, present: 1, has_pin: 1, reserved: [0; 2] }
}

/// An interrupt, if there is one, that comes to no I/O APIC so far.
fn without_pin(interrupt: Result<Interrupt, Refusal>) -> IsaRoute {
    match interrupt {
        Ok(interrupt) => IsaRoute { interrupt, present: 1, ..no_route() },
        Err(_) => no_route(),
    }
}

/// No interrupt: zeros.
fn no_route() -> IsaRoute {
    IsaRoute {
        interrupt: Interrupt { global_system_interrupt: 0, polarity: 0, trigger: 0, reserved: [0; 2] },
        pin: IoApicPin {
            io_apic: records::IoApic { address: 0, global_system_interrupt_base: 0, id: 0, reserved: [0; 3] },
            pin: 0,
        },
        present: 0,
        has_pin: 0,
        reserved: [0; 2],
    }
}
