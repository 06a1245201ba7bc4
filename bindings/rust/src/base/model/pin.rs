// Made by scripts/erase of crates/acpi_base/src/model/pin.rt, where it is proved.
//! The I/O APIC and its pin that a global system interrupt comes to (section 5.2.12.3).

use super::interrupt::{Apic, IoApic};
use crate::alloc::Allocator;

/// A pin of an I/O APIC, that a global system interrupt comes to (section 5.2.12.3).
#[derive(Clone, Copy, Debug)]
#[non_exhaustive]
pub struct IoApicPin<'a> {
    /// I/O APIC: the controller.
    pub io_apic: &'a IoApic,
    /// The number of the controller's pin, counted from 0: the interrupt less Global System Interrupt Base.
    pub pin: u32,
}

impl<A: Allocator> Apic<A> {
    /// The I/O APIC that a global system interrupt comes to, and the pin there (section 5.2.12.3). Of the
    /// I/O APICs whose Global System Interrupt Base is at most the interrupt, it is the first one with the
    /// greatest base; the pin is the interrupt less that base. It is `None` if every base is above the
    /// interrupt.
    ///
    /// The number of pins of an I/O APIC is in its own registers, and in no table. Compare the pin with
    /// that number: if it is not below it, the interrupt comes to no pin.
    pub fn io_apic_for(&self, global_system_interrupt: u32) -> Option<IoApicPin<'_>> {
        pin_for(self.io_apics.as_slice(), global_system_interrupt)
    }
}

/// What `Apic::io_apic_for` returns, by the I/O APICs.
fn pin_for(io_apics: &[IoApic], interrupt: u32) -> Option<IoApicPin<'_>> {
    let mut found: Option<&IoApic> = None;
    for io_apic in io_apics {
        let base = io_apic.global_system_interrupt_base;
        let is_nearer = match found {
            Some(other) => other.global_system_interrupt_base < base,
            None => true,
        };
        if base <= interrupt && is_nearer {
            found = Some(io_apic);
        }
    }
    let io_apic = found?;
    Some(IoApicPin { io_apic, pin: interrupt - io_apic.global_system_interrupt_base })
}
