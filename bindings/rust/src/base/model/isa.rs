// Made by scripts/erase of crates/acpi_base/src/model/isa.rt, where it is proved.
//! ISA interrupts, and the one that carries the machine's events, as Interrupt Source Overrides wire them
//! (section 5.2.12.5).

use super::interrupt::{Apic, InterruptSourceOverride, Polarity, TriggerMode};
use super::isa_overrides::IsaOverrides;
use crate::alloc::Allocator;

/// An interrupt as it comes to the I/O APICs: an ISA interrupt, or the one that carries the machine's events
/// (sections 5.2.9 and 5.2.12.5).
#[derive(Clone, Copy, Debug)]
#[non_exhaustive]
pub struct IsaInterrupt {
    /// Global System Interrupt: its number. `Apic::io_apic_for` returns the I/O APIC and the pin.
    pub global_system_interrupt: u32,
    /// Polarity: the level at which the interrupt counts as raised, `ActiveHigh` or `ActiveLow`.
    pub polarity: Polarity,
    /// Trigger Mode: what raises the interrupt, `Edge` or `Level`.
    pub trigger_mode: TriggerMode,
}

impl<A: Allocator> Apic<A> {
    /// Global System Interrupt of one of the 16 ISA interrupts, by the Interrupt Source Overrides (section
    /// 5.2.12.5).
    ///
    /// Of the overrides of a source the last one counts. If `irq` has an override, the result is what that
    /// leads to, with ISA's own `ActiveHigh` and `Edge` in place of `SameAsBus`. Otherwise it is the interrupt
    /// of the same number, `ActiveHigh` and `Edge`.
    ///
    /// It is `None` if `irq` is above 15. It is `None` too if `irq` has no override, but that of
    /// another source leads to the interrupt of the number `irq`, since that input is taken: here
    /// too only the last override of a source counts, and sources above 15 count as well.
    ///
    /// The interrupt that the FADT has as `sci_interrupt` is returned by the function of that name:
    /// it is not of the ISA bus, and is raised in another way.
    pub fn isa_interrupt(&self, irq: u8) -> Option<IsaInterrupt> {
        gathered(self.interrupt_source_overrides.as_slice()).isa_interrupt(irq)
    }

    /// Global System Interrupt of the SCI, the interrupt that carries the machine's events, of the number
    /// that the FADT has as SCI_INT (`Fadt::sci_interrupt`; section 5.2.9: it may be shared, and is
    /// raised by the low level).
    ///
    /// Below 16 it is wired by the last Interrupt Source Override of that ISA source (section
    /// 5.2.12.5), with `ActiveLow` and `Level` in place of `SameAsBus`. Without an override, and from 16
    /// on, it is the interrupt of that number, `ActiveLow` and `Level`.
    pub fn sci_interrupt(&self, sci: u16) -> IsaInterrupt {
        gathered(self.interrupt_source_overrides.as_slice()).sci_interrupt(sci)
    }
}

/// How the overrides wire the ISA interrupts.
fn gathered(overrides: &[InterruptSourceOverride]) -> IsaOverrides {
    let mut gathered = IsaOverrides::new();
    for wiring in overrides {
        gathered.add(wiring);
    }
    gathered
}

/// The interrupt that an Interrupt Source Override leads to (section 5.2.12.5). If its flags conform to the bus, it has
/// this polarity and this trigger mode.
pub(super) fn wired(wiring: &InterruptSourceOverride, polarity: Polarity, trigger_mode: TriggerMode) -> IsaInterrupt {
    IsaInterrupt {
        global_system_interrupt: wiring.global_system_interrupt,
        polarity: match wiring.polarity {
            Polarity::SameAsBus => polarity,
            given => given,
        },
        trigger_mode: match wiring.trigger_mode {
            TriggerMode::SameAsBus => trigger_mode,
            given => given,
        },
    }
}

/// The interrupt whose global system interrupt has its own number, since it has no override, with this polarity and
/// this trigger mode (section 5.2.12.5).
pub(super) fn straight(number: u32, polarity: Polarity, trigger_mode: TriggerMode) -> IsaInterrupt {
    IsaInterrupt { global_system_interrupt: number, polarity, trigger_mode }
}
