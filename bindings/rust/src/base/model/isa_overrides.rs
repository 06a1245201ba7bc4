// Made by scripts/erase of crates/acpi_base/src/model/isa_overrides.rt, where it is proved.
//! Where ISA interrupts and the SCI come, by Interrupt Source Overrides that are passed one by one (section 5.2.12.5).

use super::interrupt::{InterruptSourceOverride, Polarity, TriggerMode};
use super::isa::{IsaInterrupt, straight, wired};

/// How Interrupt Source Overrides wire the 16 ISA interrupts (section 5.2.12.5). They are added one by one, in
/// the table's order, so one walk along them is enough, and no list of them is needed.
#[derive(Debug)]
pub struct IsaOverrides {
    // Of each ISA interrupt its last override.
    own: [Option<InterruptSourceOverride>; 16],
    // Of each source the global system interrupt that its last override leads to; 16 means all above 15, and
    // none.
    leads: [u8; 256],
    // How many sources lead to each of these, so that no search for one is needed.
    leading: [u16; 17],
}

impl IsaOverrides {
    /// Before the first override is added.
    pub fn new() -> IsaOverrides {
        let mut leading = [0; 17];
        leading[16] = 256;
        IsaOverrides { own: [None; 16], leads: [16; 256], leading }
    }

    /// Adds the override that comes next in the table.
    pub fn add(&mut self, wiring: &InterruptSourceOverride) {
        let source = wiring.isa_source as usize;
        let leads = wiring.global_system_interrupt.min(16) as u8;
        self.leading[self.leads[source] as usize] -= 1;
        self.leading[leads as usize] += 1;
        self.leads[source] = leads;
        if source < 16 {
            self.own[source] = Some(*wiring);
        }
    }

    /// What `Apic::isa_interrupt` returns for an ISA interrupt, if the overrides that were added are all.
    pub fn isa_interrupt(&self, irq: u8) -> Option<IsaInterrupt> {
        if irq > 15 {
            return None;
        }
        let (polarity, trigger_mode) = (Polarity::ActiveHigh, TriggerMode::Edge);
        if let Some(wiring) = self.own[irq as usize] {
            return Some(wired(&wiring, polarity, trigger_mode));
        }
        let taken = self.leading[irq as usize] > 0;
        if taken {
            return None;
        }
        Some(straight(irq as u32, polarity, trigger_mode))
    }

    /// What `Apic::sci_interrupt` returns for the SCI's number, if the overrides that were added are all.
    pub fn sci_interrupt(&self, sci: u16) -> IsaInterrupt {
        let (polarity, trigger_mode) = (Polarity::ActiveLow, TriggerMode::Level);
        if sci < 16 {
            if let Some(wiring) = self.own[sci as usize] {
                return wired(&wiring, polarity, trigger_mode);
            }
        }
        straight(sci as u32, polarity, trigger_mode)
    }
}
