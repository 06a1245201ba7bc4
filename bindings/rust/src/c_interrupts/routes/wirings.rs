// Made by scripts/erase of crates/acpi_c_interrupts/src/routes/wirings.rt, where it is proved.
//! How Interrupt Source Overrides of the ISA bus wire the ISA interrupts and the SCI, found by one walk along the
//! entries of a MADT (section 5.2.12.5).

mod shown;

use crate::acpi::AcpiError;
use crate::acpi::platform::interrupt::{Polarity, TriggerMode};
use crate::base::madt::{MadtEntry, MadtEntryIter};
use crate::base::model::IsaOverrides;
use crate::c_interrupts::apics::MadtRecord;
use crate::c_interrupts::apics::records::{Interrupt, InterruptSourceOverride};
use crate::c_lib::refusal::Refusal;
use crate::table_writer::spelled::StandsFor;
use shown::interrupt_record;

/// What the overrides of the ISA bus among a MADT's entries contain.
#[derive(Debug)]
pub(crate) struct Wirings {
    // All of them, where a reserved code is read as that of the bus.
    pub(crate) overrides: IsaOverrides,
    // Of each ISA interrupt its last override.
    pub(crate) own: [Option<InterruptSourceOverride>; 16],
}

impl Wirings {
    /// Those among the entries of a MADT's bytes.
    pub(crate) fn among(table: &[u8]) -> Wirings {
        let mut overrides = IsaOverrides::new();
        let mut own = [None; 16];
        for entry in MadtEntryIter::over(table) {
            if let Some(wiring) = isa_override(&entry) {
                overrides.add(&wiring.item());
                if wiring.isa_source < 16 {
                    own[wiring.isa_source as usize] = Some(wiring);
                }
            }
        }
        Wirings { overrides, own }
    }

    /// An ISA interrupt. Its own override is the only one whose codes count.
    pub(crate) fn isa(&self, irq: u8) -> Result<Interrupt, Refusal> {
        if irq < 16 {
            has_codes(self.own[irq as usize])?;
        }
        let interrupt = self.overrides.isa_interrupt(irq).ok_or(Refusal::NoSuchInterrupt)?;
        Ok(interrupt_record(&interrupt))
    }

    /// The SCI, of the number in the FADT.
    pub(crate) fn sci(&self, sci: u16) -> Result<Interrupt, Refusal> {
        if sci < 16 {
            has_codes(self.own[sci as usize])?;
        }
        Ok(interrupt_record(&self.overrides.sci_interrupt(sci)))
    }
}

/// The override of the ISA bus that an entry is, if it is one.
fn isa_override(entry: &MadtEntry) -> Option<InterruptSourceOverride> {
    match InterruptSourceOverride::said(entry) {
        Some(wiring) if wiring.bus == 0 => Some(wiring),
        _ => None,
    }
}

/// Fails for an override with a reserved code, first for its polarity and then for its trigger mode.
fn has_codes(own: Option<InterruptSourceOverride>) -> Result<(), Refusal> {
    if let Some(wiring) = own {
        Polarity::try_from(wiring.polarity).map_err(AcpiError::InvalidMadt)?;
        TriggerMode::try_from(wiring.trigger).map_err(AcpiError::InvalidMadt)?;
    }
    Ok(())
}
