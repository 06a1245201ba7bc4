// Made by scripts/erase of crates/acpi_base/src/model/entry_flags.rt, where it is proved.
//! The flags of a MADT's entries by name, so that no caller masks bits (section 5.2.12).

use super::interrupt::{Polarity, TriggerMode};
use super::item::{polarity_of, trigger_mode_of};
use crate::base::bytes::has_bit;
use crate::base::error::MadtError;
use crate::base::tables::madt::{LocalApicEntry, LocalApicNmiEntry, LocalX2ApicEntry, X2ApicNmiEntry};

/// Online Capable in the Local APIC Flags of a table of a revision.
fn online_capable(flags: u32, revision: u8) -> bool {
    revision >= 5 && has_bit(flags as u64, 1) // Online Capable, since ACPI 6.3
}

impl LocalApicEntry {
    /// Enabled (bit 0 of the flags, section 5.2.12.2): whether the processor can be used.
    pub fn is_enabled(&self) -> bool {
        has_bit(self.flags as u64, 0) // Enabled
    }

    /// Online Capable (bit 1 of the flags, section 5.2.12.2): whether the processor can be enabled later, if
    /// it isn't now. `revision` is the MADT's: below 5, where the bit is reserved, it is false.
    pub fn is_online_capable(&self, revision: u8) -> bool {
        online_capable(self.flags, revision)
    }
}

impl LocalX2ApicEntry {
    /// Enabled (bit 0 of the flags, section 5.2.12.12): whether the processor can be used.
    pub fn is_enabled(&self) -> bool {
        has_bit(self.flags as u64, 0) // Enabled
    }

    /// Online Capable (bit 1 of the flags, section 5.2.12.12): whether the processor can be enabled later, if
    /// it isn't now. `revision` is the MADT's: below 5, where the bit is reserved, it is false.
    pub fn is_online_capable(&self, revision: u8) -> bool {
        online_capable(self.flags, revision)
    }
}

impl LocalApicNmiEntry {
    /// Polarity (bits 0 and 1 of MPS INTI Flags, section 5.2.12.7): the level at which the NMI counts as
    /// raised.
    ///
    /// Fails for the reserved code 2 with `MpsIntiInvalidPolarity`.
    pub fn polarity(&self) -> Result<Polarity, MadtError> {
        polarity_of(self.flags)
    }

    /// Trigger Mode (bits 2 and 3 of MPS INTI Flags, section 5.2.12.7): what raises the NMI.
    ///
    /// Fails for the reserved code 2 with `MpsIntiInvalidTriggerMode`.
    pub fn trigger_mode(&self) -> Result<TriggerMode, MadtError> {
        trigger_mode_of(self.flags)
    }
}

impl X2ApicNmiEntry {
    /// Polarity (bits 0 and 1 of MPS INTI Flags, section 5.2.12.13): the level at which the NMI counts as
    /// raised.
    ///
    /// Fails for the reserved code 2 with `MpsIntiInvalidPolarity`.
    pub fn polarity(&self) -> Result<Polarity, MadtError> {
        polarity_of(self.flags)
    }

    /// Trigger Mode (bits 2 and 3 of MPS INTI Flags, section 5.2.12.13): what raises the NMI.
    ///
    /// Fails for the reserved code 2 with `MpsIntiInvalidTriggerMode`.
    pub fn trigger_mode(&self) -> Result<TriggerMode, MadtError> {
        trigger_mode_of(self.flags)
    }
}
