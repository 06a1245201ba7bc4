// Made by scripts/erase of crates/acpi_base/src/model/item.rt, where it is proved.
//! One entry of a MADT as an item of the interrupt model (section 5.2.12).

use super::interrupt::{
    InterruptSourceOverride, IoApic, LocalInterruptLine, NmiLine, NmiProcessor, NmiSource, Polarity, TriggerMode,
};
use crate::base::bytes::{bits, has_bit};
use crate::base::error::MadtError;
use crate::base::memory::handler::PhysicalRecord;
use crate::base::tables::madt::{
    InterruptSourceOverrideEntry, IoApicEntry, LocalApicAddressOverrideEntry, LocalApicEntry, LocalApicNmiEntry,
    LocalX2ApicEntry, NmiSourceEntry, X2ApicNmiEntry,
};

/// The item of the interrupt model that an entry encodes, if nothing is wrong with it.
#[derive(Clone, Copy, Debug)]
#[repr(u8)]
#[non_exhaustive]
pub enum MadtItem {
    /// Processor Local APIC or Local x2APIC: there is a processor.
    Processor {
        /// Its ACPI id.
        processor_uid: u32,
        /// The id of its local APIC, or of its x2APIC.
        local_apic_id: u32,
        /// Whether it can be used: bit 0 of the entry's flags.
        is_enabled: bool,
    },
    /// I/O APIC: there is one.
    IoApic(IoApic),
    /// Interrupt Source Override: an ISA interrupt is not wired one to one.
    Override(InterruptSourceOverride),
    /// NMI Source: an interrupt is non-maskable.
    NmiSource(NmiSource),
    /// Local APIC NMI or Local x2APIC NMI: the LINT pin.
    NmiLine(NmiLine),
    /// Local APIC Address Override: the local APICs have this address.
    LocalApicAddress(u64),
    /// Multiprocessor Wakeup: how processors are woken, which the model doesn't contain.
    Wakeup,
}

impl MadtItem {
    /// The item that an entry's bytes encode, or `None` if its type isn't one of 0 to 0x10. Only the fields
    /// that the model has are read, and no `MadtEntry` is made.
    ///
    /// Fails for the types of SAPICs and of the GIC with `UnexpectedEntry`, for an override of another
    /// bus than ISA with `InterruptOverrideEntryHasInvalidBus`, for reserved flags with
    /// `MpsIntiInvalidPolarity` or else `MpsIntiInvalidTriggerMode`, and for other inputs than LINT0 and
    /// LINT1 with `InvalidLocalNmiLine`.
    #[inline(always)]
    pub(super) fn of_entry(entry: &[u8]) -> Option<Result<MadtItem, MadtError>> {
        match entry[0] {
            0x00 => Some(Ok(processor_of(&LocalApicEntry::read(entry)))),
            0x01 => {
                let e = IoApicEntry::read(entry);
                Some(Ok(MadtItem::IoApic(IoApic {
                    id: e.io_apic_id,
                    address: e.io_apic_address,
                    global_system_interrupt_base: e.global_system_interrupt_base,
                })))
            }
            0x02 => {
                let e = InterruptSourceOverrideEntry::read(entry);
                Some(unless_fault(e.fault(), MadtItem::Override(e.wiring())))
            }
            0x03 => {
                let e = NmiSourceEntry::read(entry);
                Some(unless_fault(flags_fault(e.flags), MadtItem::NmiSource(e.source())))
            }
            0x04 => {
                let e = LocalApicNmiEntry::read(entry);
                let processor = NmiProcessor::from_uid(e.processor_id as u32, NmiProcessor::ALL_APICS);
                Some(line_item(processor, e.nmi_line))
            }
            0x05 => {
                let e = LocalApicAddressOverrideEntry::read(entry);
                Some(Ok(MadtItem::LocalApicAddress(e.local_apic_address)))
            }
            0x09 => Some(Ok(x2apic_processor_of(&LocalX2ApicEntry::read(entry)))),
            0x0a => {
                let e = X2ApicNmiEntry::read(entry);
                let processor = NmiProcessor::from_uid(e.processor_uid, NmiProcessor::ALL_X2APICS);
                Some(line_item(processor, e.nmi_line))
            }
            0x10 => Some(Ok(MadtItem::Wakeup)),
            kind if kind < 0x10 => Some(Err(MadtError::UnexpectedEntry)),
            _ => None,
        }
    }

    /// What is wrong with an entry's bytes, or `None` if nothing is: the error with which the strict model fails for
    /// it.
    ///
    /// # Panics
    ///
    /// Panics if the entry is shorter than one of its type.
    pub fn fault(entry: &[u8]) -> Option<MadtError> {
        match MadtItem::of_entry(entry) {
            Some(Err(fault)) => Some(fault),
            _ => None,
        }
    }
}

/// The processor of a local APIC.
#[inline(always)]
pub(super) fn processor_of(entry: &LocalApicEntry) -> MadtItem {
    MadtItem::Processor {
        processor_uid: entry.processor_id as u32,
        local_apic_id: entry.apic_id as u32,
        is_enabled: has_bit(entry.flags as u64, 0), // Enabled
    }
}

/// The processor of a local x2APIC.
#[inline(always)]
pub(super) fn x2apic_processor_of(entry: &LocalX2ApicEntry) -> MadtItem {
    MadtItem::Processor {
        processor_uid: entry.processor_uid,
        local_apic_id: entry.x2apic_id,
        is_enabled: has_bit(entry.flags as u64, 0), // Enabled
    }
}

/// The LINT pin of that number, for these processors' local APICs.
#[inline(always)]
fn line_item(processor: NmiProcessor, number: u8) -> Result<MadtItem, MadtError> {
    let line = LocalInterruptLine::try_from(number)?;
    Ok(MadtItem::NmiLine(NmiLine { processor, line }))
}

/// What is read, unless the entry has a fault.
#[inline(always)]
fn unless_fault(fault: Option<MadtError>, item: MadtItem) -> Result<MadtItem, MadtError> {
    match fault {
        Some(fault) => Err(fault),
        None => Ok(item),
    }
}

impl InterruptSourceOverrideEntry {
    /// How the interrupt is wired (section 5.2.12.5). A reserved code, which is a fault, is read as that of the bus.
    #[inline(always)]
    pub fn wiring(&self) -> InterruptSourceOverride {
        InterruptSourceOverride {
            isa_source: self.irq,
            global_system_interrupt: self.global_system_interrupt,
            polarity: polarity_of(self.flags).unwrap_or(Polarity::SameAsBus),
            trigger_mode: trigger_mode_of(self.flags).unwrap_or(TriggerMode::SameAsBus),
        }
    }

    /// What is wrong with it, if something is. The bus is tested before the flags.
    #[inline(always)]
    fn fault(&self) -> Option<MadtError> {
        if self.bus != 0 {
            return Some(MadtError::InterruptOverrideEntryHasInvalidBus);
        }
        flags_fault(self.flags)
    }
}

impl NmiSourceEntry {
    /// The interrupt that is non-maskable (section 5.2.12.6). A reserved code, which is a fault, is read as that of the
    /// bus.
    #[inline(always)]
    fn source(&self) -> NmiSource {
        NmiSource {
            global_system_interrupt: self.global_system_interrupt,
            polarity: polarity_of(self.flags).unwrap_or(Polarity::SameAsBus),
            trigger_mode: trigger_mode_of(self.flags).unwrap_or(TriggerMode::SameAsBus),
        }
    }
}

/// What is wrong with MPS INTI Flags, if something is: a reserved Polarity, or else a reserved Trigger Mode (section
/// 5.2.12.5).
#[inline(always)]
pub fn flags_fault(flags: u16) -> Option<MadtError> {
    if bits(flags as u64, 0, 2) == 2 {
        return Some(MadtError::MpsIntiInvalidPolarity);
    }
    (bits(flags as u64, 2, 2) == 2).then_some(MadtError::MpsIntiInvalidTriggerMode)
}

/// Polarity: bits 0 and 1 of an interrupt's MPS INTI Flags (section 5.2.12.5).
pub(super) fn polarity_of(flags: u16) -> Result<Polarity, MadtError> {
    Polarity::try_from(bits(flags as u64, 0, 2) as u8)
}

/// Trigger Mode: bits 2 and 3 of an interrupt's MPS INTI Flags (section 5.2.12.5).
pub(super) fn trigger_mode_of(flags: u16) -> Result<TriggerMode, MadtError> {
    TriggerMode::try_from(bits(flags as u64, 2, 2) as u8)
}
