// Made by scripts/erase of crates/acpi_table_writer/src/madt/entries.rt, where it is proved.
//! The parts of a MADT, each with its bytes (section 5.2.12).

use super::{MadtNmiLine, MadtProcessor};
use crate::base::model::{NmiProcessor, Polarity, TriggerMode};
use crate::table_writer::fields::{Field, Record};
use crate::table_writer::made::madt_bytes::{
    apic_nmi_fields, local_x2apic_fields, override_address_fields, wakeup_fields, x2apic_nmi_fields,
};
use crate::table_writer::numbers::bit_of;

/// The fields between the header and the entries.
#[derive(Clone, Copy, Debug)]
pub struct Fixed {
    /// The physical address of each processor's local APIC.
    pub local_apic_address: u64,
    /// PCAT_COMPAT: the machine has a pair of 8259 controllers too.
    pub also_has_legacy_pics: bool,
}

impl Record for Fixed {
    type Fields = [Field; 2];

    fn fields(&self) -> [Field; 2] {
        let address = if self.local_apic_address < 0x100000000 { self.local_apic_address as u32 } else { 0 };
        [Field::U32(address), Field::U32(bit_of(self.also_has_legacy_pics) as u32)]
    }
}

/// The flags of a processor.
pub(crate) fn processor_flags(p: &MadtProcessor) -> u8 {
    bit_of(p.is_enabled) + 2 * bit_of(p.is_online_capable)
}

/// Whether the processor is a Processor Local APIC, in which its ids have to have a place.
fn is_small(p: &MadtProcessor) -> bool {
    !p.is_x2apic && p.processor_uid < 255 && p.local_apic_id < 255
}

impl Record for MadtProcessor {
    type Fields = [Field; 6];

    fn fields(&self) -> [Field; 6] {
        if is_small(self) {
            let (uid, id) = (self.processor_uid as u8, self.local_apic_id as u8);
            [
                Field::U8(0),
                Field::U8(8),
                Field::U8(uid),
                Field::U8(id),
                Field::U32(processor_flags(self) as u32),
                Field::Zeros(0),
            ]
        } else {
            local_x2apic_fields(self)
        }
    }
}

/// The address of the local APICs, as an entry if the fixed fields have no place for it.
#[derive(Clone, Copy, Debug)]
pub struct AddressOverride(pub(super) u64);

impl Record for AddressOverride {
    type Fields = Option<[Field; 4]>;

    fn fields(&self) -> Option<[Field; 4]> {
        if self.0 < 0x100000000 { None } else { Some(override_address_fields(self.0)) }
    }
}

/// The lower byte of MPS INTI Flags.
pub(crate) fn inti_flags(polarity: Polarity, trigger_mode: TriggerMode) -> u8 {
    polarity.code() + 4 * trigger_mode.code()
}

impl Record for MadtNmiLine {
    type Fields = [Field; 6];

    fn fields(&self) -> [Field; 6] {
        let flags = inti_flags(self.polarity, self.trigger_mode) as u16;
        let line = self.line.code();
        match self.processor {
            NmiProcessor::All => apic_nmi_fields(NmiProcessor::ALL_APICS as u8, flags, line),
            NmiProcessor::ProcessorUid(uid) if uid < NmiProcessor::ALL_APICS => apic_nmi_fields(uid as u8, flags, line),
            NmiProcessor::ProcessorUid(uid) => x2apic_nmi_fields(uid, flags, line),
        }
    }
}

/// A mailbox, if processors are woken by one.
#[derive(Clone, Copy, Debug)]
pub struct Wakeup(pub(super) Option<u64>);

impl Record for Wakeup {
    type Fields = Option<[Field; 5]>;

    fn fields(&self) -> Option<[Field; 5]> {
        match self.0 {
            Some(address) => Some(wakeup_fields(address)),
            None => None,
        }
    }
}
