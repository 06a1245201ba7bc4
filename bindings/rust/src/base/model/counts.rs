// Made by scripts/erase of crates/acpi_base/src/model/counts.rt, where it is proved.
//! The number of items to gather, or the refusal.

use super::item::MadtItem;
use crate::base::bytes::skip;
use crate::base::entries::split_front;
use crate::base::error::{AcpiError, AcpiResult, MadtError};
use crate::base::memory::handler::PhysicalRecord;
use crate::base::tables::madt::{MADT_GRAMMAR, Madt};

/// How many items of each sort the entries have, whether any entry is of a model of APICs, and where the local APICs
/// lie.
#[derive(Clone, Copy, Debug)]
#[non_exhaustive]
pub struct Counts {
    /// The processors, the boot processor among them: Processor Local APIC and Local x2APIC entries.
    pub processors: usize,
    /// The I/O APICs.
    pub io_apics: usize,
    /// The Interrupt Source Override entries.
    pub overrides: usize,
    /// The interrupts of I/O APICs that are non-maskable: NMI Source entries.
    pub nmi_sources: usize,
    /// The LINT pins that NMIs arrive at: Local APIC NMI and Local x2APIC NMI entries.
    pub nmi_lines: usize,
    /// Whether any entry is of a model of APICs.
    pub is_of_apic: bool,
    /// The address that the last Local APIC Address Override gives the local APICs, if there is one.
    pub local_apic_address: Option<u64>,
}

impl Counts {
    /// The counts of the items in a MADT's bytes.
    ///
    /// Fails with `InvalidMadt`, carrying the first fault: that of an entry, or `InvalidEntryLength` if bytes are left
    /// in which no entry begins.
    pub(super) fn of(table: &[u8]) -> AcpiResult<Counts> {
        let mut counts = Counts {
            processors: 0,
            io_apics: 0,
            overrides: 0,
            nmi_sources: 0,
            nmi_lines: 0,
            is_of_apic: false,
            local_apic_address: None,
        };
        let mut rest = skip(table, Madt::MIN_LENGTH);
        while let Some((entry, others)) = split_front(&MADT_GRAMMAR, rest) {
            rest = others;
            let Some(of_entry) = MadtItem::of_entry(entry) else {
                continue;
            };
            let item = match of_entry {
                Ok(item) => item,
                Err(fault) => return Err(AcpiError::InvalidMadt(fault)),
            };
            match item {
                MadtItem::Processor { .. } => counts.processors += 1,
                MadtItem::IoApic(_) => counts.io_apics += 1,
                MadtItem::Override(_) => counts.overrides += 1,
                MadtItem::NmiSource(_) => counts.nmi_sources += 1,
                MadtItem::NmiLine(_) => counts.nmi_lines += 1,
                MadtItem::LocalApicAddress(address) => counts.local_apic_address = Some(address),
                MadtItem::Wakeup => continue,
            }
            counts.is_of_apic = true;
        }
        match rest {
            [] => Ok(counts),
            [_, ..] => Err(AcpiError::InvalidMadt(MadtError::InvalidEntryLength)),
        }
    }
}
