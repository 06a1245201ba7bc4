// Made by scripts/erase of crates/acpi_base/src/tables/madt/entry.rt, where it is proved.
//! One entry of a MADT (section 5.2.12).

mod readings;

use super::apic::{
    InterruptSourceOverrideEntry, IoApicEntry, LocalApicAddressOverrideEntry, LocalApicEntry, LocalApicNmiEntry,
    LocalX2ApicEntry, NmiSourceEntry, X2ApicNmiEntry,
};
use super::gic::{GicInterruptTranslationServiceEntry, GicMsiFrameEntry, GicRedistributorEntry, GiccEntry, GicdEntry};
use super::sapic::{IoSapicEntry, LocalSapicEntry, PlatformInterruptSourceEntry};
use super::wakeup::MultiprocessorWakeupEntry;
use crate::base::entries::{EntryLayout, Grammar, Place, Width};
use crate::base::memory::handler::PhysicalRecord;

/// Type and Length: the two bytes that each entry of a MADT begins with (section 5.2.12).
#[derive(Clone, Copy, Debug)]
#[repr(C)]
#[non_exhaustive]
pub struct EntryHeader {
    /// Type: the entry's type.
    pub entry_type: u8,
    /// Length: how many bytes the entry has, with these two.
    pub length: u8,
}

/// An entry of a MADT, of types 0 to 0x10, with its fields (section 5.2.12).
#[derive(Clone, Copy, Debug)]
#[repr(u8)]
pub enum MadtEntry {
    /// Processor Local APIC, type 0x00 (section 5.2.12.2).
    LocalApic(LocalApicEntry),
    /// I/O APIC, type 0x01 (section 5.2.12.3).
    IoApic(IoApicEntry),
    /// Interrupt Source Override, type 0x02 (section 5.2.12.5).
    InterruptSourceOverride(InterruptSourceOverrideEntry),
    /// NMI Source, type 0x03 (section 5.2.12.6).
    NmiSource(NmiSourceEntry),
    /// Local APIC NMI, type 0x04 (section 5.2.12.7).
    LocalApicNmi(LocalApicNmiEntry),
    /// Local APIC Address Override, type 0x05 (section 5.2.12.8).
    LocalApicAddressOverride(LocalApicAddressOverrideEntry),
    /// I/O SAPIC, type 0x06 (section 5.2.12.9).
    IoSapic(IoSapicEntry),
    /// Local SAPIC, type 0x07 (section 5.2.12.10).
    LocalSapic(LocalSapicEntry),
    /// Platform Interrupt Source, type 0x08 (section 5.2.12.11).
    PlatformInterruptSource(PlatformInterruptSourceEntry),
    /// Processor Local x2APIC, type 0x09 (section 5.2.12.12).
    LocalX2Apic(LocalX2ApicEntry),
    /// Local x2APIC NMI, type 0x0a (section 5.2.12.13).
    X2ApicNmi(X2ApicNmiEntry),
    /// GIC CPU Interface (GICC), type 0x0b (section 5.2.12.14).
    Gicc(GiccEntry),
    /// GIC Distributor (GICD), type 0x0c (section 5.2.12.15).
    Gicd(GicdEntry),
    /// GIC MSI Frame, type 0x0d (section 5.2.12.16).
    GicMsiFrame(GicMsiFrameEntry),
    /// GIC Redistributor (GICR), type 0x0e (section 5.2.12.17).
    GicRedistributor(GicRedistributorEntry),
    /// GIC Interrupt Translation Service (ITS), type 0x0f (section 5.2.12.18).
    GicInterruptTranslationService(GicInterruptTranslationServiceEntry),
    /// Multiprocessor Wakeup, type 0x10 (section 5.2.12.19).
    MultiprocessorWakeup(MultiprocessorWakeupEntry),
}

/// The least length of an entry of each of these types, from type 0 on.
const LEAST_LENGTHS: [usize; 17] = [
    LocalApicEntry::MIN_LENGTH,
    IoApicEntry::MIN_LENGTH,
    InterruptSourceOverrideEntry::MIN_LENGTH,
    NmiSourceEntry::MIN_LENGTH,
    LocalApicNmiEntry::MIN_LENGTH,
    LocalApicAddressOverrideEntry::MIN_LENGTH,
    IoSapicEntry::MIN_LENGTH,
    LocalSapicEntry::MIN_LENGTH,
    PlatformInterruptSourceEntry::MIN_LENGTH,
    LocalX2ApicEntry::MIN_LENGTH,
    X2ApicNmiEntry::MIN_LENGTH,
    GiccEntry::MIN_LENGTH,
    GicdEntry::MIN_LENGTH,
    GicMsiFrameEntry::MIN_LENGTH,
    GicRedistributorEntry::MIN_LENGTH,
    GicInterruptTranslationServiceEntry::MIN_LENGTH,
    MultiprocessorWakeupEntry::MIN_LENGTH,
];

/// How the table's bytes are cut into entries: the type and the length have one byte each.
pub const MADT_GRAMMAR: Grammar<17> = Grammar {
    layout: EntryLayout {
        kind_place: Place { at: 0, width: Width::One },
        length_place: Place { at: 1, width: Width::One },
        least_lengths: LEAST_LENGTHS,
        least_of_others: 2,
    },
    most: None,
};

impl MadtEntry {
    /// The last type that is defined.
    pub(crate) const LAST_TYPE: usize = 0x10;

    /// The entry that bytes mean, of a type that is defined.
    #[inline(always)]
    pub(crate) fn read(entry: &[u8]) -> MadtEntry {
        match entry[0] {
            0x00 => MadtEntry::LocalApic(LocalApicEntry::read(entry)),
            0x01 => MadtEntry::IoApic(IoApicEntry::read(entry)),
            0x02 => MadtEntry::InterruptSourceOverride(InterruptSourceOverrideEntry::read(entry)),
            0x03 => MadtEntry::NmiSource(NmiSourceEntry::read(entry)),
            0x04 => MadtEntry::LocalApicNmi(LocalApicNmiEntry::read(entry)),
            0x05 => MadtEntry::LocalApicAddressOverride(LocalApicAddressOverrideEntry::read(entry)),
            0x06 => MadtEntry::IoSapic(IoSapicEntry::read(entry)),
            0x07 => MadtEntry::LocalSapic(LocalSapicEntry::read(entry)),
            0x08 => MadtEntry::PlatformInterruptSource(PlatformInterruptSourceEntry::read(entry)),
            0x09 => MadtEntry::LocalX2Apic(LocalX2ApicEntry::read(entry)),
            0x0a => MadtEntry::X2ApicNmi(X2ApicNmiEntry::read(entry)),
            0x0b => MadtEntry::Gicc(GiccEntry::read(entry)),
            0x0c => MadtEntry::Gicd(GicdEntry::read(entry)),
            0x0d => MadtEntry::GicMsiFrame(GicMsiFrameEntry::read(entry)),
            0x0e => MadtEntry::GicRedistributor(GicRedistributorEntry::read(entry)),
            0x0f => MadtEntry::GicInterruptTranslationService(GicInterruptTranslationServiceEntry::read(entry)),
            0x10 => MadtEntry::MultiprocessorWakeup(MultiprocessorWakeupEntry::read(entry)),
            _ => unreachable!(),
        }
    }
}
