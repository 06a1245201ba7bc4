// Made by scripts/erase of crates/acpi_numa/src/srat/entry.rt, where it is proved.
//! One entry of a SRAT (section 5.2.16).

use super::affinities::MemoryRange;
use super::kinds::{
    GenericAffinity, GicItsAffinity, GiccAffinity, LocalApicAffinity, LocalX2ApicAffinity, MemoryAffinity,
    generic_affinity_at, gic_its_affinity_at, gicc_affinity_at, local_apic_affinity_at, local_x2apic_affinity_at,
    memory_affinity_at,
};
use crate::base::bytes::has_bit;
use crate::base::entries::{EntryLayout, Grammar, Place, Width};

/// A processor, by the id that entries of a SRAT name it by.
#[derive(Clone, Copy, Debug)]
pub(super) enum ProcessorId {
    /// The id of its local APIC or x2APIC (sections 5.2.16.1 and 5.2.16.3).
    Apic(u32),
    /// Its ACPI Processor UID, if it has an interface to the GIC (section 5.2.16.4).
    Uid(u32),
}

/// An entry of a SRAT, of types 0 to 6, with its fields (section 5.2.16).
#[derive(Clone, Copy, Debug)]
#[non_exhaustive]
pub enum SratEntry {
    /// Processor Local APIC/SAPIC Affinity Structure, type 0 (section 5.2.16.1): a processor, by the id of
    /// its local APIC.
    LocalApic(LocalApicAffinity),
    /// Memory Affinity Structure, type 1 (section 5.2.16.2): a range of memory.
    Memory(MemoryAffinity),
    /// Processor Local x2APIC Affinity Structure, type 2 (section 5.2.16.3): a processor, by the id of its
    /// local x2APIC.
    LocalX2Apic(LocalX2ApicAffinity),
    /// GICC Affinity Structure, type 3 (section 5.2.16.4): a processor with an interface to the GIC, by its
    /// ACPI Processor UID.
    Gicc(GiccAffinity),
    /// GIC Interrupt Translation Service (ITS) Affinity Structure, type 4 (section 5.2.16.5).
    GicIts(GicItsAffinity),
    /// Generic Initiator Affinity Structure, type 5 (section 5.2.16.6): a device that reads and writes
    /// memory by itself.
    GenericInitiator(GenericAffinity),
    /// Generic Port Affinity Structure, type 6 (section 5.2.16): a port that devices are attached to.
    GenericPort(GenericAffinity),
}

/// How the bytes of a SRAT are cut into entries (section 5.2.16): Type and Length have one byte each, types
/// 0 to 6 have at least 16, 40, 24, 18, 12, 32 and 32 bytes, and others at least 2.
pub const SRAT_GRAMMAR: Grammar<7> = Grammar {
    layout: EntryLayout {
        kind_place: Place { at: 0, width: Width::One },
        length_place: Place { at: 1, width: Width::One },
        least_lengths: [16, 40, 24, 18, 12, 32, 32],
        least_of_others: 2,
    },
    most: None,
};

impl SratEntry {
    /// The entry that bytes mean in a table of a revision, or `None` if its type isn't one of 0 to 6.
    ///
    /// # Panics
    ///
    /// Panics if there is no byte, and may if the entry is shorter than one of its type.
    pub fn read(revision: u8, entry: &[u8]) -> Option<SratEntry> {
        match entry[0] {
            0 => Some(SratEntry::LocalApic(local_apic_affinity_at(revision, entry))),
            1 => Some(SratEntry::Memory(memory_affinity_at(revision, entry))),
            2 => Some(SratEntry::LocalX2Apic(local_x2apic_affinity_at(entry))),
            3 => Some(SratEntry::Gicc(gicc_affinity_at(entry))),
            4 => Some(SratEntry::GicIts(gic_its_affinity_at(entry))),
            5 => Some(SratEntry::GenericInitiator(generic_affinity_at(entry))),
            6 => Some(SratEntry::GenericPort(generic_affinity_at(entry))),
            _ => None,
        }
    }

    /// Enabled (bit 0 of the flags): whether the entry counts, or `None` for a GIC ITS Affinity Structure,
    /// which has no flags (section 5.2.16).
    pub fn is_enabled(&self) -> Option<bool> {
        let flags = match self {
            SratEntry::LocalApic(entry) => entry.flags,
            SratEntry::Memory(entry) => entry.flags,
            SratEntry::LocalX2Apic(entry) => entry.flags,
            SratEntry::Gicc(entry) => entry.flags,
            SratEntry::GicIts(_) => return None,
            SratEntry::GenericInitiator(entry) | SratEntry::GenericPort(entry) => entry.flags,
        };
        Some(has_bit(flags as u64, 0)) // Enabled
    }

    /// The domain that an enabled entry has for a processor.
    pub(super) fn domain_of(&self, processor: ProcessorId) -> Option<u32> {
        match processor {
            ProcessorId::Apic(apic_id) => self.apic_domain(apic_id),
            ProcessorId::Uid(uid) => self.processor_domain(uid),
        }
    }

    /// The domain that an enabled entry has for the processor whose local APIC has this id.
    fn apic_domain(&self, apic_id: u32) -> Option<u32> {
        match self {
            SratEntry::LocalApic(entry) => given_by(entry.flags, entry.apic_id as u32 == apic_id, entry.domain),
            SratEntry::LocalX2Apic(entry) => given_by(entry.flags, entry.x2apic_id == apic_id, entry.domain),
            _ => None,
        }
    }

    /// The range of memory that the entry puts into a domain (Memory Affinity, section 5.2.16.2), or `None` if it is
    /// of another type, isn't enabled, or has no byte.
    pub fn memory_range(&self) -> Option<MemoryRange> {
        match self {
            SratEntry::Memory(entry) if has_bit(entry.flags as u64, 0) && entry.length > 0 => Some(MemoryRange {
                domain: entry.domain,
                base: entry.base,
                length: entry.length,
                is_hot_pluggable: entry.is_hot_pluggable(),
                is_non_volatile: entry.is_non_volatile(),
            }),
            _ => None,
        }
    }

    /// The domain that an enabled entry has for the processor of this uid, which has an interface to the
    /// GIC.
    fn processor_domain(&self, uid: u32) -> Option<u32> {
        match self {
            SratEntry::Gicc(entry) => given_by(entry.flags, entry.processor_uid == uid, entry.domain),
            _ => None,
        }
    }
}

/// A domain, if it counts by the flags of its entry and the entry is the one that is meant.
fn given_by(flags: u32, is_meant: bool, domain: u32) -> Option<u32> {
    // Enabled.
    if has_bit(flags as u64, 0) && is_meant { Some(domain) } else { None }
}
