// Made by scripts/erase of crates/acpi_numa/src/srat/domains.rt, where it is proved.
//! The proximity domains of processors (sections 5.2.16.1, 5.2.16.3 and 5.2.16.4).

use super::entry::ProcessorId;
use super::walk::SratEntryIter;

/// The proximity domains in a SRAT's bytes (section 5.2.16). It needs no handler.
#[derive(Clone, Copy, Debug)]
pub struct Domains<'a> {
    table: &'a [u8],
}

impl<'a> Domains<'a> {
    /// The proximity domains in a SRAT's bytes (section 5.2.16), from the table's first byte on. In fewer
    /// than 50 bytes there is no entry.
    pub fn over(table: &'a [u8]) -> Self {
        Domains { table }
    }

    /// The entries of the SRAT, of types 0 to 6, in order (section 5.2.16).
    pub fn entries(&self) -> SratEntryIter<'a> {
        SratEntryIter::over(self.table)
    }

    /// Proximity Domain of the processor whose local APIC or x2APIC has this id: that of the last enabled
    /// entry of type 0 or 2 with this id (sections 5.2.16.1 and 5.2.16.3), or `None` if there is none.
    /// Entries after a malformed one don't count.
    pub fn domain_of_apic(&self, apic_id: u32) -> Option<u32> {
        self.domain_of(ProcessorId::Apic(apic_id))
    }

    /// Proximity Domain of the processor with this ACPI Processor UID, which has an interface to the GIC:
    /// that of the last enabled GICC Affinity Structure, type 3, with this UID (section 5.2.16.4), or `None`
    /// if there is none. Entries after a malformed one don't count.
    pub fn domain_of_processor(&self, uid: u32) -> Option<u32> {
        self.domain_of(ProcessorId::Uid(uid))
    }

    /// The domain of the last entry that has one for a processor, or `None` if there is none.
    fn domain_of(&self, processor: ProcessorId) -> Option<u32> {
        let mut found = None;
        let mut entries = self.entries();
        while let Some(entry) = entries.next() {
            if let Some(domain) = entry.domain_of(processor) {
                found = Some(domain);
            }
        }
        found
    }
}
