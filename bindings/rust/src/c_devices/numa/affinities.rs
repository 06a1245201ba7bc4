// Made by scripts/erase of crates/acpi_c_devices/src/numa/affinities.rt, where it is proved.
//! What the SRAT puts into domains (section 5.2.16): memory, processors, generic initiators and Interrupt Translation
//! Services.

mod shown;

use crate::base::bytes::has_bit;
use crate::c_devices::known::Nothing;
use crate::c_devices::numa::records::{GenericInitiator, ItsAffinity, MemoryAffinity, ProcessorAffinity};
use crate::c_lib::lists::{Listing, fill_part};
use crate::c_lib::opening::first;
use crate::c_lib::records::Source;
use crate::c_lib::refusal::Refusal;
use crate::c_lib::regions::Mapped;
use crate::numa::srat::{SratEntry, SratEntryIter};
use crate::numa::{Domains, Srat};
use shown::{memory_affinity, processor_affinity};

/// What an entry of one type puts into a domain.
pub trait SratRecord: Copy {
    /// The record of an entry, if it is of this type.
    fn of(entry: &SratEntry) -> Option<Self>;
}

impl<R: SratRecord> Listing<Nothing, R> for SratEntryIter<'_> {
    fn record(_known: &Nothing, entry: SratEntry) -> Option<R> {
        R::of(&entry)
    }
}

/// Lists what the entries of one type of the first valid SRAT put into domains.
pub fn srat_entries<R: SratRecord>(source: &Source<'_>, out: &mut [R]) -> Result<usize, Refusal> {
    srat_entries_from(source, 0, out)
}

/// Lists from the `from`-th on, counted from 0, what the entries of one type of the first valid SRAT put into domains.
pub fn srat_entries_from<R: SratRecord>(source: &Source<'_>, from: usize, out: &mut [R]) -> Result<usize, Refusal> {
    let memory = Mapped::new(source.regions);
    let srat = first::<Srat>(&memory, source)?;
    Ok(fill_part(Domains::over(srat.bytes()).entries(), &Nothing, from, out))
}

// Memory (section 5.2.16.2). A range that ends at 2^64 or above is none.
impl SratRecord for MemoryAffinity {
    fn of(entry: &SratEntry) -> Option<MemoryAffinity> {
        memory_affinity(&entry.memory_range()?)
    }
}

// Processors, of three types (sections 5.2.16.1, 5.2.16.3 and 5.2.16.4).
impl SratRecord for ProcessorAffinity {
    fn of(entry: &SratEntry) -> Option<ProcessorAffinity> {
        match entry {
            SratEntry::LocalApic(it) => {
                let id = it.apic_id as u32;
                counted_if(it.flags, processor_affinity(0, id, it.domain, it.clock_domain))
            }
            SratEntry::LocalX2Apic(it) => {
                counted_if(it.flags, processor_affinity(2, it.x2apic_id, it.domain, it.clock_domain))
            }
            SratEntry::Gicc(it) => {
                counted_if(it.flags, processor_affinity(3, it.processor_uid, it.domain, it.clock_domain))
            }
            _ => None,
        }
    }
}

// Generic initiators (section 5.2.16.6).
impl SratRecord for GenericInitiator {
    fn of(entry: &SratEntry) -> Option<GenericInitiator> {
        match entry {
            SratEntry::GenericInitiator(it) => {
                let device = GenericInitiator {
                    domain: it.domain,
                    is_architectural: it.has_architectural_transactions() as u8,
                    handle_type: it.handle_type,
                    handle: it.device_handle,
                    reserved: [0; 2],
                };
                counted_if(it.flags, device)
            }
            _ => None,
        }
    }
}

/// An item, if the flags of its entry have bit 0, Enabled: else the entry doesn't count.
fn counted_if<R: Copy>(flags: u32, item: R) -> Option<R> {
    if has_bit(flags as u64, 0) { Some(item) } else { None }
}

// Interrupt Translation Services (section 5.2.16.5).
impl SratRecord for ItsAffinity {
    fn of(entry: &SratEntry) -> Option<ItsAffinity> {
        match entry {
            SratEntry::GicIts(it) => Some(ItsAffinity { domain: it.domain, its_id: it.its_id }),
            _ => None,
        }
    }
}
