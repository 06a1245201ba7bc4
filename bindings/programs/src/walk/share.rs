// Made by scripts/erase of crates/acpi_dump_walk/src/share.rt, where it is proved.
//! What the entries of an SRAT put in which domain.

use crate::rattle::Vec;
use crate::rattle::alloc::{AllocError, Global};
use zacpi::base::bytes::skip;
use zacpi::base::entries::split_front;
use zacpi::numa::srat::{SRAT_GRAMMAR, SratEntry};
use zacpi::sdt::field;

/// In place of a processor's number, for a range of memory.
pub const MEMORY: u64 = u64::MAX;

/// A processor or a range of memory of a domain.
#[derive(Clone, Copy)]
pub struct Share {
    pub domain: u32,
    /// The number of the processor, or `MEMORY`.
    pub number: u64,
    /// Whether that is the ID of a local APIC, and not a UID.
    pub is_apic: bool,
    /// How many bytes the range has.
    pub size: u64,
}

/// What the entry of an SRAT enables that bytes begin with: a processor or a range of memory (section 5.2.16). An entry
/// of type 7 is a RISC-V hart's.
pub fn share_of(srat: &[u8], bytes: &[u8]) -> Option<Share> {
    let revision = field(srat, 8, 1) as u8; // Revision
    let (entry, _) = split_front(&SRAT_GRAMMAR, bytes)?;
    let (flags, domain, number, is_apic, size) = match SratEntry::read(revision, entry) {
        Some(SratEntry::LocalApic(it)) => (it.flags, it.domain, it.apic_id as u64, true, 0),
        Some(SratEntry::LocalX2Apic(it)) => (it.flags, it.domain, it.x2apic_id as u64, true, 0),
        Some(SratEntry::Gicc(it)) => (it.flags, it.domain, it.processor_uid as u64, false, 0),
        Some(SratEntry::Memory(it)) => (it.flags, it.domain, MEMORY, false, it.length),
        None if field(entry, 0, 1) == 7 => {
            let (flags, domain) = (field(entry, 12, 4), field(entry, 4, 4));
            (flags as u32, domain as u32, field(entry, 8, 4), false, 0)
        }
        _ => return None,
    };
    (flags & 1 != 0).then_some(Share { domain, number, is_apic, size })
}

/// What the entries of an SRAT enable, up to one that isn't whole.
///
/// Fails if memory runs out.
pub fn shares_of(alloc: Global, srat: &[u8]) -> Result<Vec<Share>, AllocError> {
    let mut shares = Vec::new(alloc);
    let mut rest = skip(srat, 48);
    while let Some((_, others)) = split_front(&SRAT_GRAMMAR, rest) {
        if let Some(share) = share_of(srat, rest) {
            shares.push(share)?;
        }
        rest = others;
    }
    Ok(shares)
}
