// Made by scripts/erase of crates/acpi_c_lib/src/copied.rt, where it is proved.
//! A start by a copy of the RSDP, as a loader passes it.

use crate::acpi::rsdp::{Rsdp, map_accepted_rsdp, read_accepted};
use crate::base::bytes::{has_bit, u8_in};
use crate::c_lib::records::Source;
use crate::c_lib::refusal::Refusal;
use crate::c_lib::regions::{Mapped, Region};

/// A source with a start at the root table that a copy of the RSDP points to (section 5.2.5.3). A copy of revision 0,
/// and one that the source accepts by its first 20 bytes, has at least these, and another all bytes of its Length.
///
/// Fails as a start at an RSDP does, with `MapFailed` if the copy has too few bytes.
pub fn start_of_rsdp<'k>(copy: &[u8], source: Source<'k>) -> Result<Source<'k>, Refusal> {
    let mut first = [0; 36];
    let regions = [Region { address: 0, bytes: padded(copy, source.accept, &mut first) }];
    let memory = Mapped::new(&regions)?;
    let rsdp = map_accepted_rsdp(&memory, 0, source.accept)?;
    let rsdp = read_accepted(&memory, &rsdp, source.accept);
    Ok(started_by(source, &rsdp))
}

/// The source with a start at the root table that an RSDP points to.
fn started_by<'k>(source: Source<'k>, rsdp: &Rsdp) -> Source<'k> {
    let (start, address) = match rsdp.xsdt_address() {
        None | Some(0) => (1, u64::from(rsdp.rsdt_address())),
        Some(address) => (2, address),
    };
    Source { regions: source.regions, address, start, accept: source.accept }
}

/// Whether a copy of at least 20 bytes ends after these: its revision is 0, or by the bits of `accept` they are enough
/// and it has no 36.
fn ends_early(copy: &[u8], accept: u32) -> bool {
    let revision = u8_in(copy, 15);
    let is_first_enough = has_bit(accept as u64, 4) || (has_bit(accept as u64, 3) && revision == 1);
    revision == 0 || (copy.len() < 36 && is_first_enough)
}

/// The bytes of the copy; if it ends after 20, these and zeros.
fn padded<'a>(copy: &'a [u8], accept: u32, zeros: &'a mut [u8; 36]) -> &'a [u8] {
    if copy.len() < 20 || !ends_early(copy, accept) {
        return copy;
    }
    first_part(copy, zeros)
}

/// The 20 bytes that the copy begins with, before zeros.
fn first_part<'a>(copy: &[u8], zeros: &'a mut [u8; 36]) -> &'a [u8] {
    zeros[..20].copy_from_slice(&copy[..20]);
    zeros
}
