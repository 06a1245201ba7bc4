// Made by scripts/erase of crates/acpi/src/rsdp/bios.rt, where it is proved.
//! The search for the RSDP in the firmware's areas, on systems that boot by a BIOS (section 5.2.5.1).

use super::{RawBytes, Rsdp, map_accepted_rsdp};
use crate::base::bytes::{filled_in, u16_in};
use crate::base::{AcpiError, AcpiResult, Lender, PhysicalMapping};

/// An area of physical memory in which firmware may put the RSDP (section 5.2.5.1).
#[derive(Clone, Copy, Debug)]
#[non_exhaustive]
pub struct Area {
    /// Its first address.
    pub start: u64,
    /// The first address after it.
    pub end: u64,
}

/// The read-only memory of the BIOS, which is searched first.
const FIRST_AREA: Area = Area { start: 0xe0000, end: 0x100000 };

/// The area that is searched after 0xe0000..0x100000, by the word at 0x40e: the first KiB of the extended
/// BIOS data area (EBDA), whose address is 16 times the word; if that is under 0x80000, or 0x9ffff or above,
/// all of the memory that it may be in, 0x80000..0xa0000 (section 5.2.5.1).
pub fn second_area(word: u16) -> Area {
    let start = 16 * word as u64;
    if start >= 0x80000 && start < 0x9ffff {
        Area { start, end: start + 1024 }
    } else {
        Area { start: 0x80000, end: 0xa0000 }
    }
}

/// Whether the signature of an RSDP is at an offset.
fn has_signature(bytes: &[u8], offset: usize) -> bool {
    let signature: [u8; 8] = filled_in(bytes, offset);
    signature == *b"RSD PTR "
}

/// The least valid candidate of an area that is mapped, with the 16 bytes after it, as these bytes.
fn first_candidate<'h, H: Lender>(
    handler: &'h H,
    area: Area,
    bytes: &[u8],
    accept: u32,
) -> Option<PhysicalMapping<'h, H, Rsdp>> {
    let candidates = (area.end - area.start - 4) / 16;
    for k in 0..candidates {
        let offset = 16 * k;
        // nearly all lack the signature, and that shows without a request for each
        if !has_signature(bytes, offset as usize) {
            continue;
        }
        if let Ok(found) = map_accepted_rsdp(handler, area.start + offset, accept) {
            return Some(found);
        }
    }
    None
}

/// The least valid candidate of an area, if it has one.
///
/// Fails with `MapFailed` if the area isn't mapped with the 16 bytes after it.
fn search_area<'h, H: Lender>(
    handler: &'h H,
    area: Area,
    accept: u32,
) -> AcpiResult<Option<PhysicalMapping<'h, H, Rsdp>>> {
    let length = (area.end - area.start + 16) as usize;
    let mapping = PhysicalMapping::<'h, H, RawBytes>::map(handler, area.start, length)?;
    Ok(first_candidate(handler, area, mapping.bytes(), accept))
}

/// The word at 40:0Eh of the BIOS data area, the segment of the EBDA: it names the second area.
fn area_word<H: Lender>(handler: &H) -> AcpiResult<u16> {
    let word = PhysicalMapping::<'_, H, RawBytes>::map(handler, 0x40e, 2)?;
    Ok(u16_in(word.bytes(), 0))
}

/// The least valid candidate of the area that is searched last.
///
/// Fails with `MapFailed` if the area isn't mapped with the 16 bytes after it, and with `NoValidRsdp` if no
/// candidate is left.
fn search_last<'h, H: Lender>(handler: &'h H, area: Area, accept: u32) -> AcpiResult<PhysicalMapping<'h, H, Rsdp>> {
    search_area(handler, area, accept)?.ok_or(AcpiError::NoValidRsdp)
}

impl Rsdp {
    /// The RSDP of a system that boots by a BIOS (section 5.2.5.1): a mapping of the 36 bytes of
    /// the least valid candidate of the first area, or of the second if the first has none.
    ///
    /// Candidates are every 16 bytes from the start of an area, with 20 bytes inside it. The
    /// first area is 0xe0000..0x100000. The second is the first 1024 bytes of the extended BIOS
    /// data area, which begins at 16 times the word at 0x40e; if that address is under 0x80000, or
    /// 0x9ffff or above, the second area is 0x80000..0xa0000. It is requested only if the first area
    /// has no valid RSDP, and each is requested with 16 bytes after it. A candidate that fails any
    /// check is skipped, also one that isn't mapped to its length's end.
    ///
    /// Each area is requested in one piece, so a handler whose regions follow the firmware's memory
    /// map, in which video memory cuts the second area, maps too little: pass the search one that has
    /// each area in one region. It takes at most as many steps as there are candidates times the
    /// length that one claims, as far as that is mapped.
    ///
    /// Fails with `MapFailed` if the word or an area that is requested isn't mapped, and with
    /// `NoValidRsdp` if no candidate is left.
    pub fn search_for_on_bios<'h, H: Lender>(handler: &'h H) -> AcpiResult<PhysicalMapping<'h, H, Rsdp>> {
        Rsdp::search_for_on_bios_accepting(handler, 0)
    }

    /// The RSDP that the bits of `accept` accept, of a system that boots by a BIOS: as `search_for_on_bios` finds the
    /// first valid one. `read_accepted` reads it.
    ///
    /// Fails as `search_for_on_bios` does.
    pub fn search_for_on_bios_accepting<'h, H: Lender>(
        handler: &'h H,
        accept: u32,
    ) -> AcpiResult<PhysicalMapping<'h, H, Rsdp>> {
        match area_word(handler) {
            Ok(word) => match search_area(handler, FIRST_AREA, accept) {
                Ok(Some(found)) => Ok(found),
                Ok(None) => search_last(handler, second_area(word), accept),
                Err(error) => Err(error),
            },
            Err(error) => Err(error),
        }
    }
}
