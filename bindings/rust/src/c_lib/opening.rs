// Made by scripts/erase of crates/acpi_c_lib/src/opening.rt, where it is proved.
//! How the tables that a caller names are opened.

use crate::acpi::fadt::{Fadt, FadtView};
use crate::acpi::root::{RootKind, RootPointer};
use crate::acpi::rsdp::{Rsdp, bios_areas, map_accepted_rsdp, read_accepted};
use crate::acpi::sdt::Signature;
use crate::acpi::{Accept, AcpiHandler, AcpiResult, AcpiTables, PhysicalMapping, PhysicalRecord, SdtTable};
use crate::base::table::ValidTable;
use crate::c_lib::records::{Root, Source};
use crate::c_lib::refusal::Refusal;
use crate::c_lib::regions::Mapped;

/// The tables of a source, by what it accepts.
///
/// Fails as `check_policy` and `root_pointer` do, and with the error of the table there.
pub fn open<'h, H: AcpiHandler>(handler: &'h H, source: &Source<'_>) -> Result<AcpiTables<'h, H, Accept>, Refusal> {
    let (tables, _) = open_placed(handler, source)?;
    Ok(tables)
}

/// Those tables, and the address and the length of the RSDP, unless the start is at a root table.
///
/// Fails as `open` does.
pub(crate) fn open_placed<'h, H: AcpiHandler>(
    handler: &'h H,
    source: &Source<'_>,
) -> Result<(AcpiTables<'h, H, Accept>, Option<(u64, u32)>), Refusal> {
    check_policy(source)?;
    let (pointer, place) = root_pointer(handler, source)?;
    let accept = Accept { bits: source.accept };
    let tables = AcpiTables::open_accepting(handler, pointer, accept)?;
    Ok((tables, place))
}

/// What points to the root table by a source's start: 0 the RSDP at its address (section 5.2.5.3), 1 the RSDT there
/// (section 5.2.7), 2 the XSDT there (section 5.2.8), 3 the RSDP in the BIOS areas (section 5.2.5.1), and 4 the RSDP in
/// these as far as they are mapped; and the address and the length of the RSDP, if it is one.
///
/// Fails with the error of the RSDP or the search for it, and with `UnknownStart` for an unknown start.
pub(crate) fn root_pointer<H: AcpiHandler>(
    handler: &H,
    source: &Source<'_>,
) -> Result<(RootPointer, Option<(u64, u32)>), Refusal> {
    let (revision, kind) = match source.start {
        1 => (0, RootKind::Rsdt),
        2 => (2, RootKind::Xsdt),
        _ => {
            let found = find_rsdp(handler, source)?;
            let rsdp = read_accepted(handler, &found, source.accept);
            let place = (found.physical_start(), rsdp.length().unwrap_or(20));
            return Ok((rsdp.root(), Some(place)));
        }
    };
    let pointer = RootPointer { revision, kind, address: source.address };
    Ok((pointer, None))
}

/// Fails with `UnknownPolicy` if `accept` of a source has other bits than the five that there are.
pub(crate) fn check_policy(source: &Source<'_>) -> Result<(), Refusal> {
    if source.accept > 31 {
        return Err(Refusal::UnknownPolicy);
    }
    Ok(())
}

/// The RSDP of a source's start.
///
/// Fails with `UnknownStart` for a start at a root table, and an unknown one.
pub(crate) fn find_rsdp<'h, H: AcpiHandler>(
    handler: &'h H,
    source: &Source<'_>,
) -> Result<PhysicalMapping<'h, H, Rsdp>, Refusal> {
    let rsdp = match source.start {
        0 => map_accepted_rsdp(handler, source.address, source.accept)?,
        3 => Rsdp::search_for_on_bios_accepting(handler, source.accept)?,
        4 => Rsdp::search_in_accepting(handler, &bios_areas(ebda(handler)), source.accept)?,
        _ => return Err(Refusal::UnknownStart),
    };
    Ok(rsdp)
}

/// The segment of the extended BIOS data area (EBDA), which is the word at 0x40e (section 5.2.5.1).
pub(crate) fn ebda_segment<H: AcpiHandler>(handler: &H) -> AcpiResult<u16> {
    let word = PhysicalMapping::<'_, H, u16>::map(handler, 0x40e, 2)?;
    Ok(*word.get())
}

/// The address of the EBDA, if its segment is mapped.
pub(crate) fn ebda<H: AcpiHandler>(handler: &H) -> Option<u64> {
    let segment = ebda_segment(handler).ok()?;
    Some(16 * segment as u64)
}

/// The bytes of the first table of a source that it accepts under a signature and a least length, in the memory
/// of its regions: it ends below 2^64.
///
/// Fails as `Mapped::new` does, then as `open` does, and then with `TableMissing` if none is listed that is accepted.
#[inline(never)]
fn first_of<'h, 'k>(
    memory: &'h Result<Mapped<'k>, Refusal>,
    source: &Source<'_>,
    signature: Signature,
    least: usize,
) -> Result<ValidTable<'h, Mapped<'k>>, Refusal> {
    let memory = match memory {
        Ok(memory) => memory,
        Err(refusal) => return Err(*refusal),
    };
    let tables = open(memory, source)?;
    let found = tables.find_bytes(signature, least)?;
    Ok(found)
}

/// The first table of a source that it accepts as one of a type.
///
/// Fails as `first_of` does.
pub fn first<'h, 'k, T: SdtTable>(
    memory: &'h Result<Mapped<'k>, Refusal>,
    source: &Source<'_>,
) -> Result<PhysicalMapping<'h, Mapped<'k>, T>, Refusal> {
    match first_of(memory, source, T::NAME, T::MIN_LENGTH) {
        Ok(found) => Ok(found.mapping()),
        Err(refusal) => Err(refusal),
    }
}

/// The first FADT of a source that it accepts, of which a field is read when it is requested.
///
/// Fails as `first_of` does.
pub fn first_fadt<'h, 'k>(
    memory: &'h Result<Mapped<'k>, Refusal>,
    source: &Source<'_>,
) -> Result<FadtView<'h, Mapped<'k>>, Refusal> {
    match first_of(memory, source, Signature::FADT, Fadt::MIN_LENGTH) {
        Ok(found) => Ok(FadtView::new(found)),
        Err(refusal) => Err(refusal),
    }
}

/// The first FADT that tables have. It takes the lookup that all types share, so a program that only reads the FADT
/// links no other.
///
/// Fails as `AcpiTables::find_bytes` does.
pub fn find_fadt<'h, H: AcpiHandler>(tables: &AcpiTables<'h, H, Accept>) -> AcpiResult<FadtView<'h, H>> {
    Ok(FadtView::new(tables.find_bytes(Signature::FADT, Fadt::MIN_LENGTH)?))
}

/// The root table of a source.
pub fn root(source: &Source<'_>) -> Result<Root, Refusal> {
    let memory = Mapped::new(source.regions)?;
    let (tables, place) = open_placed(&memory, source)?;
    let (rsdp_address, rsdp_length) = place.unwrap_or((0, 0));
    Ok(Root {
        address: tables.root_address(),
        length: tables.root_length(),
        revision: tables.revision(),
        pointer_width: tables.root_kind().width() as u8,
        reserved_1: [0; 2],
        rsdp_address,
        rsdp_length,
        reserved_2: [0; 4],
    })
}
