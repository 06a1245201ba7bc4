// Made by scripts/erase of crates/acpi_view_lib/src/lines.rt, where it is proved.
//! The lines that the program prints. Each function appends its lines to a text.

mod platform;

use crate::rattle::alloc::{AllocError, Allocator, Global};
use crate::rattle::{String, TryClone};
use core::fmt::Write;
pub use platform::print_platform;
use zacpi::bgrt::Bgrt;
use zacpi::fadt::Fadt;
use zacpi::hpet::HpetTable;
use zacpi::madt::Madt;
use zacpi::mcfg::Mcfg;
use zacpi::spcr::Spcr;
use zacpi::{AcpiError, AcpiHandler, AcpiResult, AcpiTable, AcpiTables, AmlTable, HpetInfo, PciConfigRegions};

/// The lines of each part of the tables, in this order: the revision, the valid tables' headers, the AML of the
/// DSDT and of the SSDTs, the platform, the HPET, the regions of PCI configuration space, the boot graphic
/// (BGRT) and the serial console (SPCR). A part with an error is one line that has the reason.
///
/// Fails if memory for the text runs out.
pub fn print_parts<H: AcpiHandler>(
    alloc: Global,
    tables: &AcpiTables<'_, H>,
    text: &mut String,
) -> Result<(), AllocError> {
    print_revision(tables, text)?;
    print_headers(tables, text)?;
    print_dsdt(tables, text)?;
    print_ssdts(tables, text)?;
    print_platform(alloc, tables, text)?;
    print_hpet(tables, text)?;
    print_pci(alloc, tables, text)?;
    print_bgrt(tables, text)?;
    print_spcr(tables, text)?;
    Ok(())
}

/// `revision R`, the one that the tables were opened with.
fn print_revision<H: AcpiHandler>(tables: &AcpiTables<'_, H>, text: &mut String) -> Result<(), AllocError> {
    writeln!(text, "revision {}", tables.revision())?;
    Ok(())
}

/// A line for each table that a lookup skips as faulty, with the error, for FADT, MADT, MCFG, HPET,
/// BGRT and SPCR, in this order.
///
/// Fails if memory for the text runs out.
pub fn print_skipped_tables<H: AcpiHandler>(tables: &AcpiTables<'_, H>, text: &mut String) -> Result<(), AllocError> {
    print_skipped::<H, Fadt>(tables, text)?;
    print_skipped::<H, Madt>(tables, text)?;
    print_skipped::<H, Mcfg>(tables, text)?;
    print_skipped::<H, HpetTable>(tables, text)?;
    print_skipped::<H, Bgrt>(tables, text)?;
    print_skipped::<H, Spcr>(tables, text)
}

/// `skipped SIG ADDRESS: ERROR` for each table that the lookup of a type skips, if its signature is the
/// type's.
fn print_skipped<H: AcpiHandler, T: AcpiTable>(
    tables: &AcpiTables<'_, H>,
    text: &mut String,
) -> Result<(), AllocError> {
    for fault in tables.faults::<T>() {
        writeln!(text, "skipped {} 0x{:x}: {}", T::SIGNATURE, fault.address, fault.error)?;
    }
    Ok(())
}

/// `table SIG length L revision R` for each header.
fn print_headers<H: AcpiHandler>(tables: &AcpiTables<'_, H>, text: &mut String) -> Result<(), AllocError> {
    for header in tables.headers() {
        let (signature, length) = (header.signature, header.length);
        writeln!(text, "table {signature} length {length} revision {}", header.revision)?;
    }
    Ok(())
}

/// `dsdt ADDRESS length L` for the AML of the DSDT, or its error.
fn print_dsdt<H: AcpiHandler>(tables: &AcpiTables<'_, H>, text: &mut String) -> Result<(), AllocError> {
    match tables.dsdt() {
        Ok(stream) => print_stream("dsdt", stream, text),
        Err(refusal) => print_refusal("dsdt", refusal, text),
    }
}

/// `ssdt ADDRESS length L` for the AML of each SSDT.
fn print_ssdts<H: AcpiHandler>(tables: &AcpiTables<'_, H>, text: &mut String) -> Result<(), AllocError> {
    for stream in tables.ssdts() {
        print_stream("ssdt", stream, text)?;
    }
    Ok(())
}

/// `hpet ADDRESS number N tick T` for the event timer block, or its error.
fn print_hpet<H: AcpiHandler>(tables: &AcpiTables<'_, H>, text: &mut String) -> Result<(), AllocError> {
    let info = match HpetInfo::new(tables) {
        Ok(info) => info,
        Err(refusal) => return print_refusal("hpet", refusal, text),
    };
    let (number, tick) = (info.hpet_number, info.clock_tick_unit);
    writeln!(text, "hpet 0x{:x} number {number} tick {tick}", info.base_address)?;
    Ok(())
}

/// The lines of the regions of PCI configuration space, or the one line of their error. Memory for the regions
/// is an allocator's.
///
/// Fails if memory for the text runs out.
pub fn print_pci<H: AcpiHandler, A: Allocator + TryClone>(
    alloc: A,
    tables: &AcpiTables<'_, H>,
    text: &mut String,
) -> Result<(), AllocError> {
    print_regions(PciConfigRegions::new_in(tables, alloc), text)
}

/// `pci SEGMENT FIRST LAST ADDRESS` for each region, or their error.
fn print_regions<A: Allocator>(found: AcpiResult<PciConfigRegions<A>>, text: &mut String) -> Result<(), AllocError> {
    let regions = match found {
        Ok(regions) => regions,
        Err(refusal) => return print_refusal("pci", refusal, text),
    };
    for region in regions.iter() {
        let (first, last) = region.bus_range.into_inner();
        let (segment, address) = (region.segment_group, region.physical_address);
        writeln!(text, "pci {segment} {first} {last} 0x{address:x}")?;
    }
    Ok(())
}

/// The line of the boot graphic, or its error.
fn print_bgrt<H: AcpiHandler>(tables: &AcpiTables<'_, H>, text: &mut String) -> Result<(), AllocError> {
    match tables.find_table::<Bgrt>() {
        Ok(graphic) => print_graphic(&graphic, text),
        Err(refusal) => print_refusal("bgrt", refusal, text),
    }
}

/// `bgrt displayed yes|no angle A offset X Y`.
fn print_graphic(graphic: &Bgrt, text: &mut String) -> Result<(), AllocError> {
    let displayed = yes_or_no(graphic.was_displayed());
    let angle = graphic.orientation_offset();
    let (x, y) = graphic.image_offset();
    writeln!(text, "bgrt displayed {displayed} angle {angle} offset {x} {y}")?;
    Ok(())
}

/// `yes` if it holds, else `no`.
fn yes_or_no(holds: bool) -> &'static str {
    if holds { "yes" } else { "no" }
}

/// The line of the serial console, or its error.
fn print_spcr<H: AcpiHandler>(tables: &AcpiTables<'_, H>, text: &mut String) -> Result<(), AllocError> {
    match tables.find_table::<Spcr>() {
        Ok(console) => print_console(&console, text),
        Err(refusal) => print_refusal("spcr", refusal, text),
    }
}

/// `spcr baud B irq I gsi G`.
fn print_console(console: &Spcr, text: &mut String) -> Result<(), AllocError> {
    text.push_str("spcr")?;
    print_setting("baud", console.baud_rate(), text)?;
    print_setting("irq", console.irq().map(u32::from), text)?;
    print_setting("gsi", console.global_system_interrupt(), text)?;
    text.push_str("\n")
}

/// ` NAME N`, or ` NAME none` if there is no number.
fn print_setting(name: &str, number: Option<u32>, text: &mut String) -> Result<(), AllocError> {
    match number {
        Some(number) => write!(text, " {name} {number}")?,
        None => write!(text, " {name} none")?,
    }
    Ok(())
}

/// `PART ADDRESS length L` for a stream of AML.
fn print_stream(part: &str, stream: AmlTable, text: &mut String) -> Result<(), AllocError> {
    writeln!(text, "{part} 0x{:x} length {}", stream.address, stream.length)?;
    Ok(())
}

/// `PART: REFUSAL`, if this part has an error.
fn print_refusal(part: &str, refusal: AcpiError, text: &mut String) -> Result<(), AllocError> {
    writeln!(text, "{part}: {refusal}")?;
    Ok(())
}
