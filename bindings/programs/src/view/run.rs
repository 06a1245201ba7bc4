// Made by scripts/erase of crates/acpi_view_lib/src/run.rt, where it is proved.
//! The program over any writers.

use crate::cli::root::Root;
use crate::image_reader::MemoryImage;
use crate::rattle::alloc::{AllocError, Global};
use crate::rattle::io::{ErrorKind, Write};
use crate::rattle::{String, format};
use crate::view::arguments::parse_command;
use crate::view::lines::{print_parts, print_skipped_tables};
use core::fmt::Display;
use zacpi::AcpiHandler;

/// How the program is called with tables to show.
pub const USAGE: &str = "usage: acpi_view IMAGE rsdt REVISION ADDRESS | rsdp ADDRESS | bios\n";

/// How many bytes are written at most at a time.
const MOST: usize = 32768;

/// Runs the program on the arguments after its name, and on the bytes of the file that the first of
/// them names, which are `None` if it can't be read. It returns the status: 0 if all is printed, 1 if
/// something fails, and 2 if the arguments are not a command.
///
/// Faults are found in this order: arguments that are not a command, a file that can't be read, the
/// errors of `MemoryImage::from_bytes`, and the errors of opening the root table. Memory that runs out for the
/// platform or for the regions of configuration space ends nothing: that part is an error, as
/// `platform: AllocError` or `pci: AllocError`. Memory that runs out for the lines ends it with status 1
/// before anything is written, and a write or a flush that fails with status 1 at that place. Both
/// outputs are flushed in the end.
pub fn run<W: Write, E: Write>(alloc: Global, words: &[&str], image: Option<&[u8]>, out: &mut W, err: &mut E) -> u8 {
    let Ok(report) = report_for(alloc, parse_command(words), image) else {
        return 1;
    };
    let is_printed = write_report(&report, out, err);
    let is_flushed = out.flush().is_ok() & err.flush().is_ok();
    if is_printed && is_flushed { report.status } else { 1 }
}

/// Writes the texts of both outputs, and returns whether all of both was taken. What was taken is a front of each.
fn write_report<W: Write, E: Write>(report: &Report, out: &mut W, err: &mut E) -> bool {
    if !write_text(out, &report.lines) {
        return false;
    }
    write_text(err, &report.complaints)
}

/// Writes a text, and returns whether all of it was taken. What was taken is a front of it.
fn write_text<W: Write>(out: &mut W, text: &str) -> bool {
    let mut rest = text.as_bytes();
    for _ in 0..u64::MAX {
        if rest.is_empty() {
            return true;
        }
        let Some(count) = write_some(out, &rest[..rest.len().min(MOST)]) else {
            return false;
        };
        rest = &rest[count..];
    }
    false
}

/// How many of the first of these bytes a write takes: 0 if a signal interrupts it, and `None` if it fails.
fn write_some<W: Write>(out: &mut W, bytes: &[u8]) -> Option<usize> {
    match out.write(bytes) {
        Ok(0) => None,
        Ok(count) => Some(count),
        Err(error) if error.kind() == ErrorKind::Interrupted => Some(0),
        Err(_) => None,
    }
}

/// What a run is to end with.
pub struct Report {
    /// The status.
    pub status: u8,
    /// The text of standard output.
    pub lines: String,
    /// The text of standard error.
    pub complaints: String,
}

/// What a run on the way to the root table ends with, or on `None` if the arguments are not a command.
///
/// Fails if memory for the lines runs out.
fn report_for(alloc: Global, asked: Option<Root>, image: Option<&[u8]>) -> Result<Report, AllocError> {
    let Some(root) = asked else {
        return Ok(Report { status: 2, lines: String::new(alloc), complaints: String::from_str(alloc, USAGE)? });
    };
    let Some(bytes) = image else {
        return refused(alloc, "Unreadable");
    };
    match MemoryImage::from_bytes(alloc, bytes) {
        Ok(image) => report_of(alloc, &image, root),
        Err(refusal) => refused(alloc, refusal),
    }
}

/// `refused: REFUSAL` and status 1: what a run ends with that fails.
///
/// Fails if memory for the line runs out.
pub fn refused<D: Display>(alloc: Global, refusal: D) -> Result<Report, AllocError> {
    Ok(Report { status: 1, lines: String::new(alloc), complaints: format!(in alloc; "refused: {refusal}\n")? })
}

/// The lines of the tables in a memory, and of the tables that are skipped.
///
/// Fails if memory for the lines runs out.
fn report_of<H: AcpiHandler>(alloc: Global, handler: &H, root: Root) -> Result<Report, AllocError> {
    let tables = match root.open(handler) {
        Ok(tables) => tables,
        Err(refusal) => return refused(alloc, refusal),
    };
    let mut lines = String::new(alloc);
    print_parts(alloc, &tables, &mut lines)?;
    let mut complaints = String::new(alloc);
    print_skipped_tables(&tables, &mut complaints)?;
    Ok(Report { status: 0, lines, complaints })
}
