// Made by scripts/erase of crates/acpi_dump_code/src/listing.rt, where it is proved.
//! The listing of the terms of a table.

use crate::code::begun::Begun;
use crate::code::known::Known;
use crate::code::lines::Listing;
use crate::code::operations::Operations;
use crate::code::why::Why;
use crate::rattle::Vec;
use crate::rattle::alloc::{AllocError, Global};
use crate::walk::aml::Ends;
use crate::walk::out::Out;
use zacpi::PhysicalRecord;
use zacpi::sdt::SdtHeader;

/// The terms that are listed: a table, and between which of its offsets they are.
#[derive(Clone, Copy)]
pub struct Extent<'t> {
    table: &'t [u8],
    start: usize,
    end: usize,
}

impl<'t> Extent<'t> {
    /// The terms of a table between two offsets, as far as they are there.
    pub fn of(table: &'t [u8], start: usize, end: usize) -> Extent<'t> {
        Extent { table, start, end: end.min(table.len()) }
    }
}

/// What a listing is shown to, line by line, in the order of the bytes.
pub trait ShowCode {
    /// Shows an operation, or a part of one that has a line of its own: its offset in the table, how deep it is, and
    /// its text.
    fn line(&mut self, _offset: u64, _depth: usize, _text: &str) {}

    /// Shows from where to where a block isn't listed, and why.
    fn ends(&mut self, _offset: u64, _end: u64, _depth: usize, _why: &str) {}

    /// Shows that the path of these segments is defined, or by an External that another table defines it: a method with
    /// a number of arguments, or without it another object.
    fn define(&mut self, _path: &[u8], _is_elsewhere: bool, _arguments: Option<u8>) {}
}

/// Lists the terms of a table, which is a DSDT, an SSDT or a PSDT, after its header.
///
/// Fails if memory runs out.
pub fn list_table<S: ShowCode>(alloc: Global, known: &Known<'_>, table: &[u8], show: &mut S) -> Result<(), AllocError> {
    let extent = Extent::of(table, SdtHeader::MIN_LENGTH, table.len());
    list_code(alloc, known, extent, &[], show)
}

/// Lists the terms of a table, which are in the scope with the path of these segments.
///
/// Fails if memory runs out.
pub fn list_code<S: ShowCode>(
    alloc: Global,
    known: &Known<'_>,
    extent: Extent<'_>,
    scope: &[u8],
    show: &mut S,
) -> Result<(), AllocError> {
    let operations = Operations::new(alloc)?;
    let mut listing = Listing {
        table: extent.table,
        known,
        operations: &operations,
        at: extent.start,
        begun: Vec::new(alloc),
        letters: Vec::new(alloc),
        line: None,
        text: Out::new(alloc),
    };
    listing.letters.extend_from_slice(scope)?;
    listing.push(Begun {
        rest: b"L",
        end: extent.end,
        has_block: true,
        inner: 0,
        is_inline: false,
        has_parts: false,
        scope: (0, scope.len()),
        path: None,
        letters: scope.len(),
    })?;
    // Each step reads a byte or more, or ends what has begun by one of those.
    let bytes = extent.end.saturating_sub(extent.start);
    for _ in 0..bytes.saturating_add(1).saturating_mul(2) {
        let Some(begun) = listing.begun.pop() else {
            break;
        };
        match listing.go_on(begun, show) {
            Err(Why::Ends(Ends::OutOfMemory)) => return Err(AllocError),
            Err(why) => listing.skip(begun, why, show),
            Ok(()) => {}
        }
    }
    listing.end_line(show);
    match listing.text.printed() {
        Some(_) => Ok(()),
        None => Err(AllocError),
    }
}
