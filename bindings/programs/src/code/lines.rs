// Made by scripts/erase of crates/acpi_dump_code/src/lines.rt, where it is proved.
//! A listing as it is made, and its lines.

use crate::code::begun::Begun;
use crate::code::known::Known;
use crate::code::listing::ShowCode;
use crate::code::operations::Operations;
use crate::rattle::Vec;
use crate::rattle::alloc::AllocError;
use crate::walk::out::Out;

/// A listing as it is made.
pub(crate) struct Listing<'t, 'k, 'n, 'o> {
    pub(crate) table: &'t [u8],
    pub(crate) known: &'k Known<'n>,
    pub(crate) operations: &'o Operations,
    pub(crate) at: usize,
    pub(crate) begun: Vec<Begun>,
    /// The paths of what has begun.
    pub(crate) letters: Vec<u8>,
    /// The line that has begun: its offset, how deep it is, and its text.
    pub(crate) line: Option<(usize, usize)>,
    pub(crate) text: Out,
}

impl Listing<'_, '_, '_, '_> {
    /// Shows the line that has begun, if there is one.
    pub(crate) fn end_line<S: ShowCode>(&mut self, show: &mut S) {
        if let Some((offset, depth)) = self.line
            && let Some(text) = self.text.printed()
        {
            show.line(offset as u64, depth, text);
        }
        self.line = None;
        self.text.clear();
    }

    /// Begins a line.
    pub(crate) fn begin_line<S: ShowCode>(&mut self, depth: usize, show: &mut S) {
        self.end_line(show);
        self.line = Some((self.at, depth));
    }

    /// Begins a part of an operation: on its line, or on a line of its own.
    pub(crate) fn begin_part<S: ShowCode>(&mut self, begun: &mut Begun, part: u8, show: &mut S) {
        if !begun.is_inline {
            return self.begin_line(begun.depth_of(part), show);
        }
        self.text.text(if begun.has_parts { ", " } else { " " });
        begun.has_parts = true;
    }

    /// Begins an operation with these parts, which is a part of another one and has a line of its own.
    pub(crate) fn begin<S: ShowCode>(
        &mut self,
        outer: Begun,
        part: u8,
        rest: &'static [u8],
        show: &mut S,
    ) -> Result<(), AllocError> {
        let (depth, letters) = (outer.depth_of(part), self.letters.len());
        self.begin_line(depth, show);
        self.push(Begun { is_inline: false, ..outer })?;
        self.push(Begun {
            rest,
            end: outer.end,
            has_block: false,
            inner: depth.saturating_add(1),
            is_inline: true,
            has_parts: false,
            scope: outer.scope,
            path: None,
            letters,
        })
    }

    /// Keeps an operation that has begun.
    pub(crate) fn push(&mut self, begun: Begun) -> Result<(), AllocError> {
        self.begun.push(begun).map_err(AllocError::from)
    }
}
