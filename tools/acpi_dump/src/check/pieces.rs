//! The pieces of a table, one after the other, each of which has its length.

use crate::prelude::*;
use zacpi::base::bytes::skip;

/// Where a piece has its length: at an offset, in this many bytes.
pub(crate) type LengthPlace = (usize, usize);

/// The pieces from an offset of a table on, in order: the offset of each, and its bytes. It ends where no piece begins:
/// if the length there ends before the place that has it, or goes past the table's end.
pub(crate) struct Pieces<'a> {
    offset: usize,
    rest: &'a [u8],
    place: LengthPlace,
}

impl<'a> Pieces<'a> {
    /// The pieces from an offset on, which have their lengths at a place.
    pub(crate) fn of(table: &'a [u8], offset: usize, place: LengthPlace) -> Pieces<'a> {
        Pieces { offset, rest: skip(table, offset), place }
    }
}

impl<'a> Iterator for Pieces<'a> {
    type Item = (usize, &'a [u8]);

    fn next(&mut self) -> Option<(usize, &'a [u8])> {
        let (at, width) = self.place;
        let length = size(field(self.rest, at, width));
        if length <= at || self.rest.len() < length {
            return None;
        }
        let (piece, rest) = self.rest.split_at(length);
        let offset = self.offset;
        self.offset += length;
        self.rest = rest;
        Some((offset, piece))
    }
}
