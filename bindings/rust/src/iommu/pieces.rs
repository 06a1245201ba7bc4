// Made by scripts/erase of crates/acpi_iommu/src/pieces.rt, where it is proved.
//! Bytes that are pieces one after the other, each of which has its length in its first bytes: the structures and
//! blocks of a table, the device scopes and entries of one.

use crate::iommu::error::{IommuError, IommuResult};
use core::marker::PhantomData;

/// A kind of pieces.
pub trait PieceKind<'a> {
    /// A piece.
    type Piece;

    /// The length of the piece at the front of bytes, as these bytes have it, or `None` if it is too small.
    fn size_at(bytes: &[u8]) -> Option<usize>;

    /// The piece that has these bytes.
    fn piece(bytes: &'a [u8]) -> Self::Piece;

    /// Whether the pieces in a piece take all bytes that are theirs.
    fn is_whole(piece: &Self::Piece) -> bool;
}

/// The length that is in a piece, or `None` if it is less than the least.
pub(crate) fn valid_length(least: usize, size: usize) -> Option<usize> {
    if least <= size { Some(size) } else { None }
}

/// The length of the piece at the front of bytes, or `None` if no piece begins there.
fn front<'a, K: PieceKind<'a>>(bytes: &[u8]) -> Option<usize> {
    match K::size_at(bytes) {
        Some(size) if 1 <= size && size <= bytes.len() => Some(size),
        _ => None,
    }
}

/// The bytes of the piece at the front of bytes, and those after it, or `None` if no piece begins there.
fn split<'a, K: PieceKind<'a>>(bytes: &'a [u8]) -> Option<(&'a [u8], &'a [u8])> {
    let size = front::<K>(bytes)?;
    Some(bytes.split_at(size))
}

/// The pieces of bytes, in order. It ends at the end of the bytes, or where no piece begins.
#[derive(Clone, Copy, Debug)]
pub struct PieceIter<'a, K> {
    rest: &'a [u8],
    ended: bool,
    kind: PhantomData<K>,
}

impl<'a, K: PieceKind<'a>> PieceIter<'a, K> {
    /// The pieces of these bytes.
    pub(crate) fn of(bytes: &'a [u8]) -> Self {
        PieceIter { rest: bytes, ended: false, kind: PhantomData }
    }

    /// Whether `next` has returned `None` before the end of the bytes, where no piece begins. As long as `next` hasn't
    /// returned `None` it is false.
    pub fn ended_malformed(&self) -> bool {
        match self.rest {
            [] => false,
            _ => self.ended,
        }
    }

    /// The bytes that it hasn't returned. Once `next` has returned `None` they are the bytes in which no piece begins.
    pub fn rest(&self) -> &'a [u8] {
        self.rest
    }

    /// That nothing was found, once `next` has returned `None`: an error if bytes are left in which no piece begins.
    pub(crate) fn none_found<T>(&self) -> IommuResult<Option<T>> {
        if self.ended_malformed() { Err(IommuError::InvalidStructureLength) } else { Ok(None) }
    }

    /// Whether the pieces that are left take all bytes, and the pieces in each all that are theirs.
    pub(crate) fn is_whole(mut self) -> bool {
        let mut all_whole = true;
        while let Some(piece) = self.next() {
            all_whole = all_whole && K::is_whole(&piece);
        }
        !self.ended_malformed() && all_whole
    }
}

impl<'a, K: PieceKind<'a>> Iterator for PieceIter<'a, K> {
    type Item = K::Piece;

    fn next(&mut self) -> Option<K::Piece> {
        match split::<K>(self.rest) {
            Some((bytes, others)) => {
                self.rest = others;
                Some(K::piece(bytes))
            }
            None => {
                self.ended = true;
                None
            }
        }
    }
}
