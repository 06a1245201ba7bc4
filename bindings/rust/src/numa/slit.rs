// Made by scripts/erase of crates/acpi_numa/src/slit.rt, where it is proved.
//! The System Locality Information Table (SLIT): how far localities are from each other (section 5.2.17).

mod readings;

use crate::base::bytes::field;
use crate::base::sdt::SdtHeader;

/// The System Locality Information Table (SLIT, section 5.2.17). After these fields it has a byte for each
/// pair of localities, which `Distances` reads.
#[derive(Debug)]
#[non_exhaustive]
pub struct Slit {
    /// The header that every table begins with.
    pub header: SdtHeader,
    /// Number of System Localities: how many localities there are. Nothing promises that the table has the
    /// distances of that many.
    pub localities: u64,
}

/// The distances in a SLIT's bytes (section 5.2.17). It needs no handler.
#[derive(Clone, Copy, Debug)]
pub struct Distances<'a> {
    table: &'a [u8],
}

impl<'a> Distances<'a> {
    /// The distances in a SLIT's bytes (section 5.2.17), from the table's first byte on. In fewer than 45
    /// bytes there is none.
    pub fn over(table: &'a [u8]) -> Self {
        Distances { table }
    }

    /// Number of System Localities: how many localities there are by the table (section 5.2.17;
    /// eight bytes at offset 36). A byte past the table's end is read as zero.
    pub fn localities(&self) -> u64 {
        field(self.table, 36, 8) // Number of System Localities
    }

    /// The entry of a pair: how far it is from one locality to another (section 5.2.17), in units of which
    /// 10 are the distance of a locality from itself. 255 means 'unreachable', and is returned as it is.
    ///
    /// It is `None` if one of the two isn't below Number of System Localities, or if the byte of the
    /// pair, at 44 + from * localities + to, isn't in the table.
    pub fn distance(&self, from: u64, to: u64) -> Option<u8> {
        let count = self.localities();
        if from >= count || to >= count {
            return None;
        }
        let place = from.checked_mul(count)?.checked_add(to)?.checked_add(44)?;
        if place < self.table.len() as u64 { Some(self.table[place as usize]) } else { None }
    }

    /// Whether the table is sane (section 5.2.17). Sane means: there is at least one locality, the table
    /// has the distances of all pairs (more bytes may follow), each locality is at 10 from itself, and
    /// each is at more than 10 from every other. The distances of a pair need not be the same both ways.
    ///
    /// It looks at the byte of each distance at most once, and at none if the table doesn't have them all,
    /// however many localities the table names.
    pub fn is_sane(&self) -> bool {
        let count = self.localities();
        if count == 0 || !self.has_all(count) {
            return false;
        }
        for from in 0..count {
            if !self.is_row_sane(from, count) {
                return false;
            }
        }
        true
    }

    /// Whether the table has the distances of all pairs of this many localities.
    fn has_all(&self, count: u64) -> bool {
        match count.checked_mul(count) {
            Some(pairs) => pairs <= u64::MAX - 44 && pairs + 44 <= self.table.len() as u64,
            None => false,
        }
    }

    /// Whether the distances from one locality are sane: 10 to itself, and more than 10 to every other.
    fn is_row_sane(&self, from: u64, count: u64) -> bool {
        for to in 0..count {
            if !fits(from, to, self.distance(from, to)) {
                return false;
            }
        }
        true
    }
}

/// Whether the distance from one locality to another is sane: there is one, 10 if the two are one and else
/// more than 10.
fn fits(from: u64, to: u64, distance: Option<u8>) -> bool {
    match distance {
        Some(distance) if from == to => distance == 10,
        Some(distance) => distance > 10,
        None => false,
    }
}
