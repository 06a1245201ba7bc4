// Made by scripts/erase of crates/acpi_dump_walk/src/matrix.rt, where it is proved.
//! The matrices of a SLIT and of HMATs.

use crate::walk::language::{number_at, size};

/// Values from domains, its rows, to domains, its columns.
#[derive(Clone, Copy)]
pub struct Matrix<'a> {
    pub words: &'static str,
    pub unit: &'static str,
    pub rows: usize,
    pub columns: usize,
    /// How many bytes a value has.
    pub width: usize,
    /// What a value is to be multiplied by.
    base: u64,
    /// Where the values begin.
    start: usize,
    /// The bytes in which they are.
    bytes: &'a [u8],
}

/// What a System Locality Latency and Bandwidth Information Structure of each Data Type has, and in which unit.
const WORDS: [(&str, &str); 6] = [
    ("access latency", "ps"),
    ("read latency", "ps"),
    ("write latency", "ps"),
    ("access bandwidth", "MB/s"),
    ("read bandwidth", "MB/s"),
    ("write bandwidth", "MB/s"),
];

/// The matrix of a SLIT (section 5.2.17) or of a System Locality Latency and Bandwidth Information Structure (section
/// 5.2.29.4), if all its values are there.
pub fn matrix_of(bytes: &[u8]) -> Option<Matrix<'_>> {
    let mut matrix = Matrix {
        words: "distance",
        unit: "",
        rows: size(number_at(bytes, 36, 8)), // Number of System Localities
        columns: size(number_at(bytes, 36, 8)),
        width: 1,
        base: 1,
        start: 44,
        bytes,
    };
    if !bytes.starts_with(b"SLIT") {
        (matrix.words, matrix.unit) = *WORDS.get(number_at(bytes, 9, 1) as usize)?; // Data Type
        matrix.rows = number_at(bytes, 12, 4) as usize; // Number of Initiator Proximity Domains
        matrix.columns = number_at(bytes, 16, 4) as usize; // Number of Target Proximity Domains
        matrix.width = 2;
        matrix.base = number_at(bytes, 24, 8); // Entry Base Unit
        let lists = matrix.rows.saturating_add(matrix.columns).saturating_mul(4);
        matrix.start = lists.saturating_add(32);
    }
    if matrix.offset(matrix.rows, 0) > bytes.len() {
        return None;
    }
    Some(matrix)
}

impl Matrix<'_> {
    /// The domain of a row, or of a column by its number after the rows.
    pub fn name(self, place: usize) -> u64 {
        if self.width == 1 {
            return (place % self.rows.max(1)) as u64;
        }
        number_at(self.bytes, place.saturating_mul(4).saturating_add(32), 4)
    }

    /// Where a value is.
    pub fn offset(self, row: usize, column: usize) -> usize {
        let before = row.saturating_mul(self.columns).saturating_add(column);
        before.saturating_mul(self.width).saturating_add(self.start)
    }

    /// A value, if it is given and the target is reached.
    pub fn value(self, row: usize, column: usize) -> Option<u64> {
        let value = number_at(self.bytes, self.offset(row, column), self.width);
        match (self.width, value) {
            (1, 255) | (2, 0 | 0xffff) => None,
            _ => Some(value.saturating_mul(self.base)),
        }
    }
}
