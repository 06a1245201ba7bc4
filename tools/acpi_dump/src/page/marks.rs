//! What a page marks in a table: findings, and what differs from the first of two inputs.

use crate::check::rules::Finding;
use crate::compare::Difference;
use crate::compare::outline::{BYTES, Side};
use std::ops::Range;

/// How a field differs from the first of two inputs.
#[derive(Clone, Copy)]
pub(super) enum Change {
    Same,
    /// The first input lacks it, or, if this number isn't 0, the structure of this number that it is in.
    Added(usize),
    /// The first one has the field of this number in its place.
    From(usize),
}

/// The marks of a field.
pub(super) struct Mark {
    /// The number of the field whose row shows it: bytes in a row with others are shown by the first ones.
    pub(super) row: usize,
    /// The numbers of its findings among all.
    pub(super) findings: Range<usize>,
    pub(super) change: Change,
}

/// The marks of a table.
pub(super) struct Marks {
    pub(super) fields: Vec<Mark>,
    /// What the first of two inputs alone has: structures, and fields of them, by their numbers.
    pub(super) gone: Vec<(usize, Option<usize>)>,
}

/// The marks of the table of this number by findings, which are in the order of the tables and of their offsets: each
/// is that of the row of its byte. A run of bytes that no field covers has one row.
pub(super) fn marks_of(side: Side<'_>, table: usize, findings: &[Finding]) -> Marks {
    // How many findings are of tables before this one, or of it and of bytes before an offset.
    let reach = |end: u64| findings.partition_point(|it| (it.table, it.offset as u64) < (table, end));
    let mut fields: Vec<Mark> = Vec::new();
    let (mut next, mut row) = (reach(0), 0);
    for (place, item) in side.items.iter().enumerate() {
        let first = next;
        next = reach(item.offset.saturating_add(item.length)).max(first);
        // Bytes that no field covers follow others in a structure.
        let begun = &side.items[row];
        let is_run = place > 0 && item.name == BYTES && begun.name == BYTES && begun.part == item.part;
        if is_run {
            fields[row].findings.end = next;
        } else {
            row = place;
        }
        let findings = if is_run { next..next } else { first..next };
        fields.push(Mark { row, findings, change: Change::Same });
    }
    Marks { fields, gone: Vec::new() }
}

impl Marks {
    /// Adds the differences of a table from that of the first input.
    pub(super) fn add(&mut self, side: Side<'_>, differences: &[Difference<'_>]) {
        for found in differences {
            match found.place {
                None => self.gone.push((found.part, found.was)),
                // A structure that the first table lacks.
                Some(part) if found.name.is_empty() => {
                    side.places(part).for_each(|place| self.fields[place].change = Change::Added(part));
                }
                Some(place) => self.fields[place].change = found.was.map_or(Change::Added(0), Change::From),
            }
        }
    }
}
