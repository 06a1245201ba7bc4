//! A table on a page: its structures and fields, and the marks that they have.

use super::escape::Piece;
use super::ids::Id;
use super::marks::{Change, Mark, Marks};
use crate::check::rules::Finding;
use crate::compare::outline::{Item, Side};
use crate::prelude::*;

/// Whether a table is also in the other one of two inputs.
#[derive(Clone, Copy)]
pub(super) enum Standing<'p> {
    /// There is one input.
    Alone,
    /// It is not.
    Only,
    /// It is, with the same bytes.
    Same,
    /// It is, with these fields.
    Beside(Side<'p>),
}

/// The worst severity of findings, by its rank from 1 on, or 0 if there are none, and whether there are changes.
pub(super) type Seen = (usize, bool);

/// The classes of what was seen, without changes and with some.
const CLASSES: [[&str; 2]; 4] = [
    ["", " chg"],
    [" hit note", " hit note chg"],
    [" hit warning", " hit warning chg"],
    [" hit error", " hit error chg"],
];

/// A table on a page.
pub(super) struct Sheet<'p> {
    pub(super) entry: &'p Entry<'p>,
    pub(super) id: Id,
    /// The signature that it begins with, or should.
    pub(super) signature: Signature,
    /// Its structures and fields, by the layout of its signature.
    pub(super) side: Side<'p>,
    /// What the names in AML stand for.
    pub(super) names: &'p Names<'p>,
    pub(super) marks: Marks,
    /// What rules find in all tables.
    pub(super) findings: &'p [Finding],
    pub(super) standing: Standing<'p>,
}

/// The marks of a structure, which has the marks of what is in it.
#[derive(Clone, Copy)]
pub(super) struct Fold {
    pub(super) has_findings: bool,
    pub(super) has_changes: bool,
    pub(super) is_added: bool,
}

impl<'p> Sheet<'p> {
    /// Whether the table is in the drawing: if it is one of the input, and is read.
    pub(super) fn is_drawn(&self) -> bool {
        !self.id.is_first && self.entry.status.is_read()
    }

    /// Whether the table has these letters as its signature.
    pub(super) fn is(&self, letters: &[u8; 4]) -> bool {
        let letters: &[u8] = letters;
        self.entry.bytes.starts_with(letters)
    }

    /// The marks of the field that has this number.
    pub(super) fn mark(&self, place: usize) -> &Mark {
        &self.marks.fields[place]
    }

    /// What the first input has in place of a field with these marks, if that differs: its table, and the field there.
    pub(super) fn before(&self, mark: &Mark) -> Option<(Side<'p>, &'p Item)> {
        match (mark.change, self.standing) {
            (Change::From(was), Standing::Beside(old)) => Some((old, &old.items[was])),
            _ => None,
        }
    }

    /// The marks of the structure that has this number.
    pub(super) fn fold(&self, number: usize) -> Fold {
        let marks = &self.marks.fields[self.side.places(number)];
        Fold {
            has_findings: marks.iter().any(|mark| !mark.findings.is_empty()),
            has_changes: marks.iter().any(|mark| !matches!(mark.change, Change::Same)),
            is_added: marks.iter().any(|mark| matches!(mark.change, Change::Added(part) if part == number)),
        }
    }

    /// The number of the first field that ends after an offset.
    fn field_at(&self, offset: u64) -> usize {
        self.side.items.partition_point(|item| item.offset.saturating_add(item.length) <= offset)
    }

    /// The id of the row of a byte: that of the table if no row has it.
    pub(super) fn link(&self, offset: u64) -> Piece<'static> {
        let mark = self.marks.fields.get(self.field_at(offset));
        Piece::Id(self.id, mark.map(|mark| self.side.items[mark.row].offset))
    }

    /// The classes that what is shown of `length` bytes of the table, from an offset on, has after its own: ` hit` and
    /// the worst severity if there is a finding in them, and ` chg` if they differ from the first input's.
    pub(super) fn classes(&self, offset: u64, length: u64) -> &'static str {
        classes_of(self.seen(offset, length, (0, matches!(self.standing, Standing::Only))))
    }

    /// The worst severity that was seen before or is found in `length` bytes, and whether a change was or is there. Of
    /// a field that has more bytes than these it counts only what is in them.
    pub(super) fn seen(&self, offset: u64, length: u64, before: Seen) -> Seen {
        let end = offset.saturating_add(length);
        let (mut worst, mut has_changes) = before;
        let is_other = match self.standing {
            Standing::Beside(old) => old.bytes(offset, length) != self.side.bytes(offset, length),
            _ => true,
        };
        let fields = self.side.items.iter().zip(&self.marks.fields).skip(self.field_at(offset));
        for (item, mark) in fields.take_while(|(item, _)| item.offset < end) {
            let is_whole = item.offset >= offset && item.offset.saturating_add(item.length) <= end;
            has_changes |= !matches!(mark.change, Change::Same) && (is_whole || is_other);
            let findings = &self.findings[mark.findings.clone()];
            let seen = findings.iter().filter(|it| is_whole || (offset..end).contains(&(it.offset as u64)));
            worst = seen.map(|it| it.rule.severity as usize + 1).fold(worst, usize::max);
        }
        (worst, has_changes)
    }
}

/// The classes of what was seen.
pub(super) fn classes_of((worst, has_changes): Seen) -> &'static str {
    CLASSES[worst][usize::from(has_changes)]
}
