//! Rules of one field each, as rows that name it: its offset and its length are the layout's. Of a field's rows the first
//! one whose test the number alone doesn't pass is found. `scripts/check/rules` finds a row whose structure or field
//! isn't there.

use super::field_rows::ROWS;
use super::findings::Findings;
use super::numbers::Numbers;
use super::rules::Rule;
use crate::prelude::*;
use acpi_programs::walk::fields::unnamed_in;
use std::ops::RangeInclusive;

/// The title of the table itself, in place of a structure's.
pub(super) const TABLE: &str = "-";

/// What stands for the titles of all structures.
pub(super) const ANY: &str = "*";

/// What a number has to be.
pub(super) enum Test {
    In(&'static [RangeInclusive<u64>]),
    /// Without these bits.
    Without(u64),
    /// A code or flags that the layout names.
    Named,
    /// No two structures have the number in this field.
    Once,
    /// The offset of a structure of one of these titles, or a number that one has in a field, if that has a name. The
    /// first number may be without one.
    Of(Option<u64>, &'static [(&'static str, &'static str)]),
}

impl Test {
    /// Whether a number passes it, which is judged by itself.
    fn passes(&self, number: u64) -> bool {
        match self {
            Test::In(ranges) => ranges.iter().any(|range| range.contains(&number)),
            Test::Without(bits) => number & bits == 0,
            Test::Named | Test::Once | Test::Of(..) => true,
        }
    }
}

/// A test of the number at an offset of a table, of a length.
pub(super) type When = (usize, usize, Test);

/// A test of a field of structures with a title.
pub(super) struct Row {
    rule: &'static Rule,
    structure: &'static str,
    field: &'static str,
    test: Test,
    /// The offset and the length of the number in the field, if that isn't all of it.
    part: Option<(usize, usize)>,
}

impl Row {
    pub(super) const fn of(rule: &'static Rule, structure: &'static str, field: &'static str, test: Test) -> Row {
        Row { rule, structure, field, test, part: None }
    }

    pub(super) const fn part(mut self, offset: usize, length: usize) -> Row {
        self.part = Some((offset, length));
        self
    }

    fn number_in(&self, bytes: &[u8]) -> u64 {
        self.part.map_or_else(|| number_of(bytes), |(offset, length)| number_at(bytes, offset, length))
    }

    /// Whether it is about a field of a structure with a title.
    fn is_about(&self, title: &str, field: &str) -> bool {
        self.field == field && (self.structure == title || self.structure == ANY && title != TABLE)
    }

    /// Whether its number may be that of a field of a structure with a title, or the offset of the structure if the
    /// field's name has no letters.
    fn is_of(&self, title: &str, field: &str) -> bool {
        let is_it = |target: &(&str, &str)| target.1 == field && (target.0 == title || target.0 == ANY);
        matches!(self.test, Test::Of(_, targets) if targets.iter().any(is_it))
    }
}

/// The judgement of a table by its rows, as a walk comes to its fields.
struct Judged<'f> {
    findings: &'f mut Findings,
    rows: &'static [Row],
    /// The titles of the structures that the walk is in, the outermost first, which is the table.
    titles: Vec<&'static str>,
    /// For each row the numbers that aren't judged alone, at twice its number, and those that they may be, at one more.
    numbers: Numbers,
}

impl Show for Judged<'_> {
    fn begin(&mut self, group: &Group) {
        self.titles.push(group.name);
        for (row, list) in self.rows.iter().zip((1..).step_by(2)) {
            if row.is_of(group.name, "") {
                self.numbers.push(list, group.offset, size(group.offset));
            }
        }
    }

    fn end(&mut self) {
        self.titles.pop();
    }

    fn field(&mut self, shown: &Field<'_>) {
        let (title, offset) = (self.titles.last().copied().unwrap_or(""), size(shown.offset));
        for (row, list) in self.rows.iter().zip((0..).step_by(2)) {
            if row.is_of(title, shown.label.name) {
                self.numbers.push(list + 1, row.number_in(shown.bytes), offset);
            }
            if !row.is_about(title, shown.label.name) {
                continue;
            }
            let number = row.number_in(shown.bytes);
            let wrong = match row.test {
                Test::Named => unnamed_in(shown),
                _ => (!row.test.passes(number)).then_some(number),
            };
            if let Some(number) = wrong {
                let start = row.part.map_or(0, |(offset, _)| offset);
                return self.findings.add(row.rule, offset + start, &[number]);
            }
            if matches!(row.test, Test::Once | Test::Of(..)) {
                self.numbers.push(list, number, offset);
            }
        }
    }
}

/// Judges the numbers of a table that aren't judged alone.
fn judge_numbers(rows: &[Row], mut numbers: Numbers, findings: &mut Findings) {
    numbers.sort();
    let mut before = (u64::MAX, 0, 0);
    for (list, number, offset) in numbers.all.iter().copied() {
        let row = &rows[size(list / 2)];
        let is_wrong = match row.test {
            Test::Of(exempt, _) => list % 2 == 0 && !numbers.has(list + 1, number) && exempt != Some(number),
            _ => (before.0, before.1) == (list, number),
        };
        if is_wrong {
            findings.add(row.rule, offset, &[number, before.2 as u64]);
        }
        before = (list, number, offset);
    }
}

pub(super) fn check_rows(table: &[u8], findings: &mut Findings) {
    let signature = own_signature(table);
    for (name, when, rows) in ROWS {
        let counts = |(offset, length, test): &When| test.passes(number_at(table, *offset, *length));
        if signature.as_str() == Some(name) && when.as_ref().is_none_or(counts) {
            let titles = vec![TABLE];
            let mut judged = Judged { findings, rows, titles, numbers: Numbers::new() };
            walk_table(signature, table, &mut judged);
            let Judged { findings, numbers, .. } = judged;
            judge_numbers(rows, numbers, findings);
        }
    }
}
