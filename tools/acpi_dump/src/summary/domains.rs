//! What the domains of an SRAT have, the latencies and bandwidths of an HMAT, and the distances of a SLIT.

use super::facts::{Fact, Facts};
use crate::prelude::*;
use acpi_programs::walk::matrix::{Matrix, matrix_of};
use acpi_programs::walk::share::{MEMORY, Share, shares_of};
use zacpi::numa::Distances;

/// The matrices of an HMAT, as a walk comes to them.
struct Matrices<'a> {
    table: &'a [u8],
    facts: &'a mut Facts,
}

impl Show for Matrices<'_> {
    fn begin(&mut self, group: &Group) {
        let (start, length) = (size(group.offset), size(group.length));
        if group.kind == Some(1)
            && let Some(matrix) = self.table.get(start..start + length).and_then(matrix_of)
        {
            add_matrix(self.facts, matrix);
        }
    }
}

/// Adds a domain: its processors, and how much memory it has.
fn add_domain(facts: &mut Facts, domain: u32, shares: &[Share]) {
    facts.next("domains").text("domain ").number("domain", domain).text("\t");
    let (processors, ranges) = shares.split_at(shares.partition_point(|share| share.number != MEMORY));
    for row in processors.chunk_by(|one, next| next.number.saturating_sub(one.number) < 2) {
        let (first, last) = (row[0].number, row[row.len() - 1].number);
        if first < last {
            facts.text(format_args!("processors {first} to {last}, "));
        } else {
            facts.text(format_args!("processor {first}, "));
        }
        facts.item("processors", Fact::Range { first, last });
    }
    let memory = ranges.iter().fold(0u64, |sum, range| sum.saturating_add(range.size));
    facts.size("memory", memory).text(" of memory");
}

/// Adds the values of a matrix: a line with the targets, and one for each initiator, in which `-` is in place of a
/// value that isn't given, or of a target that isn't reached.
fn add_matrix(facts: &mut Facts, matrix: Matrix<'_>) {
    facts.next("").text(matrix.words).text(" to\t");
    let targets: Vec<_> = (0..matrix.columns).map(|column| matrix.name(matrix.rows + column)).collect();
    for target in &targets {
        facts.text(format_args!(" {target:>7}"));
    }
    for row in 0..matrix.rows {
        facts.next("latencies_and_bandwidths").shown("kind", matrix.words);
        facts.text(" from ").number("initiator", matrix.name(row)).text("\t");
        let values: Vec<_> = (0..matrix.columns).map(|column| matrix.value(row, column)).collect();
        for value in &values {
            match value {
                None => facts.text("       -"),
                Some(value) => facts.text(format_args!(" {value:>7}")),
            };
        }
        facts.text(" ").shown("unit", matrix.unit).member("values", Fact::Row(values));
        facts.member("targets", Fact::Row(targets.iter().copied().map(Some).collect()));
    }
}

/// Adds what the domains of the SRATs and HMATs have that are read.
pub(crate) fn add_domains(entries: &[Entry<'_>], facts: &mut Facts) {
    for entry in entries.iter().filter(|entry| entry.status.is_read()) {
        let table = entry.table();
        if table.starts_with(b"SRAT") {
            let mut shares = granted(shares_of(Global, table)).to_vec();
            shares.sort_by_key(|share| (share.domain, share.number));
            for own in shares.chunk_by(|one, next| one.domain == next.domain) {
                add_domain(facts, own[0].domain, own);
            }
        } else if table.starts_with(b"HMAT") {
            walk_table(own_signature(table), table, &mut Matrices { table, facts });
        }
    }
}

/// Adds a line of distances for each locality of a SLIT, up to the first that the table doesn't have.
pub(super) fn add_distances(facts: &mut Facts, slit: &[u8]) {
    let distances = Distances::over(slit);
    let count = distances.localities();
    for from in 0..count {
        if distances.distance(from, count - 1).is_none() {
            return;
        }
        facts.next("distances").text("distances from ").number("from", from).text("\t");
        let row: Vec<_> = (0..count).map(|to| u64::from(distances.distance(from, to).unwrap_or(0))).collect();
        for distance in &row {
            facts.text(format_args!("{distance:>4}"));
        }
        facts.member("to", Fact::Row(row.into_iter().map(Some).collect()));
    }
}
