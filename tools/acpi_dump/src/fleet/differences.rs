//! What differs between two machines.

use super::machines::Machine;
use super::sums::Sums;
use crate::compare::{Difference, ShowDifferences, compare, same_in};
use crate::prelude::*;

/// A difference: the table, what is in it, and its values in the base and in the other machine. A table or a structure
/// that one of them alone has is without values but that it is there.
pub(super) struct Differing {
    pub(super) table: String,
    pub(super) place: String,
    pub(super) old: Option<String>,
    pub(super) new: Option<String>,
}

impl Differing {
    pub(super) fn name(&self) -> String {
        if self.place.is_empty() { self.table.clone() } else { format!("{} {}", self.table, self.place) }
    }
}

/// Differences as they are found.
struct Collected(Vec<Differing>);

/// The signature of a table, and of an SSDT its OEM table id.
fn name_of(entry: &Entry<'_>) -> String {
    printed(|out| {
        out.escaped(entry.bytes.get(..4).unwrap_or(entry.bytes));
        if let Some(id) = entry.bytes.get(16..24).filter(|_| entry.bytes.starts_with(b"SSDT")) {
            out.text(" ");
            out.escaped(id.trim_ascii());
        }
    })
}

impl ShowDifferences for Collected {
    fn alone(&mut self, is_first: bool, entry: &Entry<'_>) {
        let (old, new) = (is_first.then(String::new), (!is_first).then(String::new));
        self.0.push(Differing { table: name_of(entry), place: String::new(), old, new });
    }

    fn pair(&mut self, old: &Entry<'_>, _new: &Entry<'_>, found: &[Difference<'_>]) {
        let table = name_of(old);
        for difference in found {
            let (path, name) = (difference.structure().unwrap_or_default(), &difference.name);
            let colon = if path.is_empty() || name.is_empty() { "" } else { ": " };
            let [old, new] = [&difference.old, &difference.new].map(|value| value.as_deref().map(str::to_string));
            self.0.push(Differing { table: table.clone(), place: format!("{path}{colon}{name}"), old, new });
        }
    }
}

/// The differences of a machine from a base, of the tables whose sums differ.
pub(super) fn differences(base: &Machine, other: &Machine, ignored: &[&str], sums: &mut Sums<'_>) -> Vec<Differing> {
    base.with_entries(|old| other.with_entries(|new| between(old, new, ignored, sums)))
}

fn between(old: &[Entry<'_>], new: &[Entry<'_>], ignored: &[&str], sums: &mut Sums<'_>) -> Vec<Differing> {
    let mut is_same = |these: &[Entry<'_>], at: usize, others: &[Entry<'_>]| {
        let (one, other) = (&these[at], same_in(these, at, others).map(|place| &others[place]));
        other.is_some_and(|other| sums.of_entry(one) == sums.of_entry(other))
    };
    let left_of_old: Vec<Entry<'_>> = (0..old.len()).filter(|at| !is_same(old, *at, new)).map(|at| old[at]).collect();
    let left_of_new: Vec<Entry<'_>> = (0..new.len()).filter(|at| !is_same(new, *at, old)).map(|at| new[at]).collect();
    let mut found = Collected(Vec::new());
    compare(&left_of_old, &left_of_new, ignored, &mut found);
    found.0
}
