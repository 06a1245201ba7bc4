//! Sums of tables, by which equal ones are known.

use super::machines::Machine;
use crate::prelude::*;
use std::collections::HashMap;
use std::collections::hash_map::DefaultHasher;
use std::hash::Hasher;

/// A table's signature and a sum of 128 bits over what is compared of it.
pub(super) type Sum = ([u8; 4], u128);

/// The sums of tables that were met, by those of all their bytes, and whether such a table is invalid: most machines
/// have the tables of others, which needn't be walked again.
pub(super) struct Sums<'n> {
    ignored: &'n [&'n str],
    known: HashMap<u128, (u128, bool)>,
}

impl<'n> Sums<'n> {
    pub(super) fn new(ignored: &'n [&'n str]) -> Sums<'n> {
        Sums { ignored, known: HashMap::new() }
    }

    /// The sums of a machine's tables, in order, and how many of these are invalid.
    pub(super) fn of(&mut self, machine: &Machine) -> (Vec<Sum>, usize) {
        machine.with_entries(|entries| {
            let mut invalid = 0;
            let mut sums: Vec<Sum> = Vec::new();
            for (number, entry) in entries.iter().enumerate() {
                let (sum, is_invalid) = self.of_table(entry, || machine.is_invalid(number, entry));
                invalid += usize::from(is_invalid);
                sums.push((own_signature(entry.bytes).to_bytes(), sum));
            }
            sums.sort_unstable();
            (sums, invalid)
        })
    }

    /// The sum of a table of which a machine's sums were taken.
    pub(super) fn of_entry(&mut self, entry: &Entry<'_>) -> u128 {
        self.of_table(entry, || false).0
    }

    /// The sum of a table, and whether it is invalid, which a function returns of one that wasn't met.
    fn of_table(&mut self, entry: &Entry<'_>, is_invalid: impl FnOnce() -> bool) -> (u128, bool) {
        let mut whole = Hashed::new(&[]);
        whole.add(entry.bytes);
        let ignored = self.ignored;
        *self.known.entry(whole.sum()).or_insert_with(|| {
            let sum = if ignored.is_empty() { whole.sum() } else { sum_of(entry, ignored) };
            (sum, is_invalid())
        })
    }
}

/// The sum of a table over its fields but those that are ignored, and all of its other bytes.
fn sum_of(entry: &Entry<'_>, ignored: &[&str]) -> u128 {
    let mut hashed = Hashed::new(ignored);
    walk_table(own_signature(entry.bytes), entry.bytes, &mut hashed);
    hashed.sum()
}

/// Two sums of 64 bits over what a walk shows.
struct Hashed<'n> {
    ignored: &'n [&'n str],
    first: DefaultHasher,
    second: DefaultHasher,
}

impl<'n> Hashed<'n> {
    fn new(ignored: &'n [&'n str]) -> Hashed<'n> {
        let mut second = DefaultHasher::new();
        second.write_u8(1);
        Hashed { ignored, first: DefaultHasher::new(), second }
    }

    fn add(&mut self, bytes: &[u8]) {
        for hasher in [&mut self.first, &mut self.second] {
            hasher.write_usize(bytes.len());
            hasher.write(bytes);
        }
    }

    fn sum(&self) -> u128 {
        u128::from(self.first.finish()) << 64 | u128::from(self.second.finish())
    }
}

impl Show for Hashed<'_> {
    fn field(&mut self, shown: &Field<'_>) {
        if !self.ignored.contains(&shown.label.name) {
            self.add(shown.bytes);
        }
    }

    fn bytes(&mut self, _offset: u64, bytes: &[u8]) {
        self.add(bytes);
    }

    fn begin(&mut self, group: &Group) {
        self.add(&group.length.to_le_bytes());
    }

    fn malformed(&mut self, offset: u64, _fault: Fault) {
        self.add(&offset.to_le_bytes());
    }
}
