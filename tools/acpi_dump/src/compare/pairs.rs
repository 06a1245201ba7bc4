//! Which structures or objects of two tables are the same.

use super::outline::Side;
use acpi_programs::walk::walk::DEEPEST;
use std::cmp::Ordering;

/// What one of a table is known by: the number of what it is in, three texts, and its number in the table.
pub(super) type Key<'a> = (usize, &'a str, &'a str, &'a str, usize);

/// Which ones of two tables are the same.
pub(super) struct Pairs {
    /// For each one of the first table the number of that of the second one, if there is one.
    others: Vec<Option<usize>>,
    /// For each one of the second table the number of that of the first one, if there is one.
    firsts: Vec<Option<usize>>,
    count: usize,
}

impl Pairs {
    /// No pairs, of this many in the first table and in the second one.
    pub(super) fn none(old: usize, new: usize) -> Pairs {
        Pairs { others: vec![None; old], firsts: vec![None; new], count: 0 }
    }

    /// The number of the one of the second table that is the same as one of the first.
    pub(super) fn other(&self, number: usize) -> Option<usize> {
        self.others[number]
    }

    /// Whether one of the second table is that of one of the first.
    pub(super) fn is_taken(&self, number: usize) -> bool {
        self.firsts[number].is_some()
    }

    /// Whether a structure of the first table has no other, and that which it is in has one.
    pub(super) fn is_gone(&self, old: Side<'_>, part: usize) -> bool {
        self.other(part).is_none() && self.other(old.parts[part].parent).is_some()
    }

    /// Whether a structure of the second table is none of the first, and that which it is in is one.
    pub(super) fn is_added(&self, new: Side<'_>, part: usize) -> bool {
        !self.is_taken(part) && self.is_taken(new.parts[part].parent)
    }

    /// Pairs those of two tables that aren't paired and whose keys are the same up to this many texts, in their order.
    /// The keys are sorted.
    pub(super) fn add(&mut self, mut old: &[Key<'_>], mut new: &[Key<'_>], texts: usize) {
        while let ([one, olds @ ..], [other, news @ ..]) = (old, new) {
            let order = self.order(one, other, texts);
            if order == Ordering::Equal {
                self.take(one.4, other.4);
            }
            if order.is_le() {
                old = olds;
            }
            if order.is_ge() {
                new = news;
            }
        }
    }

    /// Which of two keys is skipped: one that is paired, or else the one that comes first, and neither if they are the
    /// same.
    fn order(&self, one: &Key<'_>, other: &Key<'_>, texts: usize) -> Ordering {
        if self.other(one.4).is_some() {
            return Ordering::Less;
        }
        if self.is_taken(other.4) {
            return Ordering::Greater;
        }
        let order = (one.0, one.1).cmp(&(other.0, other.1));
        match texts {
            1 => order,
            2 => order.then(one.2.cmp(other.2)),
            _ => order.then((one.2, one.3).cmp(&(other.2, other.3))),
        }
    }

    pub(super) fn take(&mut self, number: usize, other: usize) {
        self.others[number] = Some(other);
        self.firsts[other] = Some(number);
        self.count += 1;
    }
}

/// By what the structures of a table are paired that aren't yet, and that are in one that is, or objects: their names,
/// and their contents, or else the fields that tell them apart. What they are in is known by its number in the first
/// table, which pairs have for each one of the table.
fn keys_of<'a>(side: Side<'a>, pairs: &[Option<usize>], is_first: bool, by_contents: bool) -> Vec<Key<'a>> {
    let mut keys = Vec::new();
    for (number, part) in side.parts.iter().enumerate() {
        let parent = if part.own.is_some() { 0 } else { part.parent };
        let outer = pairs[parent].map(|first| if is_first { parent } else { first });
        if let (None, Some(outer)) = (pairs[number], outer) {
            let (one, other) = if by_contents { (side.contents(number), "") } else { side.ids(part) };
            keys.push((outer, part.name, one, other, number));
        }
    }
    keys.sort_unstable();
    keys
}

/// Which structures of two tables are the same: of those that are in the same one and have the same name first those
/// with the same contents, then those that are known by the same fields, and then the others that are known by the same
/// first one, in their order. The tables themselves are the same.
pub(super) fn pairs_of(old: Side<'_>, new: Side<'_>) -> Pairs {
    let mut pairs = Pairs::none(old.parts.len(), new.parts.len());
    pairs.take(0, 0);
    for _ in 0..DEEPEST {
        let before = pairs.count;
        for by_contents in [true, false] {
            let olds = keys_of(old, &pairs.others, true, by_contents);
            let news = keys_of(new, &pairs.firsts, false, by_contents);
            pairs.add(&olds, &news, 3);
            if !by_contents {
                pairs.add(&olds, &news, 2);
            }
        }
        if pairs.count == before {
            break;
        }
    }
    pairs
}
