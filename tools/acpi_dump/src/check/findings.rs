//! What the rules find.

use super::numbers::Numbers;
use super::rules::{Finding, Rule};
use crate::prelude::*;

/// What the rules find.
pub(crate) struct Findings {
    /// The number among the entries of the table that is judged.
    pub(crate) table: usize,
    list: Vec<Finding>,
}

/// Words, with the next number in place of each `#` (in hexadecimal digits) and `%` (in decimal ones).
fn filled(words: &str, numbers: &[u64]) -> String {
    printed(|out| out.words(words, numbers))
}

impl Findings {
    pub(crate) fn new() -> Findings {
        Findings { table: 0, list: Vec::new() }
    }

    /// Adds what a rule finds at an offset of the table, with a message.
    pub(crate) fn tell(&mut self, rule: &'static Rule, offset: usize, message: String) {
        self.list.push(Finding { rule, table: self.table, offset, field: "", message });
    }

    /// Adds what a rule finds there: its message with numbers.
    pub(crate) fn add(&mut self, rule: &'static Rule, offset: usize, numbers: &[u64]) {
        self.tell(rule, offset, filled(rule.message, numbers));
    }

    /// Adds, for each number that came before in its list, what the rule of the list finds there: its message with the
    /// number and where else it is. The rules are those of the first lists: others have none.
    pub(crate) fn add_repeated(&mut self, rules: &[&'static Rule], numbers: &mut Numbers) {
        numbers.sort();
        for pair in numbers.all.windows(2) {
            let ((list, number, other), (next, same, offset)) = (pair[0], pair[1]);
            if let Some(rule) = rules.get(size(list))
                && (list, number) == (next, same)
            {
                self.add(rule, offset, &[number, other as u64]);
            }
        }
    }

    /// All that was found, in the order of the tables, then by offset, each with the name of its field.
    pub(crate) fn in_order(self, entries: &[Entry<'_>]) -> Vec<Finding> {
        let mut list = self.list;
        list.sort_by_key(|it| (it.table, it.offset));
        for of_table in list.chunk_by_mut(|one, next| one.table == next.table) {
            let bytes = entries[of_table[0].table].bytes;
            walk_table(own_signature(bytes), bytes, &mut Names { list: of_table, next: 0 });
        }
        list
    }
}

/// The findings of a table in order, which get the names of their fields.
struct Names<'f> {
    list: &'f mut [Finding],
    /// The number of the first one that may get a name.
    next: usize,
}

impl Show for Names<'_> {
    fn field(&mut self, shown: &Field<'_>) {
        let end = shown.offset.saturating_add(shown.bytes.len() as u64);
        while let Some(finding) = self.list.get_mut(self.next).filter(|it| (it.offset as u64) < end) {
            if finding.offset as u64 >= shown.offset {
                finding.field = shown.label.name;
            }
            self.next += 1;
        }
    }
}
