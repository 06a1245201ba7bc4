//! The lines of methods' code that differ.

use super::known::Known;
use crate::prelude::*;
use acpi_programs::code::changes::{Lines, ShowLines, show_changes};
use acpi_programs::code::{Extent, Paths, paths_of};

/// A line of a method that one of two tables alone has.
pub(crate) struct CodeLine {
    pub(crate) is_first: bool,
    pub(crate) offset: u64,
    pub(crate) depth: usize,
    pub(crate) text: String,
}

/// Lines as they are found.
struct Found(Vec<CodeLine>);

impl ShowLines for Found {
    fn changed(&mut self, is_first: bool, offset: u64, depth: usize, text: &str) {
        self.0.push(CodeLine { is_first, offset, depth, text: text.to_string() });
    }
}

impl CodeLine {
    /// Prints it, after `-` if the first table has it, or `+`.
    pub(super) fn print(&self, out: &mut Out) {
        let (mark, indent) = (if self.is_first { '-' } else { '+' }, 2 * self.depth.min(40));
        writeln!(out, "      {mark} {:04x}  {:indent$}{}", self.offset, "", self.text);
    }
}

/// The segments of a path that is printed, four letters each, from its first one on.
pub(crate) fn segments_of(path: &str) -> Vec<u8> {
    path.bytes().filter(|byte| !matches!(byte, b'\\' | b'.')).collect()
}

fn lines_of(names: &Names<'_>, table: &[u8], method: &Known<'_>) -> Lines {
    let (start, end) = method.code();
    granted(Lines::of(Global, names, Extent::of(table, start, end), &segments_of(method.path)))
}

/// The lines that differ of a method that two tables have, of each its bytes and what names stand for.
pub(super) fn changed_lines(tables: [(&[u8], &Names<'_>); 2], was: &Known<'_>, is: &Known<'_>) -> Vec<CodeLine> {
    let [(old, old_names), (new, new_names)] = tables;
    let mut found = Found(Vec::new());
    let (old, new) = (lines_of(old_names, old, was), lines_of(new_names, new, is));
    granted(show_changes(Global, &old, &new, &mut found));
    found.0
}

/// The names that the tables of an input define, valid or not: any of them may define what the AML of another calls.
pub(crate) fn names_in(entries: &[Entry<'_>]) -> Paths {
    let tables: Vec<_> = entries.iter().filter(|entry| entry.has_aml()).map(|entry| entry.bytes).collect();
    granted(paths_of(Global, &tables))
}
