//! The fields of a table: a row for each, in folds by the structures that they are in.

use super::code::print_code;
use super::escape::Html;
use super::escape::Piece::{Bytes, Decimal, Digits, Hex, Id, Name, Offset, Text, Value};
use super::escape::word_if;
use super::findings::print_findings_of;
use super::ids;
use super::marks::{Change, Mark};
use super::sheet::{Sheet, Standing};
use super::values::{print_change, print_digest, print_reference, print_value, structure_of};
use crate::compare::outline::{BYTES, Item, MALFORMED, Part};
use crate::prelude::*;
use acpi_programs::input::entries::header_of;

/// From how many structures of one name in a row on they are in a fold.
const MANY: usize = 9;

/// Up to how many fields and objects the structures of a table begin unfolded.
const FEW: usize = 48;

/// The length of a header (ACPI 6.5, section 5.2.6).
const HEADER: u64 = 36;

/// What ends rows of fields that follow each other, and the rows of the header.
const ROWS_END: &str = "</table>\n";

const HEADER_END: &str = "</table>\n</details>\n";

/// The rows of a table as they are printed.
struct Rows<'s, 'p, 'o> {
    sheet: &'s Sheet<'p>,
    /// All tables on the page.
    sheets: &'s [Sheet<'p>],
    out: &'o mut Html,
    /// The structure that begins next.
    next: usize,
    /// The structure whose fields come.
    open: usize,
    /// The last structure of the row of structures that is in a fold, or 0.
    group: usize,
    /// What ends the rows that have begun: nothing if none have.
    end: &'static str,
}

/// Prints the fields of a table, and what only that of the first input has.
pub(super) fn print_rows<'p>(sheet: &Sheet<'p>, sheets: &[Sheet<'p>], out: &mut Html) {
    let mut rows = Rows { sheet, sheets, out, next: 1, open: 0, group: 0, end: "" };
    if let Some(header) = &header_of(sheet.entry) {
        rows.begin_header(header);
    }
    for (place, item) in sheet.side.items.iter().enumerate() {
        rows.begin_parts(place, item);
        rows.item(place, item);
        print_code(sheet, item, rows.out);
    }
    rows.close_to(0);
    rows.end();
    rows.gone();
}

impl Rows<'_, '_, '_> {
    /// Begins the rows of fields that follow each other, unless they have begun.
    fn start(&mut self) {
        if self.end.is_empty() {
            self.out.markup("<table class=\"fl\">");
            self.end = ROWS_END;
        }
    }

    fn end(&mut self) {
        self.out.markup(std::mem::take(&mut self.end));
    }

    /// Begins the fold of the header, which is open if the table is invalid or something in it is marked.
    fn begin_header(&mut self, header: &SdtHeader) {
        let marks = self.sheet.classes(0, HEADER);
        let is_open = marks.starts_with(" hit") || self.sheet.entry.status.is_invalid();
        self.out.fill(
            "<details class=\"s hd$\"$><summary data-o=\"0\" data-n=\"24\"><span>0000</span> Header <small>$ $</small>\
             </summary>\n<table class=\"fl\"><thead><tr><th scope=\"col\">Offset<th scope=\"col\">Field\
             <th scope=\"col\">Value<th scope=\"col\">Meaning<tbody>\n",
            &[Text(marks), word_if(is_open, " open"), Bytes(&header.oem_id), Bytes(&header.oem_table_id)],
        );
        self.end = HEADER_END;
    }

    /// Begins the folds of the structures that begin with the item of this number, but of objects only if others are in
    /// them, and ends those that ended before it.
    fn begin_parts(&mut self, place: usize, item: &Item) {
        let (parts, mut fold) = (self.sheet.side.parts, item.part);
        while let Some(part) = parts.get(self.next).filter(|part| part.first <= place) {
            if part.is_row() {
                fold = part.parent;
            } else {
                self.close_to(part.parent);
                self.begin(self.next, part);
            }
            self.next += 1;
        }
        self.close_to(fold);
    }

    /// Begins the fold of a structure, and before it that of a row of structures if it is the first of many.
    fn begin(&mut self, number: usize, part: &Part) {
        let sheet = self.sheet;
        self.end();
        self.open = number;
        let fold = sheet.fold(number);
        if self.group == 0 {
            self.begin_group(number, part);
        }
        let is_short = sheet.side.items.len() <= FEW && self.group == 0;
        let is_compared = matches!(sheet.standing, Standing::Beside(_));
        let is_changed = fold.has_changes && !fold.is_added;
        let is_open = fold.has_findings || is_changed || is_short && !is_compared;
        self.out.fill(
            "<details class=\"s$$$\"$><summary data-o=\"$\" data-n=\"$\"><span>$</span> $ <small>$",
            &[
                word_if(fold.is_added, " new"),
                word_if(is_changed, " chg"),
                word_if(fold.has_findings, " hit"),
                word_if(is_open, " open"),
                Digits(part.offset),
                Digits(part.length),
                Offset(part.offset),
                Text(part.name),
                word_if(fold.is_added, "added: "),
            ],
        );
        print_digest(sheet.side, number, part, self.out);
        self.out.markup("</small></summary>\n");
    }

    /// Begins the fold of a row of structures of one name, if these are many from this one on.
    fn begin_group(&mut self, number: usize, part: &Part) {
        let sheet = self.sheet;
        let is_like = |other: &Part| other.parent == part.parent && other.name == part.name && !other.is_row();
        let row = sheet.side.parts.iter().enumerate().skip(number);
        let row = row.take_while(|(_, other)| is_like(other) || other.parent >= number);
        let row: Vec<_> = row.filter(|(_, other)| is_like(other)).collect();
        if row.len() < MANY {
            return;
        }
        let (last, end) = row[row.len() - 1];
        self.group = last;
        let has_changes = row.iter().any(|(place, _)| sheet.fold(*place).has_changes);
        let (start, end) = (Hex(part.offset), Hex(end.offset.saturating_add(end.length).saturating_sub(1)));
        self.out.fill(
            "<details class=\"g$\"><summary>$ <b>×$</b> <small>$ to $</small></summary>\n",
            &[word_if(has_changes, " chg"), Text(part.name), Decimal(row.len() as u64), start, end],
        );
    }

    /// Ends the folds of structures up to that of one that they are in.
    fn close_to(&mut self, part: usize) {
        while self.open != part && self.open != 0 {
            self.end();
            self.out.markup("</details>\n");
            if self.open == self.group {
                self.out.markup("</details>\n");
                self.group = 0;
            }
            self.open = self.sheet.side.parts[self.open].parent;
        }
    }

    /// Prints a field's row, with its findings.
    fn item(&mut self, place: usize, item: &Item) {
        let sheet = self.sheet;
        if item.offset >= HEADER && self.end == HEADER_END {
            self.end();
        }
        let mark = sheet.mark(place);
        if mark.row != place {
            return;
        }
        self.start();
        self.begin_row(item, mark);
        if item.name == BYTES {
            let row = sheet.side.items[place..].iter().zip(place..);
            let length = row.take_while(|(_, number)| sheet.mark(*number).row == place).map(|(item, _)| item.length);
            self.out.words("<th scope=\"row\">not decoded<td><td>% bytes\n", &[length.sum()]);
        } else if let Some((old, was)) = sheet.before(mark) {
            print_change(old, was, sheet.side, item, self.out);
        } else if let Some(part) = structure_of(sheet.signature, sheet.side, item) {
            print_reference(sheet.side, item, part, sheet.link(part.offset), self.out);
        } else {
            print_value(sheet.side, item, self.target_of(item), self.out);
        }
        print_findings_of(sheet.findings, mark.findings.clone(), self.out);
    }

    /// The table that a field has the address of, if it is on the page.
    fn target_of(&self, item: &Item) -> Option<ids::Id> {
        let address = number_at(self.sheet.entry.bytes, size(item.offset), size(item.length));
        let is_number = self.sheet.side.digits(item).starts_with("0x");
        if item.length < 4 || address == 0 || !is_number {
            return None;
        }
        let is_there = |it: &&Sheet<'_>| !it.id.is_first && it.entry.place.address() == Some(address);
        self.sheets.iter().find(is_there).map(|sheet| sheet.id)
    }

    /// Prints what a row begins with: its id, its marks and its offset.
    fn begin_row(&mut self, item: &Item, mark: &Mark) {
        let (sheet, offset) = (self.sheet, item.offset);
        let id = Id(sheet.id, Some(offset));
        self.out.fill(if item.length > 0 { "<tr id=\"$\"" } else { "<tr" }, &[id]);
        if item.name == MALFORMED {
            return self.out.fill(" class=\"wrong\"><td>$", &[Offset(offset)]);
        }
        let change = match mark.change {
            Change::Same => "",
            Change::Added(_) => " new",
            Change::From(_) => " chg",
        };
        let found = if mark.findings.is_empty() { "" } else { sheet.classes(offset, item.length.max(1)) };
        self.out.fill(
            " class=\"f$$$\"><td><a href=\"#$\">$</a>",
            &[Digits(offset), Text(change), Text(found), id, Offset(offset)],
        );
    }

    /// Prints the structures and fields that only the table of the first input has.
    fn gone(&mut self) {
        let Standing::Beside(old) = self.sheet.standing else {
            return;
        };
        for (part, place) in &self.sheet.marks.gone {
            self.start();
            if let Some(item) = old.item(*place) {
                self.out.fill(
                    "<tr class=\"del\"><td>$<th scope=\"row\">$<td><del>$</del><td><div><del>$</del></div>\n",
                    &[Offset(item.offset), Name(item), Value(old.digits(item)), Text(old.meaning(item))],
                );
            } else {
                let row = "<tr class=\"del\"><td>$<th scope=\"row\"><del>$</del><td><td>only in the first\n";
                self.out.fill(row, &[Offset(old.parts[*part].offset), Text(&old.path_of(*part))]);
            }
        }
        self.end();
    }
}
