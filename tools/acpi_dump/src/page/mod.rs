//! A page of an input's tables, or of what differs between two inputs: one file of HTML, with nothing from elsewhere.
//!
//! A text from a table, a file's name or an option comes to the page by `escape` alone.

mod bytes;
mod code;
mod drawn;
mod escape;
mod findings;
mod frame;
mod ids;
mod list;
mod machine;
mod marks;
mod matrices;
mod rows;
mod script;
mod sheet;
mod style;
mod table;
mod tile;
mod values;

use crate::check::rules::Finding;
use crate::compare::code::names_in;
use crate::compare::outline::{Items, items_of};
use crate::compare::{differences, same_in};
use crate::prelude::*;
use escape::Piece::Printed;
pub(crate) use escape::{Html, Piece};
use findings::print_findings;
use frame::{print_end, print_front};
use ids::{Id, signature_of};
use list::print_list;
use machine::print_machine;
use marks::marks_of;
use sheet::{Sheet, Standing};
use table::print_table;

/// The tables of an input, and the names of what they were read from.
#[derive(Clone, Copy)]
pub(crate) struct Given<'p> {
    pub(crate) names: &'p [&'p str],
    pub(crate) entries: &'p [Entry<'p>],
}

/// What a page is made of.
#[derive(Clone, Copy)]
pub(crate) struct Source<'p> {
    /// The input, or the second one of two.
    pub(crate) input: Given<'p>,
    /// The input that it is compared with.
    pub(crate) first: Option<Given<'p>>,
    /// The names of the fields that are left out of what differs.
    pub(crate) ignored: &'p [&'p str],
    /// What rules find in the input.
    pub(crate) findings: &'p [Finding],
}

/// The tables of one input with their structures and fields.
#[derive(Clone, Copy)]
struct Outlined<'p> {
    entries: &'p [Entry<'p>],
    outlines: &'p [Items<'p>],
    /// What names stand for in all of them.
    names: &'p Names<'p>,
}

/// The sheets of an input's tables, compared with those of the other input. Of the first of two inputs only tables that
/// the other one lacks have one.
fn sheets_of<'p>(source: Source<'p>, own: Outlined<'p>, other: Outlined<'p>, is_first: bool) -> Vec<Sheet<'p>> {
    let mut sheets = Vec::new();
    for (number, (entry, items)) in own.entries.iter().zip(own.outlines).enumerate() {
        let place = same_in(own.entries, number, other.entries);
        if is_first && place.is_some() {
            continue;
        }
        let side = items.side();
        let mut marks = marks_of(side, number, if is_first { &[] } else { source.findings });
        let standing = match place.map(|place| other.outlines[place].side()) {
            Some(old) => {
                marks.add(side, &differences(old, side, source.ignored));
                if old.table == side.table { Standing::Same } else { Standing::Beside(old) }
            }
            None if source.first.is_some() => Standing::Only,
            None => Standing::Alone,
        };
        let (id, signature) = (Id::of(entry, &own.entries[..number], is_first), signature_of(entry));
        let (names, findings) = (own.names, source.findings);
        sheets.push(Sheet { entry, id, signature, side, names, marks, findings, standing });
    }
    sheets
}

/// Prints the page of the tables of the input, and of the first one's that aren't in it, by the structures and fields
/// of both, and what names stand for in them.
pub(crate) fn print_page(source: Source<'_>, out: &mut Html) {
    let old = source.first.map_or(&[][..], |first| first.entries);
    let [new, old] = [source.input.entries, old].map(|entries| {
        let outlines: Vec<_> = entries.iter().map(items_of).collect();
        (entries, outlines, names_in(entries))
    });
    let [names, old_names] = [&new, &old].map(|(.., paths)| granted(Names::new(Global, paths)));
    let new = Outlined { entries: new.0, outlines: &new.1, names: &names };
    let old = Outlined { entries: old.0, outlines: &old.1, names: &old_names };
    let mut sheets = sheets_of(source, new, old, false);
    sheets.extend(sheets_of(source, old, new, true));
    let mut machine = Html::default();
    print_machine(&sheets, &mut machine);
    print_front(source, &sheets, !machine.is_empty(), out);
    if !machine.is_empty() {
        let section = "<section id=\"machine\"><h2>The machine</h2><div class=\"board\">\n$</div></section>\n";
        out.fill(section, &[Printed(&machine)]);
    }
    print_findings(source.findings, &sheets, out);
    print_list(&sheets, out);
    sheets.iter().for_each(|sheet| print_table(sheet, &sheets, out));
    print_end(out);
}
