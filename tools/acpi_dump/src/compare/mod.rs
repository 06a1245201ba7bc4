//! What differs between two inputs, by the outline of a table: its structures and fields, and the objects of AML.

pub(crate) mod code;
mod items;
mod known;
mod objects;
pub(crate) mod outline;
mod pairs;
mod pieces;

use crate::prelude::*;
use code::{CodeLine, names_in};
use known::Known;
use objects::add_changes;
use outline::{MALFORMED, Side, items_of};
use pairs::pairs_of;
use std::borrow::Cow;

/// What a structure or an object is called.
#[derive(Clone, Copy)]
pub(crate) enum Title<'a> {
    /// As the table has the structure of a number.
    Structure(Side<'a>),
    /// By its path.
    Object(Known<'a>),
    /// With its value.
    Alone(Known<'a>),
}

/// A difference: the structure or object that it is in, where it is, the name of the field or what the object is, which
/// is empty if one input alone has the structure or object, and the values in the two inputs, if they have it.
pub(crate) struct Difference<'a> {
    title: Title<'a>,
    pub(crate) part: usize,
    pub(crate) offset: u64,
    pub(crate) name: Cow<'a, str>,
    pub(crate) old: Option<Cow<'a, str>>,
    pub(crate) new: Option<Cow<'a, str>>,
    /// The number of the field in the first table, if it has it.
    pub(crate) was: Option<usize>,
    /// The number of the field or of the structure in the second table, if it has it.
    pub(crate) place: Option<usize>,
    /// The lines of a method that differ.
    pub(crate) code: Vec<CodeLine>,
}

impl<'a> Difference<'a> {
    fn of(title: Title<'a>) -> Difference<'a> {
        let (part, offset, name, old, new) = (0, 0, Cow::Borrowed(""), None, None);
        Difference { title, part, offset, name, old, new, was: None, place: None, code: Vec::new() }
    }

    /// What the structure or object is called, unless it is all of the table.
    pub(crate) fn structure(&self) -> Option<String> {
        (self.part > 0).then(|| match self.title {
            Title::Structure(side) => side.path_of(self.part),
            Title::Object(object) => object.whole_path(),
            Title::Alone(object) => format!("{} {}  {}", object.kind, object.whole_path(), object.whole_value()),
        })
    }
}

/// The differences between two tables, as they are found, without the fields whose names are ignored.
struct Found<'a, 'i, 's> {
    old: Side<'a>,
    new: Side<'a>,
    ignored: &'i [&'s str],
    differences: Vec<Difference<'a>>,
}

impl<'a> Found<'a, '_, '_> {
    /// Adds a difference between two items, given by their numbers, of a structure of the first table, if they differ.
    fn add(&mut self, part: usize, was: Option<usize>, place: Option<usize>) {
        let (old, new) = (self.old.value(was), self.new.value(place));
        if let Some(item) = self.old.item(was).or(self.new.item(place))
            && (old != new || self.old.hidden(was) != self.new.hidden(place))
            && !self.ignored.contains(&item.name)
        {
            let (old, new, name) = (old.map(Cow::Borrowed), new.map(Cow::Borrowed), item.name.into());
            let difference = Difference::of(Title::Structure(self.old));
            self.differences.push(Difference { part, offset: item.offset, name, old, new, was, place, ..difference });
        }
    }

    /// Adds the fields that differ between two structures, in the order of their offsets.
    fn add_fields(&mut self, part: usize, other: usize) {
        let items = |side: Side<'a>, part| {
            let places = side.places(part);
            places.filter(move |place| side.items[*place].part == part && side.items[*place].name != MALFORMED)
        };
        let (mut old, mut new) = (items(self.old, part).peekable(), items(self.new, other).peekable());
        while old.peek().is_some() || new.peek().is_some() {
            let (one, other) = (old.peek().copied(), new.peek().copied());
            // Those that come now: of the first table, or of both if they are the same field.
            let (a, b) = match (self.old.item(one), self.new.item(other)) {
                (Some(a), Some(b)) if a.within == b.within && a.name == b.name => (one, other),
                (Some(a), Some(b)) if a.within <= b.within => (one, None),
                (Some(_), None) => (one, None),
                _ => (None, other),
            };
            self.add(part, a, b);
            a.and_then(|_| old.next());
            b.and_then(|_| new.next());
        }
    }

    fn add_alone(&mut self, is_first: bool, part: usize) {
        let (side, old, new, place) =
            if is_first { (self.old, Some(""), None, None) } else { (self.new, None, Some(""), Some(part)) };
        let (old, new, offset) = (old.map(Cow::Borrowed), new.map(Cow::Borrowed), side.parts[part].offset);
        self.differences.push(Difference { part, offset, old, new, place, ..Difference::of(Title::Structure(side)) });
    }
}

/// The differences between the structures and items of two tables: of the structures of the first table in their order,
/// and then those that the second one alone has.
pub(crate) fn differences<'a>(old: Side<'a>, new: Side<'a>, ignored: &[&str]) -> Vec<Difference<'a>> {
    let mut found = Found { old, new, ignored, differences: Vec::new() };
    let pairs = pairs_of(old, new);
    for part in 0..old.parts.len() {
        if let Some(other) = pairs.other(part) {
            found.add_fields(part, other);
        } else if pairs.is_gone(old, part) {
            found.add_alone(true, part);
        }
    }
    for part in 0..new.parts.len() {
        if pairs.is_added(new, part) {
            found.add_alone(false, part);
        }
    }
    found.differences
}

/// Whether a table is the same in two inputs, as far as its letters say: its signature and, of an SSDT, its OEM table
/// id.
fn is_alike(one: &Entry<'_>, other: &Entry<'_>) -> bool {
    let (one, other) = (one.bytes, other.bytes);
    one.get(..4) == other.get(..4) && (!one.starts_with(b"SSDT") || one.get(16..24) == other.get(16..24))
}

/// The number of the table of another input that is the same as one by its letters, and by how many with these stand
/// before it.
pub(crate) fn same_in(entries: &[Entry<'_>], index: usize, others: &[Entry<'_>]) -> Option<usize> {
    let wanted = &entries[index];
    let before = entries[..index].iter().filter(|entry| is_alike(entry, wanted)).count();
    (0..others.len()).filter(|number| is_alike(&others[*number], wanted)).nth(before)
}

/// What the differences between two inputs are shown to.
pub(crate) trait ShowDifferences {
    /// Shows a table that is in one input alone, the first or else the second.
    fn alone(&mut self, is_first: bool, entry: &Entry<'_>);

    /// Shows the fields that differ between two tables, of which there are some.
    fn pair(&mut self, old: &Entry<'_>, new: &Entry<'_>, found: &[Difference<'_>]);
}

/// Differences as lines of text: the names of the two inputs, and where the lines are written to.
pub(crate) struct DifferenceLines<'a> {
    pub(crate) names: (&'a str, &'a str),
    pub(crate) out: &'a mut Out,
}

impl DifferenceLines<'_> {
    /// Prints which of two inputs alone has what comes next.
    fn print_only(&mut self, is_first: bool) {
        self.out.text("only in ");
        self.out.escaped(if is_first { self.names.0 } else { self.names.1 }.as_bytes());
        self.out.text(": ");
    }

    /// Prints a field that differs, within a structure by two blanks more.
    fn print_field(&mut self, difference: &Difference<'_>) {
        let Difference { offset, name, old, new, .. } = difference;
        let indent = if difference.part > 0 { "    " } else { "  " };
        let [old, new] = [old, new].map(|value| value.as_deref().unwrap_or("none"));
        writeln!(self.out, "{indent}{offset:04x}  {name:<38}  {old} -> {new}");
        difference.code.iter().for_each(|line| line.print(self.out));
    }
}

impl ShowDifferences for DifferenceLines<'_> {
    fn alone(&mut self, is_first: bool, entry: &Entry<'_>) {
        self.print_only(is_first);
        print_name(entry, self.out);
        self.out.text("\n");
    }

    /// Prints differences under the tables' names, and those within a structure under what that is called.
    fn pair(&mut self, old: &Entry<'_>, new: &Entry<'_>, found: &[Difference<'_>]) {
        print_name(old, self.out);
        self.out.text(" and ");
        print_name(new, self.out);
        self.out.text("\n");
        let mut part = 0;
        for difference in found {
            let structure = || difference.structure().unwrap_or_default();
            if difference.name.is_empty() {
                self.out.text("  ");
                self.print_only(difference.old.is_some());
                writeln!(self.out, "{}", structure());
                continue;
            }
            if difference.part != part {
                part = difference.part;
                writeln!(self.out, "  {}", structure());
            }
            self.print_field(difference);
        }
    }
}

/// Shows the tables that are in one input alone, and of tables in both the fields that differ, less the ones whose
/// names are ignored. Returns whether it shows something. The bytes of AML are compared by its objects.
pub(crate) fn compare<S: ShowDifferences>(
    old: &[Entry<'_>],
    new: &[Entry<'_>],
    ignored: &[&str],
    show: &mut S,
) -> bool {
    let (was, is) = (&names_in(old), &names_in(new));
    let names = (&granted(Names::new(Global, was)), &granted(Names::new(Global, is)));
    let mut any = false;
    for (index, entry) in old.iter().enumerate() {
        let Some(other) = same_in(old, index, new).map(|number| &new[number]) else {
            show.alone(true, entry);
            any = true;
            continue;
        };
        let (items, others) = (items_of(entry), items_of(other));
        let (was, is) = (items.side(), others.side());
        let found = differences(was.without_objects(), is.without_objects(), ignored);
        let found = add_changes(found, (was, is), names, ignored);
        if !found.is_empty() {
            show.pair(entry, other, &found);
            any = true;
        }
    }
    for (index, entry) in new.iter().enumerate() {
        if same_in(new, index, old).is_none() {
            show.alone(false, entry);
            any = true;
        }
    }
    any
}
