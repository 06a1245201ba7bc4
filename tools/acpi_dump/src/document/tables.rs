//! The tables in a document.

use super::{Row, Rows, hex, letters, wide};
use crate::compare::{Difference, ShowDifferences};
use crate::prelude::*;
use acpi_programs::code::{ShowCode, list_table};
use acpi_programs::input::entries::header_of;
use serde::{Serialize, Serializer};

/// What is shown of a table beside where it is, its header and what the checks say.
#[derive(Clone, Copy)]
pub(crate) enum Part<'p> {
    Nothing,
    /// All fields, and all objects of AML.
    Fields,
    Bytes,
    /// All operations of AML, by what names stand for.
    Code(&'p Names<'p>),
}

/// Tables of an input, of which each is kept only as long as it is written, or those that differ in two inputs.
pub(crate) enum Tables<'p> {
    Shown(Vec<(&'p Entry<'p>, Part<'p>)>),
    Compared(Vec<Table>),
}

impl Serialize for Tables<'_> {
    fn serialize<S: Serializer>(&self, serializer: S) -> Result<S::Ok, S::Error> {
        match self {
            Tables::Shown(shown) => serializer.collect_seq(shown.iter().map(|(entry, part)| Table::of(entry, *part))),
            Tables::Compared(tables) => tables.serialize(serializer),
        }
    }
}

/// A table, valid or not.
#[derive(Serialize, Default)]
pub(crate) struct Table {
    #[serde(skip_serializing_if = "Option::is_none")]
    address: Option<String>,
    #[serde(skip_serializing_if = "Option::is_none")]
    bytes: Option<String>,
    #[serde(skip_serializing_if = "Option::is_none")]
    code: Option<Vec<Line>>,
    #[serde(skip_serializing_if = "Option::is_none")]
    creator_id: Option<String>,
    #[serde(skip_serializing_if = "Option::is_none")]
    creator_revision: Option<u32>,
    #[serde(skip_serializing_if = "Option::is_none")]
    fields: Option<Fields>,
    #[serde(skip_serializing_if = "Option::is_none")]
    file: Option<String>,
    #[serde(skip_serializing_if = "Option::is_none")]
    length: Option<u32>,
    #[serde(skip_serializing_if = "Option::is_none")]
    oem_id: Option<String>,
    #[serde(skip_serializing_if = "Option::is_none")]
    oem_revision: Option<u32>,
    #[serde(skip_serializing_if = "Option::is_none")]
    oem_table_id: Option<String>,
    /// Which of two inputs alone has it.
    #[serde(skip_serializing_if = "Option::is_none")]
    only: Option<&'static str>,
    #[serde(skip_serializing_if = "Option::is_none")]
    revision: Option<u8>,
    #[serde(skip_serializing_if = "Option::is_none")]
    signature: Option<String>,
    status: String,
    valid: bool,
}

#[derive(Serialize)]
#[serde(untagged)]
enum Fields {
    All(Vec<Row>),
    Changed(Vec<Changed>),
}

/// An operation of AML, or why no more are listed.
#[derive(Serialize)]
#[serde(untagged)]
enum Line {
    Operation { depth: usize, offset: u64, text: String },
    Ends { depth: usize, end: u64, ends: String, offset: u64 },
}

/// A field that differs between two tables, or a structure that one alone has.
#[derive(Serialize)]
struct Changed {
    #[serde(skip_serializing_if = "Vec::is_empty")]
    code: Vec<ChangedLine>,
    #[serde(skip_serializing_if = "str::is_empty")]
    name: String,
    #[serde(skip_serializing_if = "Option::is_none")]
    new: Option<String>,
    #[serde(skip_serializing_if = "Option::is_none")]
    new_meaning: Option<String>,
    offset: u64,
    #[serde(skip_serializing_if = "Option::is_none")]
    old: Option<String>,
    #[serde(skip_serializing_if = "Option::is_none")]
    old_meaning: Option<String>,
    #[serde(skip_serializing_if = "Option::is_none")]
    only: Option<&'static str>,
    /// What the structure is called, unless that is all of the table.
    #[serde(skip_serializing_if = "Option::is_none")]
    structure: Option<String>,
}

/// A line of a method that one of two tables alone has.
#[derive(Serialize)]
struct ChangedLine {
    depth: usize,
    offset: u64,
    only: &'static str,
    text: String,
}

fn side(is_first: bool) -> &'static str {
    if is_first { "first" } else { "second" }
}

impl Table {
    fn of(entry: &Entry<'_>, part: Part<'_>) -> Table {
        let address = entry.place.address().map(wide);
        let file = if let Place::File(name) = entry.place { Some(name.to_string()) } else { None };
        let table = Table {
            address,
            bytes: matches!(part, Part::Bytes).then(|| hex(entry.bytes)),
            code: if let Part::Code(names) = part { Some(Listing::of(entry, names)) } else { None },
            fields: matches!(part, Part::Fields).then(|| Fields::All(Rows::of(entry))),
            file,
            signature: entry.signature().map(|signature| letters(&signature.to_bytes())),
            status: entry.status.to_string(),
            valid: !entry.status.is_invalid(),
            ..Table::default()
        };
        let Some(header) = header_of(entry) else {
            return table;
        };
        Table {
            creator_id: Some(letters(&header.creator_id.to_le_bytes())),
            creator_revision: Some(header.creator_revision),
            length: Some(header.length),
            oem_id: Some(letters(&header.oem_id)),
            oem_revision: Some(header.oem_revision),
            oem_table_id: Some(letters(&header.oem_table_id)),
            revision: Some(header.revision),
            ..table
        }
    }
}

/// The operations of a table, as a walk comes to them.
struct Listing(Vec<Line>);

impl Listing {
    fn of(entry: &Entry<'_>, names: &Names<'_>) -> Vec<Line> {
        let mut listing = Listing(Vec::new());
        granted(list_table(Global, names, entry.bytes, &mut listing));
        listing.0
    }
}

impl ShowCode for Listing {
    fn line(&mut self, offset: u64, depth: usize, text: &str) {
        self.0.push(Line::Operation { depth, offset, text: text.to_string() });
    }

    fn ends(&mut self, offset: u64, end: u64, depth: usize, why: &str) {
        self.0.push(Line::Ends { depth, end, ends: why.to_string(), offset });
    }
}

/// The tables that differ in two inputs, as they are found.
#[derive(Default)]
pub(crate) struct Compared(pub(crate) Vec<Table>);

impl ShowDifferences for Compared {
    fn alone(&mut self, is_first: bool, entry: &Entry<'_>) {
        self.0.push(Table { only: Some(side(is_first)), ..Table::of(entry, Part::Nothing) });
    }

    fn pair(&mut self, old: &Entry<'_>, _new: &Entry<'_>, found: &[Difference<'_>]) {
        let fields = Some(Fields::Changed(found.iter().map(Changed::of).collect()));
        self.0.push(Table { fields, ..Table::of(old, Part::Nothing) });
    }
}

/// What a line's end means: what comes after two spaces.
fn meaning_of(value: &str) -> Option<String> {
    let meaning = value.split_once("  ")?.1.trim();
    (!meaning.is_empty()).then(|| meaning.to_string())
}

impl Changed {
    fn of(difference: &Difference<'_>) -> Changed {
        let is_field = !difference.name.is_empty();
        let (old, new) = if is_field { (difference.old.as_deref(), difference.new.as_deref()) } else { (None, None) };
        let line = |line: &crate::compare::code::CodeLine| ChangedLine {
            depth: line.depth,
            offset: line.offset,
            only: side(line.is_first),
            text: line.text.clone(),
        };
        Changed {
            code: difference.code.iter().map(line).collect(),
            name: difference.name.to_string(),
            new: new.map(str::to_string),
            new_meaning: new.and_then(meaning_of),
            offset: difference.offset,
            old: old.map(str::to_string),
            old_meaning: old.and_then(meaning_of),
            only: (!is_field).then(|| side(difference.old.is_some())),
            structure: difference.structure(),
        }
    }
}
