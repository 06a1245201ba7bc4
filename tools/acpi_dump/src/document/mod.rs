//! The documents of `--json`. Their members are in the order of their names, which docs/acpi_dump.schema.json describes.

mod constants;
mod rows;
mod tables;

use crate::prelude::*;
use crate::summary::Summary;
use serde::Serialize;
use serde_json::ser::{PrettyFormatter, Serializer};
use std::io::{self, BufWriter, Write};

pub(crate) use rows::{Row, Rows};
pub(crate) use tables::{Compared, Part, Tables};

/// The version of the documents' form.
const VERSION: u32 = 1;

/// What a view shows.
#[derive(Serialize, Default)]
pub(crate) struct Document<'d> {
    #[serde(skip_serializing_if = "Option::is_none")]
    facts: Option<Vec<FactLine<'d>>>,
    #[serde(skip_serializing_if = "Option::is_none")]
    findings: Option<Vec<FindingOf>>,
    inputs: &'d [&'d str],
    #[serde(skip_serializing_if = "Option::is_none")]
    left_out: Option<usize>,
    #[serde(skip_serializing_if = "Option::is_none")]
    machine: Option<&'d Summary>,
    #[serde(skip_serializing_if = "Option::is_none")]
    rsdps: Option<Vec<Rsdp>>,
    #[serde(skip_serializing_if = "Option::is_none")]
    rules: Option<Vec<RuleOf>>,
    #[serde(skip_serializing_if = "Option::is_none")]
    tables: Option<Tables<'d>>,
    #[serde(skip_serializing_if = "Option::is_none")]
    values: Option<Vec<Value<'d>>>,
    version: u32,
    view: &'static str,
}

#[derive(Serialize)]
struct FactLine<'d> {
    name: &'d str,
    value: &'d str,
}

#[derive(Serialize)]
pub(crate) struct FindingOf {
    #[serde(skip_serializing_if = "Option::is_none")]
    pub(crate) address: Option<String>,
    #[serde(skip_serializing_if = "str::is_empty")]
    pub(crate) field: &'static str,
    #[serde(skip_serializing_if = "Option::is_none")]
    pub(crate) file: Option<String>,
    pub(crate) message: String,
    pub(crate) offset: usize,
    pub(crate) rule: &'static str,
    pub(crate) section: &'static str,
    pub(crate) severity: &'static str,
    pub(crate) signature: String,
}

#[derive(Serialize)]
pub(crate) struct Rsdp {
    pub(crate) address: String,
    #[serde(skip_serializing_if = "Option::is_none")]
    pub(crate) revision: Option<u8>,
    #[serde(skip_serializing_if = "Option::is_none")]
    pub(crate) rsdt: Option<String>,
    pub(crate) status: String,
    pub(crate) valid: bool,
    #[serde(skip_serializing_if = "Option::is_none")]
    pub(crate) xsdt: Option<String>,
}

#[derive(Serialize)]
pub(crate) struct RuleOf {
    pub(crate) advice: &'static str,
    pub(crate) rule: &'static str,
    pub(crate) section: &'static str,
    pub(crate) severity: &'static str,
    pub(crate) what: &'static str,
}

/// A value that a word requests, if a table has it.
#[derive(Serialize)]
pub(crate) struct Value<'d> {
    pub(crate) found: Option<Row>,
    pub(crate) get: &'d str,
}

impl<'d> Document<'d> {
    fn new(inputs: &'d [&'d str], view: &'static str) -> Document<'d> {
        Document { inputs, version: VERSION, view, ..Document::default() }
    }

    pub(crate) fn of_findings(inputs: &'d [&'d str], findings: Vec<FindingOf>, left_out: usize) -> Document<'d> {
        Document { findings: Some(findings), left_out: Some(left_out), ..Document::new(inputs, "check") }
    }

    pub(crate) fn of_rsdps(inputs: &'d [&'d str], rsdps: Vec<Rsdp>) -> Document<'d> {
        Document { rsdps: Some(rsdps), ..Document::new(inputs, "find") }
    }

    pub(crate) fn of_rules(inputs: &'d [&'d str], rules: Vec<RuleOf>) -> Document<'d> {
        Document { rules: Some(rules), ..Document::new(inputs, "rules") }
    }

    pub(crate) fn of_tables(inputs: &'d [&'d str], view: &'static str, tables: Tables<'d>) -> Document<'d> {
        Document { tables: Some(tables), ..Document::new(inputs, view) }
    }

    pub(crate) fn of_values(inputs: &'d [&'d str], values: Vec<Value<'d>>) -> Document<'d> {
        Document { values: Some(values), ..Document::new(inputs, "get") }
    }

    /// A machine in short: its lines, each a name, a tab and what holds, and what they contain.
    pub(crate) fn of_machine(inputs: &'d [&'d str], lines: &'d str, machine: &'d Summary) -> Document<'d> {
        let facts = lines.lines().map(|line| line.split_once('\t').unwrap_or((line, "")));
        let facts = Some(facts.map(|(name, value)| FactLine { name, value }).collect());
        Document { facts, machine: Some(machine), ..Document::new(inputs, "summary") }
    }
}

/// An address, or another number that may have more than 53 bits.
pub(crate) fn wide(number: u64) -> String {
    format!("0x{number:x}")
}

/// Bytes as characters, those that aren't printable ASCII as `.`.
pub(crate) fn letters(bytes: &[u8]) -> String {
    printed(|out| print_text(bytes, out))
}

fn hex(bytes: &[u8]) -> String {
    printed(|out| print_hex(bytes, out))
}

pub(crate) fn print(document: &impl Serialize, out: &mut Out) {
    let mut written = BufWriter::new(Escaped(&mut *out));
    let printed = document.serialize(&mut Serializer::with_formatter(&mut written, PrettyFormatter::new()));
    printed.expect("memory is written");
    written.flush().expect("memory is written");
    drop(written);
    out.text("\n");
}

/// What writes JSON with the bytes 0x7f escaped, which its texts may have as they are: a terminal would obey them.
struct Escaped<'o>(&'o mut Out);

impl Write for Escaped<'_> {
    fn write(&mut self, json: &[u8]) -> io::Result<usize> {
        if !json.contains(&0x7f) {
            self.0.bytes(json);
            return Ok(json.len());
        }
        for (number, part) in json.split(|byte| *byte == 0x7f).enumerate() {
            if number > 0 {
                self.0.text("\\u007f");
            }
            self.0.bytes(part);
        }
        Ok(json.len())
    }

    fn flush(&mut self) -> io::Result<()> {
        Ok(())
    }
}
