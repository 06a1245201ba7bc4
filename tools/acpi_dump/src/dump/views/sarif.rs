//! What rules find as a log of the Static Analysis Results Interchange Format (SARIF, OASIS, version 2.1.0). The members
//! of an object come in the order of their names.

use crate::check::rules::{Finding, Rule, all};
use crate::document::{self, letters};
use crate::dump::run::Run;
use crate::prelude::*;
use serde::Serialize;

#[derive(Serialize)]
struct Log<'d> {
    #[serde(rename = "$schema")]
    schema: &'static str,
    runs: [RunOf<'d>; 1],
    version: &'static str,
}

#[derive(Serialize)]
struct RunOf<'d> {
    results: Vec<Found<'d>>,
    tool: Tool,
}

#[derive(Serialize)]
struct Tool {
    driver: Driver,
}

#[derive(Serialize)]
struct Driver {
    name: &'static str,
    rules: Vec<Descriptor>,
    version: &'static str,
}

#[derive(Serialize)]
#[serde(rename_all = "camelCase")]
struct Descriptor {
    default_configuration: Level,
    help: Message<'static>,
    #[serde(skip_serializing_if = "Option::is_none")]
    help_uri: Option<String>,
    id: &'static str,
    short_description: Message<'static>,
}

#[derive(Serialize)]
struct Level {
    level: &'static str,
}

#[derive(Serialize)]
struct Message<'d> {
    text: &'d str,
}

#[derive(Serialize)]
#[serde(rename_all = "camelCase")]
struct Found<'d> {
    level: &'static str,
    locations: [Location; 1],
    message: Message<'d>,
    rule_id: &'static str,
}

#[derive(Serialize)]
#[serde(rename_all = "camelCase")]
struct Location {
    logical_locations: [LogicalLocation; 1],
    physical_location: PhysicalLocation,
}

#[derive(Serialize)]
#[serde(rename_all = "camelCase")]
struct LogicalLocation {
    fully_qualified_name: String,
}

/// In a file, or at an address in the input.
#[derive(Serialize)]
#[serde(rename_all = "camelCase")]
struct PhysicalLocation {
    #[serde(skip_serializing_if = "Option::is_none")]
    address: Option<Address>,
    artifact_location: Artifact,
    #[serde(skip_serializing_if = "Option::is_none")]
    region: Option<Region>,
}

#[derive(Serialize)]
#[serde(rename_all = "camelCase")]
struct Address {
    absolute_address: u64,
}

#[derive(Serialize)]
struct Artifact {
    uri: String,
}

#[derive(Serialize)]
#[serde(rename_all = "camelCase")]
struct Region {
    byte_offset: usize,
}

/// The page of a section of ACPI 6.5, if it is of a chapter that rules name.
fn page_of(section: &str) -> Option<String> {
    let page = match section.strip_prefix("ACPI 6.5, section ")?.split_once('.')?.0 {
        "5" => "05_ACPI_Software_Programming_Model",
        "6" => "06_Device_Configuration",
        "8" => "08_Processor_Configuration_and_Control",
        "19" => "19_ASL_Reference",
        "20" => "20_AML_Specification",
        _ => return None,
    };
    Some(format!("https://uefi.org/specs/ACPI/6.5/{page}.html"))
}

/// A file's name as the relative reference of a URI (RFC 3986, sections 2.1 and 4.2).
fn reference_of(name: &str) -> String {
    let is_plain = |byte: u8| byte.is_ascii_alphanumeric() || b"-._~/".contains(&byte);
    name.bytes()
        .map(|byte| if is_plain(byte) { char::from(byte).to_string() } else { format!("%{byte:02X}") })
        .collect()
}

fn descriptor_of(rule: &Rule) -> Descriptor {
    Descriptor {
        default_configuration: Level { level: rule.severity.word() },
        help: Message { text: rule.section },
        help_uri: page_of(rule.section),
        id: rule.id,
        short_description: Message { text: rule.what },
    }
}

/// The table and the field of a finding, and its place in an input of a name.
fn location_of(finding: &Finding, entry: &Entry<'_>, name: &str) -> Location {
    let (offset, table) = (finding.offset, letters(&own_signature(entry.bytes).to_bytes()));
    let dot = if finding.field.is_empty() { "" } else { "." };
    let (file, is_file) = if let Place::File(file) = entry.place { (file, true) } else { (name, false) };
    let at = |address: u64| Address { absolute_address: address.saturating_add(offset as u64) };
    Location {
        logical_locations: [LogicalLocation { fully_qualified_name: format!("{table}{dot}{}", finding.field) }],
        physical_location: PhysicalLocation {
            address: entry.place.address().map(at),
            artifact_location: Artifact { uri: reference_of(file) },
            region: is_file.then_some(Region { byte_offset: offset }),
        },
    }
}

impl<'d> Found<'d> {
    fn of(finding: &'d Finding, entry: &Entry<'_>, name: &str) -> Found<'d> {
        Found {
            level: finding.rule.severity.word(),
            locations: [location_of(finding, entry, name)],
            message: Message { text: &finding.message },
            rule_id: finding.rule.id,
        }
    }
}

impl Run<'_> {
    /// Prints the log: one run, with findings, and all rules.
    pub(super) fn print_sarif(&mut self, findings: &[Finding], entries: &[Entry<'_>]) {
        let name = self.name();
        let version = env!("CARGO_PKG_VERSION");
        let driver = Driver { name: "acpi_dump", rules: all().map(descriptor_of).collect(), version };
        let run = RunOf {
            results: findings.iter().map(|it| Found::of(it, &entries[it.table], name)).collect(),
            tool: Tool { driver },
        };
        let schema = "https://json.schemastore.org/sarif-2.1.0.json";
        document::print(&Log { schema, runs: [run], version: "2.1.0" }, self.out);
    }
}
