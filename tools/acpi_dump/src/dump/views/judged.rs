//! What rules find in the tables of an input, as lines and as documents.

use super::read::Tables;
use crate::check::findings_of;
use crate::check::rules::{Finding, Severity, counts_of};
use crate::document::{self, Document, FindingOf, letters, wide};
use crate::dump::request::{Format, Order, View};
use crate::dump::run::Run;
use crate::prelude::*;
use acpi_programs::input::gather::Input;
use std::cmp::Reverse;

pub(super) fn place_and_message(finding: &Finding, entry: &Entry<'_>) -> String {
    let (table, offset, message) = (printed(|out| print_name(entry, out)), finding.offset, &finding.message);
    let space = if finding.field.is_empty() { "" } else { " " };
    format!("{table} 0x{offset:04x}{space}{}: {message}", finding.field)
}

/// Prints a line for each finding, and how many they are and were left out.
fn print_findings(findings: &[Finding], left_out: usize, entries: &[Entry<'_>], out: &mut Out) {
    for finding in findings {
        let (rule, entry) = (finding.rule, &entries[finding.table]);
        let (severity, id, section) = (rule.severity.word(), rule.id, rule.section);
        writeln!(out, "{severity} {id}: {} ({section})", place_and_message(finding, entry));
    }
    let [notes, warnings, errors] = counts_of(findings, Severity::Note);
    write!(out, "errors {errors}, warnings {warnings}, notes {notes}");
    if left_out > 0 {
        write!(out, ", left out {left_out}");
    }
    out.text("\n");
}

fn document_of(finding: &Finding, entry: &Entry<'_>) -> FindingOf {
    FindingOf {
        address: entry.place.address().map(wide),
        field: finding.field,
        file: if let Place::File(name) = entry.place { Some(name.to_string()) } else { None },
        message: finding.message.clone(),
        offset: finding.offset,
        rule: finding.rule.id,
        section: finding.rule.section,
        severity: finding.rule.severity.word(),
        signature: letters(&own_signature(entry.bytes).to_bytes()),
    }
}

impl Run<'_> {
    /// What rules find in tables, but for what is left out of it, and how many findings are.
    ///
    /// Fails, after printing why, if what is to be left out can't be read.
    pub(super) fn findings_in(&mut self, tables: &Tables<'_>) -> Result<(Vec<Finding>, usize), Stop> {
        let findings = findings_of(&tables.machine());
        let count = findings.len();
        let rest = self.accepted.rest_of(findings, &tables.entries, self.log)?;
        let left_out = count - rest.len();
        Ok((rest, left_out))
    }

    /// Prints what rules find in the tables of an input. Returns the status: 4 if something is bad.
    ///
    /// Fails, after printing why, if there are no tables.
    pub(super) fn print_judged(&mut self, input: &Input) -> Result<u8, Stop> {
        let tables = &self.tables_in(self.name(), input)?;
        let (mut findings, left_out) = self.findings_in(tables)?;
        match self.request.order {
            Order::Tables => {}
            Order::Rules => findings.sort_by_key(|it| it.rule.id),
            Order::Severities => findings.sort_by_key(|it| Reverse(it.rule.severity)),
        }
        let (entries, status) = (&tables.entries, self.status_of(&tables.entries, &findings));
        let least = self.request.least.unwrap_or(Severity::Note);
        findings.retain(|finding| finding.rule.severity >= least);
        match self.request.format {
            Format::Sarif => self.print_sarif(&findings, entries),
            Format::Junit => self.print_junit(&findings, entries),
            Format::Lines if self.is_json() => {
                let found = findings.iter().map(|it| document_of(it, &entries[it.table])).collect();
                document::print(&Document::of_findings(&self.request.inputs, found, left_out), self.out);
            }
            Format::Lines => print_findings(&findings, left_out, entries, self.out),
        }
        Ok(status)
    }

    /// The status if all is shown: 4 if something is bad and that is asked for, and else as of any other view.
    pub(super) fn status_of(&self, entries: &[Entry<'_>], findings: &[Finding]) -> u8 {
        let bad = self.request.least.unwrap_or(Severity::Error);
        let is_bad = self.request.view == View::Findings && findings.iter().any(|it| it.rule.severity >= bad);
        if is_bad { 4 } else { self.strict_status(entries) }
    }
}
